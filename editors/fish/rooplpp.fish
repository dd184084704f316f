# Completion of `rooplpp` for fish: commands and files. In a form, F is a file and - another word; the last one is
# for all words that follow. tools/map writes the forms.
set -g __rooplpp_forms
# <!-- forms -->
set -a __rooplpp_forms 'check F -'
set -a __rooplpp_forms 'go F - - - F -'
set -a __rooplpp_forms 'turn F - - - F -'
set -a __rooplpp_forms 'profile F - - - -'
set -a __rooplpp_forms 'wrap F - - - - F -'
set -a __rooplpp_forms 'explain F - - - F -'
set -a __rooplpp_forms 'trace F - - F F -'
set -a __rooplpp_forms 'compile F F -'
set -a __rooplpp_forms 'show-inverse F F -'
set -a __rooplpp_forms 'generate - - F -'
set -a __rooplpp_forms 'list F F -'
set -a __rooplpp_forms 'flip F F -'
set -a __rooplpp_forms 'asm F F -'
set -a __rooplpp_forms 'run F - - - F F -'
set -a __rooplpp_forms 'debug F - - F -'
set -a __rooplpp_forms 'cluster F - F F'
# <!-- end -->
function __rooplpp_takes_file
    set -l words (commandline -opc)
    set -l form (string match -- "$words[2] *" $__rooplpp_forms | string split ' ')
    set -l at (count $words)
    test $at -le (count $form); or set at (count $form)
    set -q form[1]; and test "$form[$at]" = F
end
complete -c rooplpp -f
complete -c rooplpp -n 'test (count (commandline -opc)) -eq 1' -a '(string replace -r " .*" "" $__rooplpp_forms)'
complete -c rooplpp -n __rooplpp_takes_file -F
