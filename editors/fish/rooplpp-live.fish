# Completion of `rooplpp-live` for fish, as that of `rooplpp`. tools/map writes the forms.
set -g __rooplpp_live_forms
# <!-- forms -->
set -a __rooplpp_live_forms 'source F - - F -'
set -a __rooplpp_live_forms 'image F - - F -'
# <!-- end -->
function __rooplpp_live_takes_file
    set -l words (commandline -opc)
    set -l form (string match -- "$words[2] *" $__rooplpp_live_forms | string split ' ')
    set -l at (count $words)
    test $at -le (count $form); or set at (count $form)
    set -q form[1]; and test "$form[$at]" = F
end
complete -c rooplpp-live -f
complete -c rooplpp-live -n 'test (count (commandline -opc)) -eq 1' -a '(string replace -r " .*" "" $__rooplpp_live_forms)'
complete -c rooplpp-live -n __rooplpp_live_takes_file -F
