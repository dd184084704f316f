# Completion of `rooplpp` for bash: commands and files. In a form, F is a file and - another word; the last one is
# for all words that follow. tools/map writes the forms.
_rooplpp() {
    local word=${COMP_WORDS[COMP_CWORD]} forms=() form=() at=$((COMP_CWORD - 1))
# <!-- forms -->
    forms+=('check F -')
    forms+=('go F - - - F -')
    forms+=('turn F - - - F -')
    forms+=('profile F - - - -')
    forms+=('wrap F - - - - F -')
    forms+=('explain F - - - F -')
    forms+=('trace F - - F F -')
    forms+=('compile F F -')
    forms+=('show-inverse F F -')
    forms+=('generate - - F -')
    forms+=('list F F -')
    forms+=('flip F F -')
    forms+=('asm F F -')
    forms+=('run F - - - F F -')
    forms+=('debug F - - F -')
    forms+=('cluster F - F F')
# <!-- end -->
    if [ "$at" -eq 0 ]; then
        mapfile -t COMPREPLY < <(compgen -W "${forms[*]%% *}" -- "$word")
        return
    fi
    COMPREPLY=()
    read -r -a form < <(printf '%s\n' "${forms[@]}" | grep "^${COMP_WORDS[1]} ")
    [ "$at" -lt ${#form[@]} ] || at=$((${#form[@]} - 1))
    [ "$at" -lt 0 ] || [ "${form[at]}" != F ] || mapfile -t COMPREPLY < <(compgen -f -- "$word")
}
complete -o filenames -F _rooplpp rooplpp ./rooplpp
