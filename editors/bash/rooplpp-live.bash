# Completion of `rooplpp-live` for bash, as that of `rooplpp`. tools/map writes the forms.
_rooplpp_live() {
    local word=${COMP_WORDS[COMP_CWORD]} forms=() form=() at=$((COMP_CWORD - 1))
# <!-- forms -->
    forms+=('source F - - F -')
    forms+=('image F - - F -')
# <!-- end -->
    if [ "$at" -eq 0 ]; then
        mapfile -t COMPREPLY < <(compgen -W "${forms[*]%% *}" -- "$word")
        return
    fi
    COMPREPLY=()
    read -r -a form < <(printf '%s\n' "${forms[@]}" | grep "^${COMP_WORDS[1]} ")
    [ "$at" -lt ${#form[@]} ] || at=$((${#form[@]} - 1))
    [ "$at" -lt 0 ] || [ "${form[at]}" != F ] || mapfile -t COMPREPLY < <(compgen -f -- "$word")
}
complete -o filenames -F _rooplpp_live rooplpp-live ./rooplpp-live
