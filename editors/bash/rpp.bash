# Completion of `rpp` for bash: commands, options, sources and the fields of an input, as `rpp complete` names them.
_rpp() {
    local words=() word at
    # (a word such as count=4 comes in three parts here)
    for word in "${COMP_WORDS[@]:1:COMP_CWORD}"; do
        if [ ${#words[@]} -gt 0 ] && { [ "$word" = = ] || [[ ${words[-1]} == *= ]]; }; then
            words[-1]+=$word
        else
            words+=("$word")
        fi
    done
    # (quotes and backslashes are as typed)
    for at in "${!words[@]}"; do
        case ${words[at]} in
            [\"\']*) word=${words[at]#?}; words[at]=${word%[\"\']} ;;
            *) words[at]=${words[at]//\\/} ;;
        esac
    done
    mapfile -t COMPREPLY < <("${COMP_WORDS[0]}" complete "${words[@]}" 2>/dev/null)
    # (of a file such as a=b.rpp the shell completes only what is after the sign)
    at=${COMP_WORDS[COMP_CWORD]}
    [[ ${words[-1]:-} != *=* || $at == *=* && $at != = ]] || COMPREPLY=("${COMPREPLY[@]#"${words[-1]%=*}="}")
    case ${COMPREPLY[0]:-} in
        *=) compopt -o nospace ;;
        */) compopt -o filenames -o nospace ;;
        *) compopt -o filenames ;;
    esac 2>/dev/null
}
complete -F _rpp rpp ./rpp
