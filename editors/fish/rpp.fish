# Completion of `rpp` for fish: commands, options, sources and the fields of an input, as `rpp complete` names them.
function __rpp_complete
    set -l words (commandline -opc)
    # (the last word is as typed, with quotes and backslashes)
    set -l last (commandline -ct)
    if string match -qr '^["\']' -- $last
        set last (string sub -s 2 -- $last)
    else
        set last (string unescape -- $last)
    end
    $words[1] complete $words[2..-1] "$last" 2>/dev/null
end
complete -c rpp -f -a '(__rpp_complete)'
