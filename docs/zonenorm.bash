# Completion of zonenorm for bash. tools/package/install puts it where bash looks for it.
_zonenorm() {
    local word=${COMP_WORDS[COMP_CWORD]} command=${COMP_WORDS[1]}
    COMPREPLY=()
    if ((COMP_CWORD == 1)); then
        mapfile -t COMPREPLY < <(compgen -W 'normalise explain compare help --help --version' -- "$word")
        return
    fi
    case $command:$COMP_CWORD in
        help:2) mapfile -t COMPREPLY < <(compgen -W 'normalise explain compare' -- "$word") ;;
        normalise:2 | explain:2 | compare:2 | compare:4)
            mapfile -t COMPREPLY < <(compgen -W 'transfer' -- "$word")
            ;;
        compare:3 | compare:5)
            compopt -o filenames 2> /dev/null
            mapfile -t COMPREPLY < <(compgen -f -- "$word")
            ;;
    esac
}
complete -F _zonenorm zonenorm
