# Completion of zonewords for bash. tools/package/install puts it where bash looks for it.
_zonewords() {
    local word=${COMP_WORDS[COMP_CWORD]}
    COMPREPLY=()
    if [ "$COMP_CWORD" = 1 ]; then
        mapfile -t COMPREPLY < <(compgen -W 'generic words help --help --version' -- "$word")
    elif [ "$COMP_CWORD" = 2 ] && [ "${COMP_WORDS[1]}" = help ]; then
        mapfile -t COMPREPLY < <(compgen -W 'generic words' -- "$word")
    fi
}
complete -F _zonewords zonewords
