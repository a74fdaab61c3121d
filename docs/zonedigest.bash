# Completion of zonedigest for bash. tools/package/install puts it where bash looks for it.
_zonedigest() {
    local word=${COMP_WORDS[COMP_CWORD]} command=${COMP_WORDS[1]}
    COMPREPLY=()
    case $COMP_CWORD:$command in
        1:*) mapfile -t COMPREPLY < <(compgen -W 'verify digest help --help --version' -- "$word") ;;
        2:help) mapfile -t COMPREPLY < <(compgen -W 'verify digest' -- "$word") ;;
        2:verify) mapfile -t COMPREPLY < <(compgen -W 'transfer' -- "$word") ;;
        *:digest)
            mapfile -t COMPREPLY < <(compgen -W 'transfer --sha512 --generic' -- "$word")
            ;;
    esac
}
complete -F _zonedigest zonedigest
