# Completion of zonefile for bash. tools/package/install puts it where bash looks for it.
_zonefile() {
    local word=${COMP_WORDS[COMP_CWORD]} command=${COMP_WORDS[1]} before=${COMP_WORDS[COMP_CWORD - 1]}
    local at place=0 words=
    COMPREPLY=()
    if ((COMP_CWORD == 1)); then
        mapfile -t COMPREPLY < <(compgen -W 'normalise explain compare diff check expand help --help --version' -- "$word")
        return
    fi
    if [ "$before" = --directory ]; then
        compopt -o filenames 2> /dev/null
        mapfile -t COMPREPLY < <(compgen -d -- "$word")
        return
    fi
    if [[ $word == -* ]]; then
        words='--directory --help'
        [ "$command" = normalise ] && words="--words $words"
        [ "$command" = check ] && words="--most $words"
        [ "$command" = diff ] && words="--exact --generic $words"
        mapfile -t COMPREPLY < <(compgen -W "$words" -- "$word")
        return
    fi
    # The place of the word among the arguments that are no options.
    for ((at = 2; at < COMP_CWORD; at++)); do
        case ${COMP_WORDS[at]} in
            --directory | --most) ((at++)) ;;
            --*) ;;
            *) ((++place)) ;;
        esac
    done
    case $command:$place in
        help:0) words='normalise explain compare diff check expand' ;;
        normalise:0 | explain:0 | compare:[02] | diff:[02]) words=transfer ;;
        normalise:1 | explain:1 | check:1 | expand:1 | compare:[13] | diff:[13])
            compopt -o filenames 2> /dev/null
            mapfile -t COMPREPLY < <(compgen -f -- "$word")
            return
            ;;
    esac
    mapfile -t COMPREPLY < <(compgen -W "$words" -- "$word")
}
complete -F _zonefile zonefile
