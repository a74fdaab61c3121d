# Completion of zonectl for bash. `zonectl completion bash` makes it from the parsers.
_zonectl() {
    local word=${COMP_WORDS[COMP_CWORD]} before=${COMP_WORDS[COMP_CWORD - 1]} options=''
    COMPREPLY=()
    if [ "$COMP_CWORD" -eq 1 ]; then
        mapfile -t COMPREPLY < <(compgen -W 'check completion diff fetch fleet normalise normalize sum zonemd --help --version -V -h' -- "$word")
        return
    fi
    case ${COMP_WORDS[1]}:$before in
        check:--format) mapfile -t COMPREPLY < <(compgen -W 'text json github' -- "$word") && return ;;
        check:--color) mapfile -t COMPREPLY < <(compgen -W 'auto always never' -- "$word") && return ;;
        check:--origin-from) mapfile -t COMPREPLY < <(compgen -W 'name text' -- "$word") && return ;;
        completion:--color) mapfile -t COMPREPLY < <(compgen -W 'auto always never' -- "$word") && return ;;
        completion:completion) mapfile -t COMPREPLY < <(compgen -W 'bash zsh fish' -- "$word") && return ;;
        diff:-i|diff:--ignore) mapfile -t COMPREPLY < <(compgen -W 'serial ttl dnssec' -- "$word") && return ;;
        diff:-n|diff:--lines) mapfile -t COMPREPLY < <(compgen -W 'all' -- "$word") && return ;;
        diff:--format) mapfile -t COMPREPLY < <(compgen -W 'text json patch nsupdate github' -- "$word") && return ;;
        diff:--color) mapfile -t COMPREPLY < <(compgen -W 'auto always never' -- "$word") && return ;;
        diff:--origin-from) mapfile -t COMPREPLY < <(compgen -W 'name text' -- "$word") && return ;;
        fetch:--color) mapfile -t COMPREPLY < <(compgen -W 'auto always never' -- "$word") && return ;;
        fleet:--color) mapfile -t COMPREPLY < <(compgen -W 'auto always never' -- "$word") && return ;;
        fleet:fleet) mapfile -t COMPREPLY < <(compgen -W 'run report merge' -- "$word") && return ;;
        normalise:--color) mapfile -t COMPREPLY < <(compgen -W 'auto always never' -- "$word") && return ;;
        normalise:--origin-from) mapfile -t COMPREPLY < <(compgen -W 'name text' -- "$word") && return ;;
        normalize:--color) mapfile -t COMPREPLY < <(compgen -W 'auto always never' -- "$word") && return ;;
        normalize:--origin-from) mapfile -t COMPREPLY < <(compgen -W 'name text' -- "$word") && return ;;
        sum:--color) mapfile -t COMPREPLY < <(compgen -W 'auto always never' -- "$word") && return ;;
        sum:--origin-from) mapfile -t COMPREPLY < <(compgen -W 'name text' -- "$word") && return ;;
        zonemd:--color) mapfile -t COMPREPLY < <(compgen -W 'auto always never' -- "$word") && return ;;
        zonemd:--origin-from) mapfile -t COMPREPLY < <(compgen -W 'name text' -- "$word") && return ;;
        zonemd:zonemd) mapfile -t COMPREPLY < <(compgen -W 'verify add' -- "$word") && return ;;
    esac
    case ${COMP_WORDS[1]} in
        check) options='--color --deadline --format --help --jobs --json --key --lint --list --max-faults --max-size --no-lint --origin --origin-from --output --quiet --run-deadline --staged --strict --timeout --tls-ca --tls-client --tls-name --tls-no-verify --version -O -V -h -j -k -o -q -t' ;;
        completion) options='--color --help --output --quiet --version -V -h -o -q' ;;
        diff) options='--color --deadline --exact --format --help --ignore --json --key --lines --max-size --origin --origin-from --output --parts --presentation --quiet --require-zonemd --run-deadline --since --timeout --tls-ca --tls-client --tls-name --tls-no-verify --version -O -V -e -h -i -k -n -o -p -q -t -z' ;;
        fetch) options='--color --deadline --help --json --key --max-size --output --partial --quiet --run-deadline --timeout --tls-ca --tls-client --tls-name --tls-no-verify --version -V -h -k -o -q -t' ;;
        fleet) options='--check-config --color --config --exit-zero --full --help --html --jobs --max-size --metrics --output --part --quiet --results --verbose --version -V -c -h -j -o -q' ;;
        normalise) options='--archive --color --deadline --fold --help --json --key --max-size --origin --origin-from --output --output-dir --presentation --quiet --run-deadline --textconv --timeout --tls-ca --tls-client --tls-name --tls-no-verify --version -O -V -h -k -o -p -q -t' ;;
        normalize) options='--archive --color --deadline --fold --help --json --key --max-size --origin --origin-from --output --output-dir --presentation --quiet --run-deadline --textconv --timeout --tls-ca --tls-client --tls-name --tls-no-verify --version -O -V -h -k -o -p -q -t' ;;
        sum) options='--check --color --deadline --fold --help --jobs --json --key --max-size --origin --origin-from --output --quiet --run-deadline --timeout --tls-ca --tls-client --tls-name --tls-no-verify --version -O -V -h -j -k -o -q -t' ;;
        zonemd) options='--color --deadline --help --json --key --max-size --origin --origin-from --output --quiet --record --run-deadline --serial --sha512 --timeout --tls-ca --tls-client --tls-name --tls-no-verify --version -O -V -h -k -o -q -t' ;;
    esac
    case $word in
        -*) mapfile -t COMPREPLY < <(compgen -W "$options" -- "$word") ;;
        *)
            compopt -o filenames 2> /dev/null
            mapfile -t COMPREPLY < <(compgen -f -- "$word")
            ;;
    esac
}
complete -F _zonectl zonectl
