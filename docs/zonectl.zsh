#compdef zonectl
# Completion of zonectl for zsh. `zonectl completion zsh` makes it from the parsers.
_zonectl() {
    local -a commands=(
        'check:print what is wrong with zone files, and which servers refuse them'
        'completion:print a completion for the shell'
        'diff:print how two copies of a zone differ'
        'fetch:keep the octets that a server sends'
        'fleet:compare many zones with many servers'
        'normalise:print the canonical text of a zone'
        'normalize:print the canonical text of a zone'
        'sum:print the digest of each zone; sum --check FILE compares'
        'zonemd:verify a zone against its ZONEMD record, or give it one'
    )
    if (( CURRENT == 2 )); then
        _describe command commands
        _arguments '(- *)'{-h,--help}'[print help]' '(- *)'{-V,--version}'[print the versions]'
        return
    fi
    shift words
    (( CURRENT-- ))
    case $words[1] in
        check)
            _arguments -S \
                '(-h --help)-h[print this help]' \
                '(-h --help)--help[print this help]' \
                '(-V --version)-V[print the versions of zonectl, zonenorm and the text]' \
                '(-V --version)--version[print the versions of zonectl, zonenorm and the text]' \
                '--lint=-[what any of these refuses or warns of\: bind,nsd,knot; all of them if none is named (--lint=bind); without this option what all three refuse]::SERVERS: ' \
                '--no-lint[faults alone]' \
                '--strict[warnings are errors]' \
                '--format=[text, json or github (annotations)]:FORMAT:(text json github)' \
                '--staged[check what is staged in git]' \
                '--list=[check the lines ZONE SOURCE of FILE (- is standard input)]:FILE:_files' \
                '--max-faults=[report so many of a file (20)]:N: ' \
                '(-j --jobs)-j+[so many inputs at once (the number of CPUs, at most 8)]:N: ' \
                '(-j --jobs)--jobs=[so many inputs at once (the number of CPUs, at most 8)]:N: ' \
                '(-o --output)-o+[write there, whole or not at all (standard output)]:FILE:_files' \
                '(-o --output)--output=[write there, whole or not at all (standard output)]:FILE:_files' \
                '(-q --quiet)-q[no output and no notes where the status is 0]' \
                '(-q --quiet)--quiet[no output and no notes where the status is 0]' \
                '--json[the result as a JSON object]' \
                '--color=[colours\: auto (on a terminal), always or never]:WHEN:(auto always never)' \
                '(-O --origin)-O+[the zone of a file]:NAME: ' \
                '(-O --origin)--origin=[the zone of a file]:NAME: ' \
                '--origin-from=[name or text\: which one says the zone of a file, where its name and its text disagree]:WHICH:(name text)' \
                '*-k+[TSIG keys as tsig-keygen writes them; may be repeated]:FILE:_files' \
                '*--key=[TSIG keys as tsig-keygen writes them; may be repeated]:FILE:_files' \
                '--tls-ca=[trust these certificates (PEM) instead of the system'\''s]:FILE:_files' \
                '--tls-name=[the name in the server'\''s certificate, if it isn'\''t HOST]:NAME: ' \
                '--tls-client=[client certificate and key (PEM)]:FILE:_files' \
                '--tls-no-verify[don'\''t check the server'\''s certificate]' \
                '(-t --timeout)-t+[bound of each wait (30s; 0\: none)]:TIME: ' \
                '(-t --timeout)--timeout=[bound of each wait (30s; 0\: none)]:TIME: ' \
                '--deadline=[bound of one source (10m; 0\: none)]:TIME: ' \
                '--run-deadline=[bound of the command (1h; 0\: none)]:TIME: ' \
                '--max-size=[bound of one source after decompression (128M; at most 1G)]:SIZE: ' \
                '*:source:_files'
            ;;
        completion)
            _arguments -S \
                '(-h --help)-h[print this help]' \
                '(-h --help)--help[print this help]' \
                '(-V --version)-V[print the versions of zonectl, zonenorm and the text]' \
                '(-V --version)--version[print the versions of zonectl, zonenorm and the text]' \
                '(-o --output)-o+[write there, whole or not at all (standard output)]:FILE:_files' \
                '(-o --output)--output=[write there, whole or not at all (standard output)]:FILE:_files' \
                '(-q --quiet)-q[no output and no notes where the status is 0]' \
                '(-q --quiet)--quiet[no output and no notes where the status is 0]' \
                '--color=[colours\: auto (on a terminal), always or never]:WHEN:(auto always never)' \
                '1:what:(bash zsh fish)' '*:source:_files'
            ;;
        diff)
            _arguments -S \
                '(-h --help)-h[print this help]' \
                '(-h --help)--help[print this help]' \
                '(-V --version)-V[print the versions of zonectl, zonenorm and the text]' \
                '(-V --version)--version[print the versions of zonectl, zonenorm and the text]' \
                '--since=[compare the zone files of the working tree with those of a git revision]:REV: ' \
                '(-i --ignore)-i+[leave out, separated by commas\: serial, ttl, dnssec (what a signer adds), or types as CAA or TYPE257]:LIST:(serial ttl dnssec)' \
                '(-i --ignore)--ignore=[leave out, separated by commas\: serial, ttl, dnssec (what a signer adds), or types as CAA or TYPE257]:LIST:(serial ttl dnssec)' \
                '(-e --exact)-e[compare names in RDATA with their letter case]' \
                '(-e --exact)--exact[compare names in RDATA with their letter case]' \
                '(-z --require-zonemd)-z[refuse a transfer that its ZONEMD records don'\''t verify]' \
                '(-z --require-zonemd)--require-zonemd[refuse a transfer that its ZONEMD records don'\''t verify]' \
                '(-n --lines)-n+[show so many lines of a difference (200), or all]:N:(all)' \
                '(-n --lines)--lines=[show so many lines of a difference (200), or all]:N:(all)' \
                '--format=[text, json, patch (a unified diff, always exact), nsupdate (commands that make A into B) or github (Markdown)]:FORMAT:(text json patch nsupdate github)' \
                '--parts=[write each part of --format=nsupdate as DIR/0001, ..]:DIR:_directories' \
                '(-p --presentation)-p[further types in presentation format, in a patch]' \
                '(-p --presentation)--presentation[further types in presentation format, in a patch]' \
                '(-o --output)-o+[write there, whole or not at all (standard output)]:FILE:_files' \
                '(-o --output)--output=[write there, whole or not at all (standard output)]:FILE:_files' \
                '(-q --quiet)-q[no output and no notes where the status is 0]' \
                '(-q --quiet)--quiet[no output and no notes where the status is 0]' \
                '--json[the result as a JSON object]' \
                '--color=[colours\: auto (on a terminal), always or never]:WHEN:(auto always never)' \
                '(-O --origin)-O+[the zone of a file]:NAME: ' \
                '(-O --origin)--origin=[the zone of a file]:NAME: ' \
                '--origin-from=[name or text\: which one says the zone of a file, where its name and its text disagree]:WHICH:(name text)' \
                '*-k+[TSIG keys as tsig-keygen writes them; may be repeated]:FILE:_files' \
                '*--key=[TSIG keys as tsig-keygen writes them; may be repeated]:FILE:_files' \
                '--tls-ca=[trust these certificates (PEM) instead of the system'\''s]:FILE:_files' \
                '--tls-name=[the name in the server'\''s certificate, if it isn'\''t HOST]:NAME: ' \
                '--tls-client=[client certificate and key (PEM)]:FILE:_files' \
                '--tls-no-verify[don'\''t check the server'\''s certificate]' \
                '(-t --timeout)-t+[bound of each wait (30s; 0\: none)]:TIME: ' \
                '(-t --timeout)--timeout=[bound of each wait (30s; 0\: none)]:TIME: ' \
                '--deadline=[bound of one source (10m; 0\: none)]:TIME: ' \
                '--run-deadline=[bound of the command (1h; 0\: none)]:TIME: ' \
                '--max-size=[bound of one source after decompression (128M; at most 1G)]:SIZE: ' \
                '*:source:_files'
            ;;
        fetch)
            _arguments -S \
                '(-h --help)-h[print this help]' \
                '(-h --help)--help[print this help]' \
                '(-V --version)-V[print the versions of zonectl, zonenorm and the text]' \
                '(-V --version)--version[print the versions of zonectl, zonenorm and the text]' \
                '--partial[keep what came before a failure]' \
                '(-o --output)-o+[write there, whole or not at all (standard output)]:FILE:_files' \
                '(-o --output)--output=[write there, whole or not at all (standard output)]:FILE:_files' \
                '(-q --quiet)-q[no output and no notes where the status is 0]' \
                '(-q --quiet)--quiet[no output and no notes where the status is 0]' \
                '--json[the result as a JSON object]' \
                '--color=[colours\: auto (on a terminal), always or never]:WHEN:(auto always never)' \
                '*-k+[TSIG keys as tsig-keygen writes them; may be repeated]:FILE:_files' \
                '*--key=[TSIG keys as tsig-keygen writes them; may be repeated]:FILE:_files' \
                '--tls-ca=[trust these certificates (PEM) instead of the system'\''s]:FILE:_files' \
                '--tls-name=[the name in the server'\''s certificate, if it isn'\''t HOST]:NAME: ' \
                '--tls-client=[client certificate and key (PEM)]:FILE:_files' \
                '--tls-no-verify[don'\''t check the server'\''s certificate]' \
                '(-t --timeout)-t+[bound of each wait (30s; 0\: none)]:TIME: ' \
                '(-t --timeout)--timeout=[bound of each wait (30s; 0\: none)]:TIME: ' \
                '--deadline=[bound of one source (10m; 0\: none)]:TIME: ' \
                '--run-deadline=[bound of the command (1h; 0\: none)]:TIME: ' \
                '--max-size=[bound of one source after decompression (128M; at most 1G)]:SIZE: ' \
                '*:source:_files'
            ;;
        fleet)
            _arguments -S \
                '(-h --help)-h[print this help]' \
                '(-h --help)--help[print this help]' \
                '(-V --version)-V[print the versions of zonectl, zonenorm and the text]' \
                '(-V --version)--version[print the versions of zonectl, zonenorm and the text]' \
                '(-c --config)-c+[the configuration (run)]:FILE:_files' \
                '(-c --config)--config=[the configuration (run)]:FILE:_files' \
                '--check-config[read the configuration and what it names, and compare nothing (run)]' \
                '--full[transfer all zones, whatever the state says (run)]' \
                '--part=[compare the K-th of N parts; auto/N in a task of Slurm or an indexed job (run)]:K/N: ' \
                '--results=[write the results as lines of JSON (run)]:FILE:_files' \
                '--exit-zero[status 0 if the results were written (run)]' \
                '--html=[write a page of HTML]:FILE:_files' \
                '--metrics=[write metrics for Prometheus]:FILE:_files' \
                '--verbose[a line on standard error for each zone that isn'\''t compared]' \
                '--max-size=[bound of one source after decompression (128M; at most 1G)]:SIZE: ' \
                '(-j --jobs)-j+[so many inputs at once (the number of CPUs, at most 8)]:N: ' \
                '(-j --jobs)--jobs=[so many inputs at once (the number of CPUs, at most 8)]:N: ' \
                '(-o --output)-o+[write there, whole or not at all (standard output)]:FILE:_files' \
                '(-o --output)--output=[write there, whole or not at all (standard output)]:FILE:_files' \
                '(-q --quiet)-q[no output and no notes where the status is 0]' \
                '(-q --quiet)--quiet[no output and no notes where the status is 0]' \
                '--color=[colours\: auto (on a terminal), always or never]:WHEN:(auto always never)' \
                '1:what:(run report merge)' '*:source:_files'
            ;;
        normalise)
            _arguments -S \
                '(-h --help)-h[print this help]' \
                '(-h --help)--help[print this help]' \
                '(-V --version)-V[print the versions of zonectl, zonenorm and the text]' \
                '(-V --version)--version[print the versions of zonectl, zonenorm and the text]' \
                '(-p --presentation)-p[further types in presentation format]' \
                '(-p --presentation)--presentation[further types in presentation format]' \
                '--fold[names in RDATA in lower case too]' \
                '--output-dir=[write DIR/ZONE.zone for each source]:DIR:_directories' \
                '--archive=[write DIR/ZONE.SERIAL for each source, and never another text under that serial]:DIR:_directories' \
                '--textconv[for git\: as -p, and a refused file is copied as it is]' \
                '(-o --output)-o+[write there, whole or not at all (standard output)]:FILE:_files' \
                '(-o --output)--output=[write there, whole or not at all (standard output)]:FILE:_files' \
                '(-q --quiet)-q[no output and no notes where the status is 0]' \
                '(-q --quiet)--quiet[no output and no notes where the status is 0]' \
                '--json[the result as a JSON object]' \
                '--color=[colours\: auto (on a terminal), always or never]:WHEN:(auto always never)' \
                '(-O --origin)-O+[the zone of a file]:NAME: ' \
                '(-O --origin)--origin=[the zone of a file]:NAME: ' \
                '--origin-from=[name or text\: which one says the zone of a file, where its name and its text disagree]:WHICH:(name text)' \
                '*-k+[TSIG keys as tsig-keygen writes them; may be repeated]:FILE:_files' \
                '*--key=[TSIG keys as tsig-keygen writes them; may be repeated]:FILE:_files' \
                '--tls-ca=[trust these certificates (PEM) instead of the system'\''s]:FILE:_files' \
                '--tls-name=[the name in the server'\''s certificate, if it isn'\''t HOST]:NAME: ' \
                '--tls-client=[client certificate and key (PEM)]:FILE:_files' \
                '--tls-no-verify[don'\''t check the server'\''s certificate]' \
                '(-t --timeout)-t+[bound of each wait (30s; 0\: none)]:TIME: ' \
                '(-t --timeout)--timeout=[bound of each wait (30s; 0\: none)]:TIME: ' \
                '--deadline=[bound of one source (10m; 0\: none)]:TIME: ' \
                '--run-deadline=[bound of the command (1h; 0\: none)]:TIME: ' \
                '--max-size=[bound of one source after decompression (128M; at most 1G)]:SIZE: ' \
                '*:source:_files'
            ;;
        normalize)
            _arguments -S \
                '(-h --help)-h[print this help]' \
                '(-h --help)--help[print this help]' \
                '(-V --version)-V[print the versions of zonectl, zonenorm and the text]' \
                '(-V --version)--version[print the versions of zonectl, zonenorm and the text]' \
                '(-p --presentation)-p[further types in presentation format]' \
                '(-p --presentation)--presentation[further types in presentation format]' \
                '--fold[names in RDATA in lower case too]' \
                '--output-dir=[write DIR/ZONE.zone for each source]:DIR:_directories' \
                '--archive=[write DIR/ZONE.SERIAL for each source, and never another text under that serial]:DIR:_directories' \
                '--textconv[for git\: as -p, and a refused file is copied as it is]' \
                '(-o --output)-o+[write there, whole or not at all (standard output)]:FILE:_files' \
                '(-o --output)--output=[write there, whole or not at all (standard output)]:FILE:_files' \
                '(-q --quiet)-q[no output and no notes where the status is 0]' \
                '(-q --quiet)--quiet[no output and no notes where the status is 0]' \
                '--json[the result as a JSON object]' \
                '--color=[colours\: auto (on a terminal), always or never]:WHEN:(auto always never)' \
                '(-O --origin)-O+[the zone of a file]:NAME: ' \
                '(-O --origin)--origin=[the zone of a file]:NAME: ' \
                '--origin-from=[name or text\: which one says the zone of a file, where its name and its text disagree]:WHICH:(name text)' \
                '*-k+[TSIG keys as tsig-keygen writes them; may be repeated]:FILE:_files' \
                '*--key=[TSIG keys as tsig-keygen writes them; may be repeated]:FILE:_files' \
                '--tls-ca=[trust these certificates (PEM) instead of the system'\''s]:FILE:_files' \
                '--tls-name=[the name in the server'\''s certificate, if it isn'\''t HOST]:NAME: ' \
                '--tls-client=[client certificate and key (PEM)]:FILE:_files' \
                '--tls-no-verify[don'\''t check the server'\''s certificate]' \
                '(-t --timeout)-t+[bound of each wait (30s; 0\: none)]:TIME: ' \
                '(-t --timeout)--timeout=[bound of each wait (30s; 0\: none)]:TIME: ' \
                '--deadline=[bound of one source (10m; 0\: none)]:TIME: ' \
                '--run-deadline=[bound of the command (1h; 0\: none)]:TIME: ' \
                '--max-size=[bound of one source after decompression (128M; at most 1G)]:SIZE: ' \
                '*:source:_files'
            ;;
        sum)
            _arguments -S \
                '(-h --help)-h[print this help]' \
                '(-h --help)--help[print this help]' \
                '(-V --version)-V[print the versions of zonectl, zonenorm and the text]' \
                '(-V --version)--version[print the versions of zonectl, zonenorm and the text]' \
                '--fold[names in RDATA in lower case too]' \
                '--check=[compare zones with the lines of FILE (- is standard input)]:FILE:_files' \
                '(-j --jobs)-j+[so many inputs at once (the number of CPUs, at most 8)]:N: ' \
                '(-j --jobs)--jobs=[so many inputs at once (the number of CPUs, at most 8)]:N: ' \
                '(-o --output)-o+[write there, whole or not at all (standard output)]:FILE:_files' \
                '(-o --output)--output=[write there, whole or not at all (standard output)]:FILE:_files' \
                '(-q --quiet)-q[no output and no notes where the status is 0]' \
                '(-q --quiet)--quiet[no output and no notes where the status is 0]' \
                '--json[the result as a JSON object]' \
                '--color=[colours\: auto (on a terminal), always or never]:WHEN:(auto always never)' \
                '(-O --origin)-O+[the zone of a file]:NAME: ' \
                '(-O --origin)--origin=[the zone of a file]:NAME: ' \
                '--origin-from=[name or text\: which one says the zone of a file, where its name and its text disagree]:WHICH:(name text)' \
                '*-k+[TSIG keys as tsig-keygen writes them; may be repeated]:FILE:_files' \
                '*--key=[TSIG keys as tsig-keygen writes them; may be repeated]:FILE:_files' \
                '--tls-ca=[trust these certificates (PEM) instead of the system'\''s]:FILE:_files' \
                '--tls-name=[the name in the server'\''s certificate, if it isn'\''t HOST]:NAME: ' \
                '--tls-client=[client certificate and key (PEM)]:FILE:_files' \
                '--tls-no-verify[don'\''t check the server'\''s certificate]' \
                '(-t --timeout)-t+[bound of each wait (30s; 0\: none)]:TIME: ' \
                '(-t --timeout)--timeout=[bound of each wait (30s; 0\: none)]:TIME: ' \
                '--deadline=[bound of one source (10m; 0\: none)]:TIME: ' \
                '--run-deadline=[bound of the command (1h; 0\: none)]:TIME: ' \
                '--max-size=[bound of one source after decompression (128M; at most 1G)]:SIZE: ' \
                '*:source:_files'
            ;;
        zonemd)
            _arguments -S \
                '(-h --help)-h[print this help]' \
                '(-h --help)--help[print this help]' \
                '(-V --version)-V[print the versions of zonectl, zonenorm and the text]' \
                '(-V --version)--version[print the versions of zonectl, zonenorm and the text]' \
                '--sha512[add a digest of SHA-512, and not of SHA-384]' \
                '--serial=[change the serial of the SOA first\: to N, or by a number (add)]:N|+1: ' \
                '--record[print the record alone (add)]' \
                '(-o --output)-o+[write there, whole or not at all (standard output)]:FILE:_files' \
                '(-o --output)--output=[write there, whole or not at all (standard output)]:FILE:_files' \
                '(-q --quiet)-q[no output and no notes where the status is 0]' \
                '(-q --quiet)--quiet[no output and no notes where the status is 0]' \
                '--json[the result as a JSON object]' \
                '--color=[colours\: auto (on a terminal), always or never]:WHEN:(auto always never)' \
                '(-O --origin)-O+[the zone of a file]:NAME: ' \
                '(-O --origin)--origin=[the zone of a file]:NAME: ' \
                '--origin-from=[name or text\: which one says the zone of a file, where its name and its text disagree]:WHICH:(name text)' \
                '*-k+[TSIG keys as tsig-keygen writes them; may be repeated]:FILE:_files' \
                '*--key=[TSIG keys as tsig-keygen writes them; may be repeated]:FILE:_files' \
                '--tls-ca=[trust these certificates (PEM) instead of the system'\''s]:FILE:_files' \
                '--tls-name=[the name in the server'\''s certificate, if it isn'\''t HOST]:NAME: ' \
                '--tls-client=[client certificate and key (PEM)]:FILE:_files' \
                '--tls-no-verify[don'\''t check the server'\''s certificate]' \
                '(-t --timeout)-t+[bound of each wait (30s; 0\: none)]:TIME: ' \
                '(-t --timeout)--timeout=[bound of each wait (30s; 0\: none)]:TIME: ' \
                '--deadline=[bound of one source (10m; 0\: none)]:TIME: ' \
                '--run-deadline=[bound of the command (1h; 0\: none)]:TIME: ' \
                '--max-size=[bound of one source after decompression (128M; at most 1G)]:SIZE: ' \
                '1:what:(verify add)' '*:source:_files'
            ;;
    esac
}
_zonectl "$@"
