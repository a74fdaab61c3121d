#compdef zonefile
# Completion of zonefile for zsh. tools/package/install puts it where zsh looks for it, as _zonefile.
_zonefile() {
    local curcontext=$curcontext state line
    local -a commands options
    commands=(
        'normalise:write the canonical text of the zone'
        'explain:report how many records the zone has, or why and where it is refused'
        'compare:report whether two inputs hold one zone'
        'diff:write the records by which two zones differ'
        'check:report how many records the zone has, or every fault'
        'expand:write one master file of the file and those that it includes'
        'help:print help'
    )
    options=(
        '--directory[the directory of the files that $INCLUDE names]:directory:_directories'
        '(- *)'{-h,--help}'[print help]'
    )
    _arguments -C \
        '(- *)'{-h,--help}'[print help]' \
        '(- *)'{-V,--version}'[print the version]' \
        '1:command:->command' \
        '*::argument:->argument'
    case $state in
        command) _describe command commands ;;
        argument)
            case $line[1] in
                normalise)
                    _arguments $options '--words[write further types in presentation format]' \
                        '1:origin:(transfer)' '2:file:_files'
                    ;;
                explain) _arguments $options '1:origin:(transfer)' '2:file:_files' ;;
                check)
                    _arguments $options '--most[report so many faults at most]:number:' '1:origin:' '2:file:_files'
                    ;;
                expand) _arguments $options '1:origin:' '2:file:_files' ;;
                compare)
                    _arguments $options '1:origin:(transfer)' '2:file:_files' \
                        '3:origin:(transfer)' '4:file:_files'
                    ;;
                diff)
                    _arguments $options '--exact[compare names in data octet by octet]' \
                        '--generic[write further types in the generic form]' \
                        '1:origin:(transfer)' '2:file:_files' '3:origin:(transfer)' '4:file:_files'
                    ;;
                help) _arguments '1:command:(normalise explain compare diff check expand)' ;;
            esac
            ;;
    esac
}
_zonefile "$@"
