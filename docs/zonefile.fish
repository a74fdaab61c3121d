# Completion of zonefile for fish. tools/package/install puts it where fish looks for it.
set -l commands normalise explain compare diff check expand
complete -c zonefile -n "not __fish_seen_subcommand_from $commands help" -f
complete -c zonefile -n "not __fish_seen_subcommand_from $commands help" -a normalise -d 'Write the canonical text of the zone'
complete -c zonefile -n "not __fish_seen_subcommand_from $commands help" -a explain -d 'Report how many records the zone has, or why it is refused'
complete -c zonefile -n "not __fish_seen_subcommand_from $commands help" -a compare -d 'Report whether two inputs hold one zone'
complete -c zonefile -n "not __fish_seen_subcommand_from $commands help" -a diff -d 'Write the records by which two zones differ'
complete -c zonefile -n "not __fish_seen_subcommand_from $commands help" -a check -d 'Report how many records the zone has, or every fault'
complete -c zonefile -n "not __fish_seen_subcommand_from $commands help" -a expand -d 'Write one master file of all files'
complete -c zonefile -n "not __fish_seen_subcommand_from $commands help" -a help -d 'Print help'
complete -c zonefile -n "not __fish_seen_subcommand_from $commands help" -s V -l version -d 'Print the version'
complete -c zonefile -s h -l help -d 'Print help'
complete -c zonefile -n '__fish_seen_subcommand_from help' -f -a "$commands"
complete -c zonefile -n "__fish_seen_subcommand_from $commands" -l directory -x -a '(__fish_complete_directories)' -d 'The directory of the files that $INCLUDE names'
complete -c zonefile -n '__fish_seen_subcommand_from normalise explain compare diff' -a transfer -d 'A zone transfer'
complete -c zonefile -n '__fish_seen_subcommand_from normalise' -l words -d 'Write further types in presentation format'
complete -c zonefile -n '__fish_seen_subcommand_from check' -l most -x -d 'Report so many faults at most'
complete -c zonefile -n '__fish_seen_subcommand_from diff' -l exact -d 'Compare names in data octet by octet'
complete -c zonefile -n '__fish_seen_subcommand_from diff' -l generic -d 'Write further types in the generic form'
