# Completion of j1939 for fish.

# The CAN interfaces that are there: their type is 280.
function __j1939_buses
    set -l types /sys/class/net/*/type
    grep -lx 280 /dev/null $types | cut -d / -f 5
end

complete -c j1939 -f
complete -c j1939 -n 'not __fish_seen_subcommand_from help' -s h -l help -d 'Print help'
complete -c j1939 -n __fish_use_subcommand -s V -l version -d 'Print the version'

complete -c j1939 -n __fish_use_subcommand -a report -d 'The parameter values in a log'
complete -c j1939 -n __fish_use_subcommand -a faults -d 'The fault codes in a log, as they become news'
complete -c j1939 -n __fish_use_subcommand -a summary -d 'What each parameter in a log did'
complete -c j1939 -n __fish_use_subcommand -a grid -d 'A row for each span of time, a column for each parameter'
complete -c j1939 -n __fish_use_subcommand -a watch -d 'What a bus says now: faults and last values, in place'
complete -c j1939 -n __fish_use_subcommand -a nodes -d 'Who holds which address after a log'
complete -c j1939 -n __fish_use_subcommand -a survey -d 'What a log is: its interfaces, groups and lines'
complete -c j1939 -n __fish_use_subcommand -a answer -d 'What a controller would have sent to get and keep an address'
complete -c j1939 -n __fish_use_subcommand -a groups -d 'The parameters that a report may hold'
complete -c j1939 -n __fish_use_subcommand -a id -d 'The fields of a 29-bit identifier'
complete -c j1939 -n __fish_use_subcommand -a name -d 'The fields of a 64-bit NAME'
complete -c j1939 -n __fish_use_subcommand -a cut -d 'The frames that broadcast a long message'
complete -c j1939 -n __fish_use_subcommand -a help -d 'Help, or the help of a command'
complete -c j1939 -n '__fish_seen_subcommand_from help' -a 'report faults summary grid watch nodes survey answer groups id name cut help'

complete -c j1939 -n '__fish_seen_subcommand_from report faults summary grid nodes answer survey watch' -F
complete -c j1939 -n '__fish_seen_subcommand_from report faults summary grid nodes answer survey watch cut' -l bus -x -a '(__j1939_buses)' -d 'The interface'
complete -c j1939 -n '__fish_seen_subcommand_from report faults summary grid groups survey watch' -l table -r -d 'The parameters to read'
complete -c j1939 -n '__fish_seen_subcommand_from faults watch nodes survey' -l names -r -d 'Names of your own'
complete -c j1939 -n '__fish_seen_subcommand_from report faults summary grid watch' -l spn -x -d 'The parameters to write alone, with commas between'
complete -c j1939 -n '__fish_seen_subcommand_from report faults nodes summary grid watch' -l from -x -d 'The senders to write alone: addresses or NAMEs in hex'
complete -c j1939 -n '__fish_seen_subcommand_from report faults summary grid watch' -l to -x -d 'The destinations to write alone: addresses in hex'
complete -c j1939 -n '__fish_seen_subcommand_from report faults summary grid watch' -l pgn -x -d 'The groups to write alone, with commas between'
complete -c j1939 -n '__fish_seen_subcommand_from report faults summary grid watch' -l since -x -d 'The first time to write'
complete -c j1939 -n '__fish_seen_subcommand_from report faults summary grid watch' -l until -x -d 'The last time to write'
complete -c j1939 -n '__fish_seen_subcommand_from nodes' -l seen -d 'Also last claim and frame, and who talks without a claim'
complete -c j1939 -n '__fish_seen_subcommand_from nodes' -l silent -x -d 'The least silence to write, in seconds'
complete -c j1939 -n '__fish_seen_subcommand_from report faults nodes summary grid' -l head -d 'A line of what columns are called'
complete -c j1939 -n '__fish_seen_subcommand_from report faults nodes summary grid survey' -l csv -d 'Comma-separated values'
complete -c j1939 -n '__fish_seen_subcommand_from report faults nodes summary grid survey' -l json -d 'Objects of JSON, one a line'
complete -c j1939 -n '__fish_seen_subcommand_from report faults nodes summary grid survey watch' -l utc -d 'Lines with times in UTC'
complete -c j1939 -n '__fish_seen_subcommand_from grid' -l every -x -d 'How many seconds a row stands for'
complete -c j1939 -n '__fish_seen_subcommand_from faults' -l conversion -x -d 'By which version older SPNs are read: 1, 2 or 3, or NAME=1,..'
complete -c j1939 -n '__fish_seen_subcommand_from faults' -l all -d 'Each message of faults'
complete -c j1939 -n '__fish_seen_subcommand_from faults' -l changes -d 'What became of active codes'
complete -c j1939 -n '__fish_seen_subcommand_from faults' -l now -d 'The active codes at the end'
complete -c j1939 -n '__fish_seen_subcommand_from answer' -l name -x -d 'Its NAME, 16 hex digits'
complete -c j1939 -n '__fish_seen_subcommand_from answer' -l address -x -d 'The address that it claims first, 0 to 253'
complete -c j1939 -n '__fish_seen_subcommand_from watch' -l rows -x -d 'How many rows the terminal has, 2 to 1000'
complete -c j1939 -n '__fish_seen_subcommand_from watch' -l width -x -d 'How many columns the terminal has, 20 to 512'
complete -c j1939 -n '__fish_seen_subcommand_from watch' -l colour -d 'In colours'
complete -c j1939 -n '__fish_seen_subcommand_from cut' -l source -x -d 'The address that the message is sent from, 0 to 253'
complete -c j1939 -n '__fish_seen_subcommand_from cut' -l pgn -x -d 'The PGN of the message'
complete -c j1939 -n '__fish_seen_subcommand_from cut' -l at -x -d 'The time of the announcement, as 2.000000'
