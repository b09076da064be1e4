# Completes the words of sokoaudit in fish: commands, options and the names of files.
set -l commands audit make dead help
complete -c sokoaudit -f
complete -c sokoaudit -s h -l help -d 'Print help'
complete -c sokoaudit -n "not __fish_seen_subcommand_from $commands" -s V -l version -d 'Print the version'
complete -c sokoaudit -n "not __fish_seen_subcommand_from $commands" -a audit -d 'Report on levels and their answers'
complete -c sokoaudit -n "not __fish_seen_subcommand_from $commands" -a make -d 'Write answers: a certificate for each level found unsolvable'
complete -c sokoaudit -n "not __fish_seen_subcommand_from $commands" -a dead -d 'Write the map of one level, with its dead squares'
complete -c sokoaudit -n "not __fish_seen_subcommand_from $commands" -a help -d 'Print the help of a command'
# no more files than a command takes
set -l words "(count (commandline -opc | string match -v -- '-?*'))"
complete -c sokoaudit -n "__fish_seen_subcommand_from audit; and test $words -lt 4" -F
complete -c sokoaudit -n "__fish_seen_subcommand_from make dead; and test $words -lt 3" -F
complete -c sokoaudit -n "__fish_seen_subcommand_from help" -a "$commands"
