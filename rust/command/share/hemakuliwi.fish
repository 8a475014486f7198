# Completion of hemakuliwi for fish.

set -l commands convert check show explain help
set -l dialects 'csvj tdif csv+'

complete -c hemakuliwi -n "not __fish_seen_subcommand_from $commands" -f
complete -c hemakuliwi -n "not __fish_seen_subcommand_from $commands" -a convert -d 'A table from one dialect to another'
complete -c hemakuliwi -n "not __fish_seen_subcommand_from $commands" -a check -d 'Whether files are tables of a dialect'
complete -c hemakuliwi -n "not __fish_seen_subcommand_from $commands" -a show -d 'A table for looking at'
complete -c hemakuliwi -n "not __fish_seen_subcommand_from $commands" -a explain -d 'What a fault means'
complete -c hemakuliwi -n "not __fish_seen_subcommand_from $commands" -a help -d 'How a command is used'
complete -c hemakuliwi -n "not __fish_seen_subcommand_from $commands" -s V -l version -d 'The version'
complete -c hemakuliwi -s h -l help -d 'How it is used'
complete -c hemakuliwi -l color -x -a 'auto always never' -d 'When there is colour'
complete -c hemakuliwi -n '__fish_seen_subcommand_from convert' -l from -x -a "$dialects" -d 'The dialect of the file'
complete -c hemakuliwi -n '__fish_seen_subcommand_from convert' -l to -x -a "$dialects" -d 'The dialect that is written'
complete -c hemakuliwi -n '__fish_seen_subcommand_from convert' -s o -l output -r -F -d 'The file that is written'
complete -c hemakuliwi -n '__fish_seen_subcommand_from check show' -l in -x -a "$dialects" -d 'The dialect'
complete -c hemakuliwi -n '__fish_seen_subcommand_from check' -s q -l quiet -d 'Say nothing of what is accepted'
complete -c hemakuliwi -n '__fish_seen_subcommand_from show' -l width -x -d 'How wide it may be'
complete -c hemakuliwi -n '__fish_seen_subcommand_from convert check show' -l json -d 'Tell the outcome as one line of JSON'
complete -c hemakuliwi -n '__fish_seen_subcommand_from explain' -f -a '1 2 3 4 5 6 7 8 9 10 11 12'
complete -c hemakuliwi -n '__fish_seen_subcommand_from help' -f -a 'convert check show explain'
