# Completion of photofleet for fish.
complete -c photofleet -n __fish_use_subcommand -f
complete -c photofleet -n __fish_use_subcommand -a plain -d 'Runs a script command by command and prints the reports'
complete -c photofleet -n __fish_use_subcommand -a run -d 'Runs a script by several workers at once and prints the same reports'
complete -c photofleet -n __fish_use_subcommand -a batches -d 'Tells which commands of a script can run at once'
complete -c photofleet -n __fish_use_subcommand -a replay -d 'Runs a script in another lawful order and prints the same reports'
complete -c photofleet -n __fish_use_subcommand -l help -s h -d 'Print help'
complete -c photofleet -n __fish_use_subcommand -l version -s V -d 'Print version'
complete -c photofleet -n '__fish_seen_subcommand_from plain' -l help -s h -d 'Print help'
complete -c photofleet -n '__fish_seen_subcommand_from run' -l workers -x -d 'How many workers run at most, 1 to 256'
complete -c photofleet -n '__fish_seen_subcommand_from run' -l help -s h -d 'Print help'
complete -c photofleet -n '__fish_seen_subcommand_from batches' -l help -s h -d 'Print help'
complete -c photofleet -n '__fish_seen_subcommand_from replay' -l help -s h -d 'Print help'
