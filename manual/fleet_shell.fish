# Completion of fleet_shell for fish.
complete -c fleet_shell -l help -s h -d 'Print help'
