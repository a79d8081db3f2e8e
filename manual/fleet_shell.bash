# Completion of fleet_shell for bash.
complete -o filenames -o default -W '-h --help' fleet_shell
