# Completions of revrouted for fish.
complete -c revrouted -f
complete -c revrouted -n __fish_use_subcommand -a run -d 'Run the daemon'
complete -c revrouted -n __fish_use_subcommand -a check -d 'Say what is wrong with a configuration'
complete -c revrouted -n __fish_use_subcommand -a status -d 'Show interfaces, neighbours and counts'
complete -c revrouted -n __fish_use_subcommand -a routes -d 'Show prefixes with their ways and gates'
complete -c revrouted -n __fish_use_subcommand -a neighbours -d 'Show neighbours and the links to them'
complete -c revrouted -n __fish_use_subcommand -a events -d 'Show what has happened, and follow what happens'
complete -c revrouted -n __fish_use_subcommand -a metrics -d 'Show counters in the text form of Prometheus'
complete -c revrouted -n __fish_use_subcommand -a help -d 'Print help'
complete -c revrouted -n '__fish_seen_subcommand_from help' -a 'run check status routes neighbours events metrics'
complete -c revrouted -n '__fish_seen_subcommand_from run' -r -F -l config -d 'The configuration'
complete -c revrouted -n '__fish_seen_subcommand_from check' -F
complete -c revrouted -n '__fish_seen_subcommand_from status routes neighbours events' -l json -d 'Print JSON'
complete -c revrouted -n '__fish_seen_subcommand_from status routes neighbours events metrics' -r -F -l control -d 'The socket of the daemon'
complete -c revrouted -s h -l help -d 'Print help'
complete -c revrouted -n __fish_use_subcommand -s V -l version -d 'Print the version'
