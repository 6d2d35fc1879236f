# Completions of revdot for fish.
complete -c revdot -f
complete -c revdot -l ways -d 'The network with the ways of each node'
complete -c revdot -l turns -d 'A graph for each turn of the last round'
complete -c revdot -x -l rankdir -a 'TB LR BT RL' -d 'Where graphs lead: TB from top to bottom'
complete -c revdot -l page -d 'A page for a browser'
complete -c revdot -s h -l help -d 'Print help'
complete -c revdot -s V -l version -d 'Print the version'
