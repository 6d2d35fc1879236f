# Completions of revroute-lab for fish.
complete -c revroute-lab -r -l keep -d 'The file that keeps the requests'
complete -c revroute-lab -l routers -d 'Begin with routers that act by themselves'
complete -c revroute-lab -x -l show-on-network -d 'The port at which everybody in the local network can look'
complete -c revroute-lab -x -l port -d 'The port to listen on'
complete -c revroute-lab -l no-open -d 'Open no browser'
complete -c revroute-lab -x -l programs -a '(__fish_complete_directories)' -d 'The folder of revdot'
complete -c revroute-lab -s h -l help -d 'Print help'
