# Completions of revrouted for bash.
_revrouted() {
    local word=${COMP_WORDS[COMP_CWORD]} before=${COMP_WORDS[COMP_CWORD - 1]} task=${COMP_WORDS[1]} words=
    local tasks='run check status routes neighbours events metrics help'
    COMPREPLY=()
    case $before in
        --config | --control) mapfile -t COMPREPLY < <(compgen -f -- "$word"); return ;;
    esac
    if [ "$COMP_CWORD" -eq 1 ]; then
        words="$tasks --help --version"
    else
        case $task in
            run) words='--config --help' ;;
            check) mapfile -t COMPREPLY < <(compgen -f -W '--help' -- "$word"); return ;;
            status | routes | neighbours | events) words='--json --control --help' ;;
            metrics) words='--control --help' ;;
            help) words=$tasks ;;
        esac
    fi
    mapfile -t COMPREPLY < <(compgen -W "$words" -- "$word")
}
complete -o filenames -F _revrouted revrouted
