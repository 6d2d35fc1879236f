# Completions of revroute for bash.
_revroute() {
    local word=${COMP_WORDS[COMP_CWORD]} before=${COMP_WORDS[COMP_CWORD - 1]} task=${COMP_WORDS[1]} words=
    COMPREPLY=()
    case $before in
        --workers | --seed | --budget | --steps) return ;;
    esac
    if [ "$COMP_CWORD" -eq 1 ]; then
        words='run serve play help --help --version'
    else
        case $task in
            run | serve) words='--alone --json --ways --strict --workers --seed --budget --help' ;;
            play) words='--workers --seed --steps --help' ;;
            help) words='run serve play help' ;;
        esac
    fi
    mapfile -t COMPREPLY < <(compgen -W "$words" -- "$word")
}
complete -F _revroute revroute
