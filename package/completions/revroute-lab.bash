# Completions of revroute-lab for bash.
_revroute_lab() {
    mapfile -t COMPREPLY < <(compgen -f -W '--keep --routers --show-on-network --port --no-open --programs --help' -- "${COMP_WORDS[COMP_CWORD]}")
}
complete -o filenames -F _revroute_lab revroute-lab
