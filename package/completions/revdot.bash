# Completions of revdot for bash.
_revdot() {
    local words='--ways --turns --rankdir --page --help --version'
    if [ "${COMP_WORDS[COMP_CWORD - 1]}" = --rankdir ]; then
        words='TB LR BT RL'
    fi
    mapfile -t COMPREPLY < <(compgen -W "$words" -- "${COMP_WORDS[COMP_CWORD]}")
}
complete -F _revdot revdot
