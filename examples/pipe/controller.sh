#!/usr/bin/env bash
# A controller over a pipe, with jq: gives each router its next hop, in an order that closes no loop.
#
# usage: examples/pipe/controller.sh < CHANGES    where ./revroute is; each line of CHANGES is a request
set -eu
table=() # the hop that each router has, from router 0 on; after a restart, ask the routers

# Gives a router its hop. Your own command goes here, and returns once the router has confirmed it.
push() {
    while ((${#table[@]} <= $1)); do table+=(cut); done
    echo "$1: ${table[$1]} -> $2"
    table[$1]=$2
}

coproc service { ./revroute serve --json --alone; }
exec {answers}<&"${service[0]}" {requests}>&"${service[1]}" {service[1]}>&-

ask() {
    printf '%s\n' "$1" >&"$requests"
    IFS= read -r answer <&"$answers"
}

while IFS= read -r change || [[ $change ]]; do
    [[ $change == *[![:space:]]* ]] || continue # a blank line has no answer
    ask "$change"
    [[ $answer != '{"refused"'* ]] || { echo "refused: $answer" >&2; continue; }
    # What counts is the routers' table: a router may have lost a hop that the engine did not change.
    ask '["hops"]'
    ask "$(jq -c '["pushes", ($ARGS.positional | map(tonumber? // .)), .hops]' --args "${table[@]}" <<<"$answer")"
    [[ $answer != '{"refused"'* ]] || { echo "no table of routers: $answer" >&2; exit 1; }
    # All hops of a change are pushed before the next change is sent.
    while read -r router hop; do
        push "$router" "$hop"
    done < <(jq -r '.pushes[] | "\(.[0]) \(.[1])"' <<<"$answer")
done
exec {requests}>&-
wait
