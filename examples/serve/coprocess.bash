coproc service { ./revroute serve --alone; }
ask() {
    printf '%s\n' "$1" >&"${service[1]}"
    IFS= read -r answer <&"${service[0]}"
}

ask '["net",4,0,[[0,1],[1,2],[2,3]]]'
echo "$answer" # turned 6 cut 0
ask '["walk",3]'
echo "$answer" # walk 3 2 1 0
exec {service[1]}>&- # the end of its input ends it
wait
