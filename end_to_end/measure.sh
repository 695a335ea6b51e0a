#!/usr/bin/env bash
# afdx measure on the example network, on captures full of ties and on networks that are drawn by chance, beside the model.
. "$(dirname "$0")/common.sh"
install python3=python3
export PYTHONDONTWRITEBYTECODE=1 LC_ALL=C
afdx=${AFDX:-$top/crates/afdx/out/afdx}
network=$top/examples/network
cd "$room" || exit 1

# as_modelled TABLE IN [--unchecked]: the lines are the model's, with status 0, and nothing was written beside the captures.
as_modelled() {
    ls -lR "$2" >before.txt
    "$afdx" measure "$@" >lines.txt 2>said.txt && python3 "$top/end_to_end/answers.py" measure "$@" >wanted.txt &&
        [ -s lines.txt ] && cmp wanted.txt lines.txt && [ ! -s said.txt ] && ls -lR "$2" | cmp before.txt -
}

# within TABLE IN: so; no delay is above its bound, and no buffer held more than the least that afdx check prints.
within() {
    as_modelled "$1" "$2" && "$afdx" check "$1" >loads.txt || return 1
    awk '$1 == "link" && $8 != "-" && $10 + 0 > $12 + 0 { exit 1 }' lines.txt &&
        awk 'NR == FNR { least[$2] = $6; next } $1 == "out" && $2 in least && $4 + 0 > least[$2] + 0 { exit 1 }' loads.txt lines.txt
}

# shows_readme: the lines that README shows are among them.
shows_readme() {
    [ "$(grep -cxFf lines.txt "$top/README.md")" -eq 4 ]
}

# tied_as_modelled: captures full of ties, most of them at ports where frames are lost, also on switches with a latency.
tied_as_modelled() {
    local seed
    for seed in 1 2 3 4; do
        python3 "$top/end_to_end/ties.py" ties "$seed" && as_modelled ties/table.toml ties/in --unchecked &&
            third_version ties/table.toml "$((seed * 2))" >later.toml && as_modelled later.toml ties/in --unchecked || return 1
    done
}

# drawn_as_modelled: accepted networks with one port that babbles.
drawn_as_modelled() {
    local seed
    for seed in 1 2 3 4; do
        python3 "$top/end_to_end/babbling.py" drawn "$seed" && within drawn/table.toml drawn/in || return 1
    done
}

sed 's/^mbit = .*/mbit = 10/; s/^buffer = .*/buffer = 1000/; s/^max_delay_us = .*/max_delay_us = 300/' "$network/table.toml" >tight.toml
mkdir none && for port in 1 2 3 4; do head -c 24 "$network/in/port-$port.pcap" >"none/port-$port.pcap"; done

check "the example network, within its bounds and its least buffers" within "$network/table.toml" "$network/in"
check "README shows some of these lines" shows_readme
check "the same on the faster switch" within "$network/faster.toml" "$network/in"
check "the same with no bounds" as_modelled "$network/table.toml" "$network/in" --unchecked
check "tight ports, where frames are full and aged" as_modelled tight.toml "$network/in" --unchecked
check "nothing is sent" as_modelled "$network/table.toml" none
check "ends, arrivals, starts and ages at one instant" tied_as_modelled
check "networks that are drawn by chance, with a port that babbles" drawn_as_modelled
check "the load is checked first" ends 4 "$("$afdx" check tight.toml 2>&1 >/dev/null)" /dev/null measure tight.toml "$network/in"
check "no file" ends 5 "afdx: device get none.toml" /dev/null measure none.toml none
check "no captures" ends 5 "afdx: device get nowhere/port-1.pcap" /dev/null measure "$network/table.toml" nowhere
check "help of measure" helps measure --help
finish
