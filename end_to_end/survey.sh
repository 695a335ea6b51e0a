#!/usr/bin/env bash
# afdx survey on the example network, on captures full of ties and on networks that are drawn by chance, beside the model, and beside what run,
# measure and trace say.
. "$(dirname "$0")/common.sh"
install python3=python3
export PYTHONDONTWRITEBYTECODE=1 LC_ALL=C
afdx=${AFDX:-$top/crates/afdx/out/afdx}
network=$top/examples/network
cd "$room" || exit 1

# as_modelled TABLE IN [--unchecked]: the lines are the model's, with status 0, and nothing was written beside the captures.
as_modelled() {
    ls -lR "$2" >before.txt
    "$afdx" survey "$@" >lines.txt 2>said.txt && python3 "$top/end_to_end/answers.py" survey "$@" >wanted.txt &&
        [ -s lines.txt ] && cmp wanted.txt lines.txt && [ ! -s said.txt ] && ls -lR "$2" | cmp before.txt -
}

# as_others TABLE IN [--unchecked]: first the report of run, then the lines of measure; the frames of all spells are those that trace says
# were policed, and the span is that of its stamps.
as_others() {
    rm -rf out && mkdir out && "$afdx" survey "$@" >lines.txt && "$afdx" run "$1" "$2" out "${@:3}" >report.txt &&
        "$afdx" measure "$@" >>report.txt && "$afdx" trace "$1" "$2" out "${@:3}" || return 1
    head -n "$(wc -l <report.txt)" lines.txt | cmp report.txt - || return 1
    tail -n +"$(($(wc -l <report.txt) + 1))" lines.txt >rest.txt
    awk -F, 'NR > 1 && $7 == "policed" { n[$5]++ } END { for (link in n) print link, n[link] }' out/arrivals.csv | sort >policed.txt
    awk '$1 == "link" { n[$2] += $4 } END { for (link in n) print link, n[link] }' rest.txt | sort | cmp policed.txt - || return 1
    awk -F, 'NR == 2 { first = $4 } NR > 1 { last = $4 } END { print "span from", first, "to", last, "frames", NR - 1 }' out/arrivals.csv |
        cmp - <(tail -n 1 rest.txt)
}

# tied: captures full of ties, also on a switch with a latency.
tied() {
    local seed
    for seed in 1 2; do
        python3 "$top/end_to_end/ties.py" ties "$seed" && as_modelled ties/table.toml ties/in --unchecked &&
            third_version ties/table.toml "$((seed * 2))" >later.toml && as_modelled later.toml ties/in --unchecked || return 1
    done
}

# drawn: accepted networks with one port that babbles.
drawn() {
    local seed
    for seed in 1 2 3 4; do
        python3 "$top/end_to_end/babbling.py" drawn "$seed" && as_modelled drawn/table.toml drawn/in && as_others drawn/table.toml drawn/in || return 1
    done
}

mkdir none && for port in 1 2 3 4; do head -c 24 "$network/in/port-$port.pcap" >"none/port-$port.pcap"; done

check "the example network" as_modelled "$network/table.toml" "$network/in"
check "it says what run, measure and trace say" as_others "$network/table.toml" "$network/in"
check "the same with no bounds" as_modelled "$network/table.toml" "$network/in" --unchecked
check "no frame comes" as_modelled "$network/table.toml" none
check "ends, arrivals, starts and ages at one instant" tied
check "networks that are drawn by chance, with a port that babbles" drawn
check "no file" ends 5 "afdx: device get none.toml" /dev/null survey none.toml none
check "no captures" ends 5 "afdx: device get nowhere/port-1.pcap" /dev/null survey "$network/table.toml" nowhere
check "help of survey" helps survey --help
finish
