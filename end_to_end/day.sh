#!/usr/bin/env bash
# A day of tests (day.py): by the commands of docs/use/GUIDE.md from an ICD of 300 links and recordings of runs, of a tap and two
# mirrors, to what was hidden in them, whole. Four runs; with an argument so many, of which the day had 40.
. "$(dirname "$0")/common.sh"
install python3=python3
install_python networkx numpy openpyxl tomlkit tqdm zstandard
export PYTHONDONTWRITEBYTECODE=1 LC_ALL=C
afdx=${AFDX:-$top/crates/afdx/out/afdx}
export AFDX=$afdx
if [ "$#" -eq 0 ]; then numbers=(1 7 19 20); else mapfile -t numbers < <(seq 1 "$1"); fi
cd "$room" || exit 1

# make_rules: which frame came in where; what SW1 sent is put aside.
make_rules() {
    local network port
    for port in 1 2 3 4 5 6 7 8; do
        printf '[[source]]\nfile = "tap.pcapng.gz"\ninterface = "ES%s"\nto = "A/SW1/port-%s"\n' "$port" "$port"
    done
    printf '[[source]]\nfile = "tap.pcapng.gz"\ninterface = "%s"\nto = "%s"\n' SW2 A/SW1/port-20 \
        "to SW2" seen/port-20 "to ES1" seen/port-1 "to ES2" seen/port-2
    for network in A B; do
        printf '[[source]]\nfile = "mirror2.pcap"\nnetwork = "%s"\nend_systems = { ' "$network"
        for port in 1 2 3 4 5 6 7 8; do
            printf '%s = "%s", ' "$port" "$network/SW2/port-19" $((port + 8)) "$network/SW2/port-$port" $((port + 16)) "$network/SW2/port-20"
        done | sed 's/, $/ }\n/'
        printf '[[source]]\nfile = "mirror3.pcap"\nnetwork = "%s"\noffset_ns = -37200000\ndrift_ppb = -20000\nend_systems = { ' "$network"
        for port in 1 2 3 4 5 6 7 8; do
            printf '%s = "%s", ' $((port + 16)) "$network/SW3/port-$port"
        done | sed 's/, $/ }\n/'
    done
}

# imports: captures of all recordings, as GUIDE does it.
imports() {
    make_rules >rules.toml
    for raw in day/raw/*; do
        afdx-import rules.toml "$raw" "in/${raw##*/}" || return 1
    done
}

# came RUN: the captures of network A are what the end systems sent, to the byte.
came() {
    local capture
    for capture in "day/truth/$1"/in/*/*.pcap; do
        cmp "$capture" "in/$1/A/${capture#*/in/}" || return 1
    done
}

# runs RUN: the network over them puts what its switches sent, to the byte, and reports what became of each link.
runs() {
    mkdir -p "out/$1"/SW{1,2,3} && afdx network run net/network.toml "in/$1/A" "out/$1" >"out/$1.txt" &&
        diff -r "day/truth/$1/out" "out/$1" && grep ' link ' "out/$1.txt" | diff "day/truth/$1/links.txt" -
}

# babbled RUN: the links of which a frame was policed are those that sent too much.
babbled() {
    grep ' link ' "out/$1.txt" | grep -v ' policed 0$' | cut -d ' ' -f 3 | diff "day/truth/$1/policed.txt" -
}

# measures RUN: of each link as many frames are measured as left SW1 on network A and SW2 on B, and none was later than its bound.
measures() {
    { afdx measure net/SW1.toml "in/$1/A/SW1" | sed 's/^/SW1 /' && afdx measure net/SW2.toml "in/$1/B/SW2" | sed 's/^/SW2 /'; } >measured.txt &&
        grep '^SW. link ' measured.txt | grep -v ' sent 0 ' | cut -d ' ' -f 1-7 | diff "day/truth/$1/sent.txt" - &&
        awk '/ link / && !/ sent 0 / { late += $11 > $13; all++ } END { print late, all; exit late || !all }' measured.txt
}

# shows RUN: of what SW1 was to send the tap shows those frames late or not at all that were hidden.
shows() {
    mkdir -p predicted && cp "out/$1"/SW1/port-{1,2,20}.pcap predicted && afdx-skew predicted "in/$1/seen" --apart-us 500 >shown.txt &&
        grep ' at ' shown.txt | sed 's/ apart [0-9]*/ apart/' | diff "day/truth/$1/recorded.txt" -
}

# compares RUN: what the tap shows of SW1's outputs is what the rules allow a switch that takes up to 3 us longer, but for what was hidden:
# each frame that is not there is named, and of those that are late none but these is.
compares() {
    local status=0
    rm -rf differences && mkdir differences
    afdx compare net/SW1.toml "in/$1/A/SW1" "in/$1/seen" --ports 1,2,20 --tolerance 3000 --rows differences >compared.txt || status=$?
    tail -n +2 differences/differences.csv >rows.txt
    sed -n 's/^port-20 link \([0-9]*\) only-a .*/20,\1,missing/p' "day/truth/$1/recorded.txt" | sort >lost.txt
    sed -n 's/^port-1 link \([0-9]*\) apart .*/\1/p' "day/truth/$1/recorded.txt" | sort -u >late.txt
    grep -v '^1,' rows.txt | cut -d, -f1-3 | sort | diff lost.txt - &&
        [ -z "$(grep '^1,' rows.txt | cut -d, -f2 | sort -u | comm -13 late.txt -)" ] &&
        [ "$status" -eq "$([ -s rows.txt ] && echo 1 || echo 0)" ]
}

mkdir bin && ln -s "$afdx" bin/afdx && PATH=$room/bin:$top/python/bin:$PATH
check "the ICD" /usr/bin/python3 "$top/end_to_end/day.py" lists lists
check "its tables" afdx-icd lists/{links,ends,wires}.csv net --mapping lists/map.toml
check "the recordings" /usr/bin/python3 "$top/end_to_end/day.py" runs net day "${numbers[@]}"
check "their import" imports
for run in day/raw/*; do
    run=${run##*/}
    check "$run: what was sent" came "$run"
    check "$run: what the switches did" runs "$run"
    check "$run: who sent too much" babbled "$run"
    check "$run: how late frames were" measures "$run"
    check "$run: what a real switch did otherwise" shows "$run"
    check "$run: whether it keeps what is proved" compares "$run"
done
finish
