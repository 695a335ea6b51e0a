#!/usr/bin/env bash
# afdx network on the example of three switches and on networks that are drawn by chance, whose senders send whatever they like,
# beside the model; each refusal, with its line and status.
. "$(dirname "$0")/common.sh"
install python3=python3
export PYTHONDONTWRITEBYTECODE=1 LC_ALL=C
afdx=${AFDX:-$top/crates/afdx/out/afdx}
model=$top/end_to_end/network_model.py
cd "$room" || exit 1

# fresh: the example, as work/.
fresh() {
    rm -rf work && cp -r "$top/examples/aircraft" work
}

# as_modelled COMMAND: the lines for the example are the model's, with status 0.
as_modelled() {
    "$afdx" network "$1" work/network.toml >lines.txt 2>said.txt && python3 "$model" "$1" work/network.toml >wanted.txt &&
        [ -s lines.txt ] && cmp wanted.txt lines.txt && [ ! -s said.txt ]
}

# runs_as_modelled: so is the report, and so are the captures of all ports.
runs_as_modelled() {
    rm -rf out wanted && mkdir -p out/cabin out/bay out/cockpit wanted
    "$afdx" network run work/network.toml work/in out >lines.txt 2>said.txt &&
        python3 "$model" run work/network.toml work/in wanted >wanted.txt &&
        cmp wanted.txt lines.txt && [ ! -s said.txt ] && diff -r wanted out
}

# measured_as_modelled COMMAND [--unchecked]: so are the lines of this command, and nothing is put.
measured_as_modelled() {
    ls -lR work >before.txt
    "$afdx" network "$1" work/network.toml work/in "${@:2}" >measured.txt 2>said.txt &&
        python3 "$top/end_to_end/network_answers.py" "$1" work/network.toml work/in "${@:2}" >wanted.txt &&
        [ -s measured.txt ] && cmp wanted.txt measured.txt && [ ! -s said.txt ] && ls -lR work | cmp before.txt -
}

# rows_as_modelled COMMAND [--unchecked]: with --csv it writes rows of the model's lines.
rows_as_modelled() {
    measured_as_modelled "$@" && "$afdx" network "$1" work/network.toml work/in "${@:2}" --csv >rows.csv 2>said.txt &&
        python3 "$top/end_to_end/csv_rows.py" network "$1" <wanted.txt | cmp - rows.csv && [ ! -s said.txt ]
}

# traced_as_modelled: so are the two files of each switch.
traced_as_modelled() {
    rm -rf out wanted && mkdir -p out/cabin out/bay out/cockpit wanted
    ends 0 "" /dev/null network trace work/network.toml work/in out &&
        python3 "$top/end_to_end/network_answers.py" trace work/network.toml work/in wanted && diff -r wanted out
}

# readme_shows COUNT: so many of README's lines are among these.
readme_shows() {
    [ "$(grep -cxFf lines.txt "$top/README.md")" -eq "$1" ]
}

# prints_jitters: the jitters that the links need, whatever those of the tables are.
prints_jitters() {
    as_modelled jitter && mv lines.txt before.txt && sed -i '/^id = 400/,/^jitter_us/ s/^jitter_us = .*/jitter_us = 10000/' work/bay.toml &&
        "$afdx" network jitter work/network.toml | cmp before.txt -
}

# outage_as_modelled EDIT: so it is in an outage, some of whose ends get nothing.
outage_as_modelled() {
    fresh && sed -i "$1" work/network.toml && as_modelled check && grep -q ' none$' lines.txt && as_modelled jitter && runs_as_modelled
}

# past: the lines of all rows, and then each that needs more than a table can have.
past() {
    local status=0
    sed -i 's/^max_size = .*/max_size = 1518/; s/^bag_ms = .*/bag_ms = 1/; s/^jitter_us = .*/jitter_us = 10000/' work/c*.toml work/bay.toml
    "$afdx" network jitter work/network.toml >lines.txt 2>said.txt || status=$?
    python3 "$model" jitter work/network.toml >wanted.txt 2>line.txt
    cat said.txt
    [ "$status" -eq 4 ] && cmp wanted.txt lines.txt && cmp line.txt said.txt && [ "$(wc -l <said.txt)" -gt 1 ] &&
        [ "$(head -n 1 said.txt)" = "$(sed -n 's/^4 \(.*J2.*\)/\1/p' provoked.txt)" ]
}

# refused STATUS LINE FILE EDIT..: with these edits of a file of the example, the check is refused, and the model says the same.
refused() {
    local wanted=$1 line=$2 file=$3
    fresh && shift 3 && sed -i "$@" "work/$file" || return 1
    python3 "$model" check work/network.toml >/dev/null 2>line.txt
    cat line.txt
    [ "$(cat line.txt)" = "$line" ] && ends "$wanted" "$line" /dev/null network check work/network.toml
}

# table_refused: a table that is none is reported with the name of its switch; the model reads sound tables only.
table_refused() {
    fresh && sed -i '0,/^mbit/ s/^mbit/mbits/' work/bay.toml &&
        ends 3 "afdx: table C3 UnknownKey, port 1, switch bay" /dev/null network check work/network.toml
}

# provoked STATUS LINE: a line of the page.
provoked() {
    echo "$1 $2" >>provoked.txt
}

# refusal STATUS LINE FILE EDIT..: counts that.
refusal() {
    provoked "$@"
    check "$2" refused "$@"
}

# twin: a further link of a number that another switch is fed.
twin() {
    printf '\n[[link]]\nid = 300\nfrom = 1\nto = [2]\nbag_ms = 8\njitter_us = 100\nmax_size = 128\npriority = "high"\n'
}

# lines_are_the_pages: the lines that were provoked, with their status, are those of the page's section on networks.
lines_are_the_pages() {
    sed -n '/^## Networks/,/^## Files/ s/^| `\(afdx: [^`]*\)` | \([0-9]\) |.*/\2 \1/p' "$top/docs/use/MESSAGES.md" | sort >wanted.txt
    [ -s wanted.txt ] && sort provoked.txt | diff wanted.txt -
}

# many: 101 rows fall short, of which 100 have a line each.
many() {
    local status=0
    mkdir -p many && { table_ports 1 2 && for link in {1..101}; do table_link "$link" 1 2 64 low; done; } | sed 's/^bag_ms = .*/bag_ms = 128/' >many/table.toml
    printf '[[switch]]\nname = "%s"\ntable = "table.toml"\n' A B >many/network.toml
    printf '[[wire]]\nfrom = "A.2"\nto = "B.1"\n' >>many/network.toml
    "$afdx" network check many/network.toml >answer.txt 2>said.txt || status=$?
    python3 "$model" check many/network.toml >/dev/null 2>line.txt
    tail -n 1 said.txt
    [ "$status" -eq 4 ] && [ ! -s answer.txt ] && cmp line.txt said.txt && [ "$(wc -l <said.txt)" -eq 101 ] &&
        [ "$(tail -n 1 said.txt)" = "afdx: network J1 Jitter, and 1 more" ]
}

# absolute: a table's name that begins with / is no name beside the network file.
absolute() {
    fresh && mkdir elsewhere && mv work/bay.toml elsewhere && sed -i "s#\"bay.toml\"#\"$PWD/elsewhere/bay.toml\"#" work/network.toml &&
        as_modelled check
}

# capture_refused: a capture that is none, with its port and its switch.
capture_refused() {
    fresh && : >work/in/bay/port-3.pcap && mkdir -p out/cabin out/bay out/cockpit &&
        ends 3 "afdx: capture P2 NoHeader, port 3, switch bay" /dev/null network run work/network.toml work/in out
}

# over_one_line: the example where each end system has one line, as they have.
over_one_line() {
    fresh && sed -i '1 i one_line = true' work/network.toml && as_modelled check && grep -qx 'premise one_line' lines.txt && as_modelled jitter &&
        runs_as_modelled
}

# line_refused: the camera's 16th frame, of 458 bytes with its header, comes twice at one instant: one line cannot have brought the second
# one so soon.
line_refused() {
    local capture=work/in/cabin/port-1.pcap line="afdx: network R2 Line, switch cabin, port 1, record 17"
    rm -rf out && fresh && sed -i '1 i one_line = true' work/network.toml && mkdir -p out/cabin out/bay out/cockpit &&
        { head -c 8053 "$capture" && tail -c +7596 "$capture"; } >twice.pcap && mv twice.pcap "$capture" &&
        ends 4 "$line" /dev/null network run work/network.toml work/in out &&
        ends 4 "$line" /dev/null network run work/network.toml work/in out --unchecked &&
        ends 4 "$line" /dev/null network measure work/network.toml work/in &&
        ends 4 "$line" /dev/null network survey work/network.toml work/in &&
        ends 4 "$line" /dev/null network trace work/network.toml work/in out &&
        [ -z "$(find out -type f)" ] && ! python3 "$model" run work/network.toml work/in wanted 2>line.txt && [ "$(cat line.txt)" = "$line" ]
}

# few_open_files: all new files and captures are open at once; where they may not be, a line names the first that was not opened, and
# nothing is put.
few_open_files() {
    local files status=0 named='afdx: device (put out/[a-z]+/port-[1-4]\.pcap|get work/in/[a-z]+/port-[1-4]\.pcap)'
    rm -rf out && fresh && mkdir -p out/cabin out/bay out/cockpit || return 1
    for files in 10 14 18; do
        status=0
        (ulimit -n "$files" && exec "$afdx" network run work/network.toml work/in out) >answer.txt 2>said.txt || status=$?
        echo "$files files: status $status, $(cat said.txt)"
        [ "$status" -eq 5 ] && [ ! -s answer.txt ] && grep -qxE "$named" said.txt && [ -z "$(find out -type f)" ] || return 1
    done
    (ulimit -n 40 && exec "$afdx" network run work/network.toml work/in out) >answer.txt && [ -s answer.txt ]
}

# no_table: the file of the second table is not there.
no_table() {
    fresh && sed -i 's/"bay.toml"/"none.toml"/' work/network.toml &&
        ends 5 "afdx: device get work/none.toml" /dev/null network check work/network.toml
}

# ring_of COUNT: so many frames over a ring, each of which delays the next one at the next switch (ring.py).
ring_of() {
    mkdir -p "ring/$1/out/A" "ring/$1/out/B" "ring/$1/out/C" && python3 "$top/end_to_end/ring.py" "ring/$1" "$1" &&
        "$afdx" network run "ring/$1/network.toml" "ring/$1" "ring/$1/out" >"ring/$1/lines.txt"
}

# ring_as_modelled COUNT: it ends, with what the model makes of it.
ring_as_modelled() {
    ring_of "$1" && python3 "$model" run "ring/$1/network.toml" "ring/$1" wanted-ring >wanted.txt && cmp wanted.txt "ring/$1/lines.txt" &&
        diff -r wanted-ring "ring/$1/out"
}

# ring_goes_on FEWER COUNT: it ends, and begins with what left of fewer frames, which no later one delays.
ring_goes_on() {
    local capture
    ring_of "$2" || return 1
    for capture in "ring/$1"/out/*/*.pcap; do
        head -c "$(stat -c %s "$capture")" "ring/$2/${capture#ring/*/}" | cmp - "$capture" || return 1
    done
}

# undisturbed: with the camera's capture empty, each other link puts out the same bytes in the same order at each port of each
# switch.
undisturbed() {
    fresh && runs_as_modelled && mv out babbling &&
        head -c 24 "$top/examples/aircraft/in/cabin/port-1.pcap" >work/in/cabin/port-1.pcap &&
        runs_as_modelled && python3 "$top/end_to_end/others.py" babbling out 401
}

: >provoked.txt
fresh
check "the check of the example" as_modelled check
check "README shows lines of it" readme_shows 4
check "the jitters of the example" prints_jitters
fresh
provoked 4 "afdx: network J2 NoJitter, switch cabin, link 303, need 13617"
check "a jitter past 10 ms" past
fresh
check "the run of the example" runs_as_modelled
check "README shows lines of it" readme_shows 3
check "what its frames took from end to end, and its buffers" measured_as_modelled measure
check "the same with the reports, and when links were policed" measured_as_modelled survey
check "what they took, of whatever network" measured_as_modelled measure --unchecked
check "rows of what they took" rows_as_modelled measure
check "rows of all of it" rows_as_modelled survey
check "rows of whatever network" rows_as_modelled survey --unchecked
check "what became of its frames, from switch to switch" traced_as_modelled
check "the camera disturbs no other link, two switches away" undisturbed
check "a table elsewhere" absolute
check "an outage of a cable" outage_as_modelled '/^delay_ns = 40/ a down = true'
check "an outage of one direction" outage_as_modelled '/^to = "bay.1"/ a down = true'
check "an outage of a switch" outage_as_modelled '/^name = "cockpit"/ a down = true'
check "an outage of the switch between" outage_as_modelled '/^name = "bay"/ a down = true'

refusal 3 "afdx: network G1 Toml" network.toml '$a ='
refusal 3 "afdx: network G2 UnknownKey, wire 1" network.toml '0,/^delay_ns/ s/^delay_ns/delay/'
refusal 3 "afdx: network G2 MissingKey, switch 2, table" network.toml '/^table = "bay.toml"/d'
refusal 3 "afdx: network G2 Kind, wire 1, from" network.toml '0,/^from = .*/ s/^from = .*/from = 3/'
refusal 3 "afdx: network G2 Range, switch 2, name" network.toml 's/^name = "bay"/name = "the bay"/'
refusal 3 "afdx: network G3 TwiceSwitch, switch 2" network.toml 's/^name = "bay"/name = "cabin"/'
refusal 3 "afdx: network G3 NoSuchSwitch, wire 1" network.toml '0,/^to = .*/ s/^to = .*/to = "tail.1"/'
refusal 3 "afdx: network G3 TwiceFrom, wire 3" network.toml 's/^from = "bay.4"/from = "cabin.3"/'
refusal 3 "afdx: network G3 TwiceTo, wire 4" network.toml 's/^to = "bay.4"/to = "bay.1"/'
refusal 3 "afdx: network G3 OwnPort, wire 1" network.toml '0,/^to = .*/ s/^to = .*/to = "cabin.3"/'
refusal 3 "afdx: network G3 NoSuchPort, wire 1" network.toml '0,/^to = .*/ s/^to = .*/to = "bay.9"/'
refusal 3 "afdx: network G3 Latency, switch bay" network.toml '/^table = "bay.toml"/,/^$/ s/^least_latency_us = .*/least_latency_us = 1/'
provoked 3 "afdx: table C3 UnknownKey, port 1, switch bay"
check "afdx: table C3 UnknownKey, port 1, switch bay" table_refused
refusal 4 "afdx: load L2 Buffer, port 1, need 101078630400000, limit 16384000000000, switch bay" bay.toml '0,/^buffer/ s/^buffer = .*/buffer = 100/'
refusal 3 "afdx: network G4 Constant, wire 1" bay.toml '1i constant = "07000000"'
refusal 3 "afdx: network G4 Speed, wire 1" bay.toml '0,/^mbit/ s/^mbit = .*/mbit = 10/'
refusal 3 "afdx: network G5 NoRow, wire 1, link 403" bay.toml 's/^id = 403/id = 404/'
refusal 3 "afdx: network G6 From, wire 3, link 100" cockpit.toml '/^id = 100/,/^from/ s/^from = .*/from = 3/'
refusal 3 "afdx: network G7 Size, wire 1, link 403" bay.toml '/^id = 403/,/^max_size/ s/^max_size = .*/max_size = 127/'
refusal 3 "afdx: network G7 Bag, wire 1, link 403" bay.toml '/^id = 403/,/^bag_ms/ s/^bag_ms = .*/bag_ms = 128/'
refusal 3 "afdx: network G7 Police, wire 1, link 403" bay.toml -e '/^id = 403/ a police = "frame"' -e 's/^version = 1/version = 2/'
refusal 3 "afdx: network G8 NoSource, switch bay, link 403" cabin.toml '/^id = 403/,/^to/ s/^to = .*/to = [1]/'
twin >twin.toml
refusal 3 "afdx: network G9 TwiceSource, link 300" cabin.toml '$r twin.toml'
refusal 4 "afdx: network J1 Jitter, switch bay, link 400, need 1100, has 1099" bay.toml '/^id = 400/,/^jitter_us/ s/^jitter_us = .*/jitter_us = 1099/'
provoked 4 "afdx: network J1 Jitter, and 1 more"
check "101 rows that fall short" many
provoked 3 "afdx: capture P2 NoHeader, port 3, switch bay"
check "afdx: capture P2 NoHeader, port 3, switch bay" capture_refused
check "the example over one line from each end system" over_one_line
provoked 4 "afdx: network R2 Line, switch cabin, port 1, record 17"
check "afdx: network R2 Line, switch cabin, port 1, record 17" line_refused
check "a ring in which 189 frames go round" ring_as_modelled 189
check "one of 600 frames" ring_goes_on 189 600
check "one of 3,000 frames" ring_goes_on 600 3000
check "MESSAGES has these lines of networks, and no other" lines_are_the_pages
fresh
check "no network file" ends 5 "afdx: device get none.toml" /dev/null network check none.toml
check "no capture" ends 5 "afdx: device get nowhere/cabin/port-1.pcap" /dev/null network run work/network.toml nowhere out
check "few files that may be open" few_open_files
check "no table" no_table
check "help of network" helps network --help
check "help of network check" helps network check --help
check "help of network measure" helps network measure --help
check "help of network survey" helps network survey --help
check "help of network trace" helps network trace --help
check "no command of networks" ends 2 "afdx: usage" /dev/null network
check "networks that are drawn by chance, with hostile senders" python3 "$top/end_to_end/networks.py" 60 "$afdx" "$room/drawn"
grep networks "$room/said"
finish
