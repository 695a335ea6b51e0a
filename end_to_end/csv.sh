#!/usr/bin/env bash
# What commands write with --csv is what they write without it: each row has the words of its line, by docs/use/FORMATS.md; status,
# standard error and what is put are the same.
. "$(dirname "$0")/common.sh"
install python3=python3
export PYTHONDONTWRITEBYTECODE=1 LC_ALL=C
afdx=${AFDX:-$top/crates/afdx/out/afdx}
network=$top/examples/network
aircraft=$top/examples/aircraft
cd "$room" || exit 1
mkdir -p out lines/{cabin,bay,cockpit} rows/{cabin,bay,cockpit}

# says WORDS ARGUMENT..: the rows of a command, which has so many words, are those of its lines.
says() {
    local words=$1 by_lines by_rows
    shift
    "$afdx" "$@" >lines.txt 2>lines.err
    by_lines=$?
    "$afdx" "$@" --csv >rows.csv 2>rows.err
    by_rows=$?
    echo "status $by_lines and $by_rows"
    [ "$by_lines" -eq "$by_rows" ] && cmp lines.err rows.err &&
        python3 "$top/end_to_end/csv_rows.py" "${@:1:words}" <lines.txt >wanted.csv && diff wanted.csv rows.csv
}

# reads ROWS: Python's reader finds as many fields in each row as in the heading, and so many rows.
reads() {
    python3 - "$1" <<'END'
import csv
import sys

with open("rows.csv", encoding="ascii", newline="") as file:
    heading, *rows = csv.reader(file, strict=True)
if len(rows) != int(sys.argv[1]) or any(len(row) != len(heading) for row in rows):
    sys.exit(f"{len(rows)} rows of {sorted({len(row) for row in rows})} fields under {len(heading)} columns")
END
}

# runs ARGUMENT..: of `run`; what is put is the same.
runs() {
    rm -rf lines rows && mkdir lines rows &&
        "$afdx" run "$network/table.toml" "$network/in" lines "$@" >lines.txt &&
        "$afdx" run "$network/table.toml" "$network/in" rows --csv "$@" >rows.csv &&
        python3 "$top/end_to_end/csv_rows.py" run <lines.txt >wanted.csv && diff wanted.csv rows.csv && diff -r lines rows
}

# runs_switches: of `network run`.
runs_switches() {
    rm -rf lines rows && mkdir -p {lines,rows}/{cabin,bay,cockpit} &&
        "$afdx" network run "$aircraft/network.toml" "$aircraft/in" lines >lines.txt &&
        "$afdx" network run --csv "$aircraft/network.toml" "$aircraft/in" rows >rows.csv &&
        python3 "$top/end_to_end/csv_rows.py" network run <lines.txt >wanted.csv && diff wanted.csv rows.csv && diff -r lines rows
}

# refused ARGUMENT..: nothing is written, not even a heading.
refused() {
    local status=0
    "$afdx" "$@" --csv >rows.csv 2>said.txt || status=$?
    [ "$status" -ge 2 ] && [ ! -s rows.csv ] && [ -s said.txt ]
}

# usage ARGUMENT..: a command that has no rows takes no --csv.
usage() {
    local status=0
    "$afdx" "$@" --csv >rows.csv 2>said.txt </dev/null || status=$?
    [ "$status" -eq 2 ] && [ "$(cat said.txt)" = "afdx: usage" ]
}

check "check" says 1 check "$network/table.toml"
check "a row for each port with links" reads 4
check "size" says 1 size "$network/table.toml"
sed 's/^buffer = .*/buffer = 2000/; s/^max_delay_us = .*/max_delay_us = 300/' "$network/table.toml" >small.toml
check "size of ports that break rules" says 1 size small.toml
check "... which are named" grep -q ',L2;L4$' rows.csv
check "a table that is refused" refused check small.toml
: >empty.toml
check "a table without ports" says 1 check empty.toml
check "... has the heading alone" reads 0
check "run" runs
check "run with its verdict" runs --verdict
check "... as the last row" grep -q '^verdict,' rows.csv
check "measure" says 1 measure "$network/table.toml" "$network/in"
check "survey" says 1 survey "$network/table.toml" "$network/in"
check "... has the spell of the camera" grep -q "^spell,,401," rows.csv
check "measure without bounds" says 1 measure "$network/table.toml" "$network/in" --unchecked
"$afdx" run "$network/table.toml" "$network/in" out >/dev/null
check "compare" says 1 compare "$network/table.toml" "$network/in" out --stamps free
cp -r out late && python3 "$top/end_to_end/planted.py" late late 3 100 --by 300000
check "compare of recordings with a late frame" says 1 compare "$network/table.toml" "$network/in" late --stamps free
check "... whose slack is below 0" grep -qE '^link,.*,-[0-9]+,-[0-9]+,' rows.csv
check "network check" says 2 network check "$aircraft/network.toml"
mkdir outage && cp "$aircraft"/*.toml outage && sed -i 's/^name = "bay"$/&\ndown = true/' outage/network.toml
check "network check of an outage" says 2 network check outage/network.toml
check "network size" says 2 network size "$aircraft/network.toml"
check "network jitter" says 2 network jitter "$aircraft/network.toml"
check "network run" runs_switches
check "network measure" says 2 network measure "$aircraft/network.toml" "$aircraft/in"
check "... has a row for each end of a link" grep -q '^,way,,400,cabin.2,bay.3,3,' rows.csv
check "network measure of whatever network" says 2 network measure "$aircraft/network.toml" "$aircraft/in" --unchecked
check "network survey" says 2 network survey "$aircraft/network.toml" "$aircraft/in"
check "... has a spell with its switch" grep -q '^cabin,spell,,401,' rows.csv
check "network survey of an outage" says 2 network survey outage/network.toml "$aircraft/in"
check "a network that is not there" refused network check none.toml
check "alone has no rows" usage alone --id 1 --bag 1 --jitter 0 --size 64
check "trace has no rows" usage trace "$network/table.toml" "$network/in" out
finish
