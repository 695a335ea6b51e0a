#!/usr/bin/env bash
# What is around `rt ci` and `rt must-fail`: ./audit over an rt that only says what the kit's would, and bench/gate.py over processes
# that only take time and a log that was written by hand.
. "$(dirname "$0")/common.sh"
install python3=python3
export PYTHONDONTWRITEBYTECODE=1
cd "$room" || exit 1

# --- ./audit ---

# audits STATUS LAST ARGUMENT..: ./audit of the small tree ends with this status and this line, and leaves the tree as it was.
audits() {
    local wanted=$1 last=$2 status=0
    shift 2
    cp -r tree before && : >calls.txt
    PATH=$room/bin:$PATH tree/audit "$@" >said.txt 2>complaints.txt || status=$?
    cat said.txt complaints.txt
    diff -r before tree && rm -r before && [ "$status" -eq "$wanted" ] && [ "$(tail -n 1 said.txt)" = "$last" ]
}

# asked LINE..: rt was called with these words, and no more.
asked() {
    printf '%s\n' "$@" | diff - calls.txt
}

mkdir -p bin tree/release tree/crates/{full,high,low}/{audit,must-fail,src} tree/crates/none/src
touch tree/crates/full/audit/{001..100}.edit
touch tree/crates/low/audit/{one,two}.edit tree/crates/high/audit/three.edit tree/crates/{high,low}/must-fail/other.edit
touch tree/crates.txt tree/HANDLES && cp "$top/audit" tree && cp "$top/release/lanes.sh" tree/release
cat >bin/rt <<'END'
#!/bin/sh
echo "$*" >>"$CALLS"
shift
status=0
for crate in "$@"; do
    for edit in "crates/$crate/must-fail"/*.edit; do
        name=${edit##*/}
        case $name in
            "$MISSED") echo "rt: must-fail $crate/$name: NOT REFUSED: the crate is still proved with this edit"; status=1 ;;
            *) echo "rt: must-fail $crate/$name: refused, as it must be: note: src/lib.rt:1:1: it is not proved" ;;
        esac
    done
    [ "$crate" != "$BROKEN" ] || { echo "rt: crates/$crate/must-fail/odd: BAD EDIT: it stands elsewhere"; status=1; }
done
exit $status
END
chmod +x bin/rt
export CALLS=$room/calls.txt MISSED='' BROKEN=''

check "all wrong bodies of all crates are refused" audits 0 "103 passed, 0 failed"
check "each crate is tried once, small ones together" asked "must-fail full" "must-fail high low"
check "those of one crate" audits 0 "2 passed, 0 failed" low
check "no other crate is tried" asked "must-fail low"
MISSED=two.edit
check "one that is not refused" audits 1 "102 passed, 1 failed"
MISSED='' BROKEN=high
check "what rt fails beside them" audits 1 "103 passed, 1 failed"
check "a crate without any" audits 2 "" low none

# --- bench/gate.py ---

# busy FOLDER WORD..: a process that is named as the prover, with these words, takes two seconds of the processor in this folder.
busy() {
    mkdir -p "$1" && (cd "$1" && ulimit -t 2 && exec -a rattle "$room/rattle" -c 'while :; do :; done' "${@:2}")
}

# watched: three checks below a process, of which one forks, and one that isn't below it.
watched() {
    busy . check --crate-name afdx_other &
    bash -c "$(declare -f busy); room=$room; busy . build --crate-name afdx_one src/lib.rt & busy . build --crate-name afdx_one --test src/lib.rt &
        busy rt-edit-1 check --crate-name afdx_two src/lib.rt & wait; sleep 1" 2>killed.txt &
    python3 "$top/bench/gate.py" watch "$!" >minutes.txt
    wait
    cat minutes.txt
}

# says_minutes: of each kind what was taken, 0.03 minutes or as much less as is missed.
says_minutes() {
    watched 2>complaints.txt
    grep -qE '^-- minutes of afdx_one: proof 0.0[234], tests 0.0[234], wrong bodies 0.00$' minutes.txt &&
        grep -qE '^-- minutes of afdx_two: proof 0.00, tests 0.00, wrong bodies 0.0[234]$' minutes.txt && [ "$(wc -l <minutes.txt)" -eq 2 ]
}

# judged COMMAND: what gate.py says of the log beside a page.
judged() {
    python3 copy/bench/gate.py "$1" log.txt >answer.txt && diff "$1.txt" answer.txt
}

cp "$(command -v bash)" rattle
mkdir -p copy/bench copy/docs/develop && cp "$top/bench/gate.py" copy/bench
cat >log.txt <<'END'
rt: afdx_one proved
-- minutes of afdx_two: proof 4.00, tests 0.00, wrong bodies 7.56
-- minutes of afdx_one: proof 1.26, tests 0.70, wrong bodies 0.00
-- minutes of afdx_new: proof 0.50, tests 0.00, wrong bodies 0.04
END
cat >copy/docs/develop/PERFORMANCE.md <<'END'
# Performance

| Crate | Proof | Tests | Wrong bodies |
|---|---|---|---|
| `afdx_two` | 4.1 |  | 5.0 |
| `afdx_one` | 0.8 | 0.4 |  |
| all | 4.9 | 0.4 | 5.0 |

More.
END
cat >table.txt <<'END'
| Crate | Proof | Tests | Wrong bodies |
|---|---|---|---|
| `afdx_two` | 4.0 |  | 7.6 |
| `afdx_one` | 1.3 | 0.7 |  |
| `afdx_new` | 0.5 |  |  |
| all | 5.8 | 0.7 | 7.6 |
END
echo "-- warning: afdx_two, wrong bodies: 7.6 processor minutes, and 5.0 in PERFORMANCE.md" >slower.txt

check "the minutes of each check below a process" says_minutes
check "the table of a log" judged table
check "what took half as much again" judged slower
check "PERFORMANCE has such a table" grep -qxF "$(head -n 1 table.txt)" "$top/docs/develop/PERFORMANCE.md"
finish
