#!/usr/bin/env bash
# afdx on hostile inputs: captures, tables and networks that are drawn and mutated (fuzz_captures.py, fuzz_tables.py,
# fuzz_networks.py). The models say what is right, to the byte; where they cannot, an answer keeps what FORMATS and MESSAGES promise
# of each (fuzz_run.py).
#
#   end_to_end/fuzz.sh [N [SEED]]    N inputs of each family, with the seeds SEED, SEED + 1 and so on; 3000 from 1 on if none are named
#
# An input that fails is kept in /tmp/afdx-fuzz, and the command that tries it again is printed.
. "$(dirname "$0")/common.sh"
install python3=python3
export PYTHONDONTWRITEBYTECODE=1
afdx=${AFDX:-$top/crates/afdx/out/afdx}
count=${1:-3000} seed=${2:-1}

# The program has the device take each capture that it puts, which costs nothing in memory.
memory=$(mktemp -d -p /dev/shm 2>/dev/null) || memory=$room
trap 'rm -rf "$room" "$memory"' EXIT

check "the model of refused tables has the lines that were worked out by hand" python3 "$top/end_to_end/table_rows.py"
for family in captures tables networks; do
    check "$count hostile $family from seed $seed on" \
        python3 "$top/end_to_end/fuzz.py" "$afdx" "$family" "$count" "$seed" --room "$memory/run" --keep /tmp/afdx-fuzz
    tail -n 1 "$room/said"
done
finish
