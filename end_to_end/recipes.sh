#!/usr/bin/env bash
# The recipes of docs/use/CAPTURES.md: each section's commands are run in a folder of their own, on the recordings that
# end_to_end/recordings.py makes for it, and print what the page has. What a recipe makes of a recording of the example
# network comes out of the switch as the network's own captures do.
. "$(dirname "$0")/common.sh"
install python3=python3 tshark=tshark
install_python numpy zstandard tqdm
export PYTHONDONTWRITEBYTECODE=1 LC_ALL=C
afdx=${AFDX:-$top/crates/afdx/out/afdx}
network=$top/examples/network
cd "$room" || exit 1

# prints SECTION/STEP: its commands print what the page has; they end with more than 1 (`compare` that differs) where the last line is
# a refusal, and only there.
prints() {
    local wanted=$room/steps/$1.txt status=0 refused=0
    (cd "work/${1%/*}" && bash -euo pipefail "$room/steps/$1.sh") >printed.txt 2>&1 || status=$?
    tail -n 1 "$wanted" | grep -q '^afdx: ' && refused=1
    echo "status $status"
    [ $((status > 1)) -eq "$refused" ] && is_printed "$wanted" printed.txt
}

# prepared SECTION: its folder, with recordings.
prepared() {
    mkdir -p "work/$1/raw" "work/$1/in" "work/$1/out" &&
        python3 "$top/end_to_end/recordings.py" "$1" "work/$1"
}

mkdir bin plain && ln -s "$afdx" bin/afdx && PATH=$room/bin:$top/python/bin:$PATH
python3 "$top/end_to_end/recordings.py" | sort >sections.txt

check "the page's commands are found" python3 "$top/end_to_end/steps.py" "$top/docs/use/CAPTURES.md" steps
check "each section has its recordings, and no other" diff <(ls steps) sections.txt
while read -r section; do
    check "$section: recordings" prepared "$section"
    for step in "steps/$section"/*.sh; do
        number=$(basename "$step" .sh)
        check "$section, $number: $(head -n 1 "$step")" prints "$section/$number"
    done
done <sections.txt

check "the example network" "$afdx" run "$network/table.toml" "$network/in" plain
check "clocks that are apart: the example network's" diff -r plain work/clocks_that_are_apart/out
finish
