#!/usr/bin/env bash
# afdx size on the example network and on tables that are drawn by chance, beside the model and beside afdx check; and what
# afdx says of its version.
. "$(dirname "$0")/common.sh"
install python3=python3
export PYTHONDONTWRITEBYTECODE=1 LC_ALL=C
afdx=${AFDX:-$top/crates/afdx/out/afdx}
cd "$room" || exit 1

# as_modelled TABLE: the lines are the model's, with status 0.
as_modelled() {
    "$afdx" size "$1" >lines.txt 2>said.txt && python3 "$top/end_to_end/model.py" --size "$1" >wanted.txt &&
        [ -s lines.txt ] && cmp wanted.txt lines.txt && [ ! -s said.txt ]
}

# fits TABLE: so, and every port fits.
fits() {
    as_modelled "$1" && ! grep -v ' fits$' lines.txt
}

# breaks LINE TABLE: so, and one of the lines is this.
breaks() {
    as_modelled "$2" && cat lines.txt && grep -qxF "$1" lines.txt
}

# prints_its_version WORD: the program's name and number, then the line of a kit that README names, then whether it was proved.
prints_its_version() {
    "$afdx" "$1" >answer.txt 2>said.txt && cat answer.txt && sed -n 1p answer.txt | grep -qx 'afdx [0-9.]*' &&
        grep -qF "\`$(sed -n 2p answer.txt)\`" "$top/README.md" && [ ! -s said.txt ] &&
        [ "$(sed -n '3,$p' answer.txt | grep -cxE 'not proved|proved ([0-9a-f]{40}(-dirty)?|of no commit)')" -eq 1 ] &&
        [ "$(wc -l <answer.txt)" -eq 3 ]
}

sed 's/buffer = 8192/buffer = 4000/; s/max_delay_us = 10000/max_delay_us = 2000/' "$top/examples/network/table.toml" >small.toml
echo 'version = 4' >other.toml

check "the example network fits" fits "$top/examples/network/table.toml"
check "a small buffer and a short delay" breaks \
    "port 4 rate 167731200 of 2048000000 buffer 4394 of 4000 high 928160 of 2000000 low 2907417 of 2000000 breaks L2 L4" small.toml
python3 "$top/bench/network.py" big 0
check "24 ports and 4096 links fit" fits big/table.toml
check "tables that are drawn by chance" python3 "$top/end_to_end/sizes.py" "$afdx" "$room" 200
cat "$room/said"
check "a file that is no table" ends 3 "afdx: table C6 Range, top, version" /dev/null size other.toml
check "no file" ends 5 "afdx: device get none.toml" /dev/null size none.toml
check "help of size" helps size --help
check "--version" prints_its_version --version
check "-V" prints_its_version -V
finish
