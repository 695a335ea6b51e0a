#!/usr/bin/env bash
# afdx compare over recordings of a real switch that is not ours: a Linux bridge between virtual Ethernet lines, recorded by tcpdump.
. "$(dirname "$0")/common.sh"
install python3=python3 ip=iproute2 bridge=iproute2 unshare=util-linux tcpdump=tcpdump
export PYTHONDONTWRITEBYTECODE=1 LC_ALL=C
afdx=${AFDX:-$top/crates/afdx/out/afdx}
cd "$room" || exit 1

alone=(unshare --net --mount)
[ "$(id -u)" -eq 0 ] || alone=(sudo "${alone[@]}")
if ! "${alone[@]}" ip link add trial type bridge 2>said.txt; then
    echo "skipped: no network namespace with a bridge: $(tail -n 1 said.txt)"
    exit 0
fi

# The bridge floods, so that each link leads to all other ports. It polices nothing, so the links may send far more than they do. The
# stamps are the kernel's own, before and after the bridge. A machine with much to do holds a frame back for milliseconds: the tolerance is
# larger than that, and the links' gap so large that most fates are still certain. Each scene is recorded up to three times.
cat >table.toml <<'END'
version = 3
latency_us = 100
END
for port in 1 2 3; do
    printf '[[port]]\nid = %s\nmbit = 1000\nbuffer = 65536\nmax_delay_us = 10000\n' "$port" >>table.toml
done
printf '[[link]]\nid = 10\nfrom = 1\nto = [2, 3]\nbag_ms = 128\njitter_us = 10000\nmax_size = 1518\npriority = "low"\n' >>table.toml
printf '[[link]]\nid = 20\nfrom = 2\nto = [1, 3]\nbag_ms = 128\njitter_us = 10000\nmax_size = 1518\npriority = "low"\n' >>table.toml

recorded() {
    "${alone[@]}" python3 "$top/end_to_end/bridge.py" "$@"
}

# compares STATUS FOLDER: with the status, and the rows are put.
compares() {
    rm -rf rows && mkdir rows
    "$afdx" compare table.toml "$2/in" "$2/out" --tolerance 50000000 --rows rows >lines.txt
    [ $? -eq "$1" ]
}

# keeps_to_it FOLDER: the bridge passes each frame of both links, at each of their ports; those within the tolerance of the span's ends do
# not count.
keeps_to_it() {
    compares 0 "$1" && [ "$(grep -cE ' passed 3[0-9] seen 3[0-9] missing 0 extra 0 early 0 late 0 .* unsure [0-9] ' lines.txt)" -eq 4 ] &&
        [ "$(tail -n 1 lines.txt)" = conforms ]
}

# is_named FOLDER: what did not leave at port 3 is named, frame by frame, and nothing else.
is_named() {
    compares 1 "$1" && [ "$(grep -c '^3,[12]0,missing,' rows/differences.csv)" -ge 10 ] &&
        ! tail -n +2 rows/differences.csv | grep -v '^3,[12]0,missing,'
}

# is_seen WHAT FOLDER WORDS..: what a recording into this folder shows.
is_seen() {
    for _ in 1 2 3; do
        rm -rf "$2"
        recorded "${@:2}" && "$1" "$2" && return
    done
    return 1
}

check "a bridge is recorded, and it keeps to what is proved of the switch" is_seen keeps_to_it whole
check "one that is deaf at a port is recorded, and each frame that is missing there is named" is_seen is_named deaf --deaf
finish
