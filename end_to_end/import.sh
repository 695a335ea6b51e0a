#!/usr/bin/env bash
# python/bin/afdx-import and afdx-skew: the commands of docs/use/IMPORT.md on recordings of a run (recorded_network.py) print what
# the page has, and find what was hidden in them, to the byte; what is refused changes nothing; memory does not grow.
. "$(dirname "$0")/common.sh"
install python3=python3 zstd=zstd editcap=wireshark-common mergecap=wireshark-common
install_python numpy zstandard tqdm
export PYTHONDONTWRITEBYTECODE=1 LC_ALL=C
afdx=${AFDX:-$top/crates/afdx/out/afdx}
page=$top/docs/use/IMPORT.md
cd "$room" || exit 1

# finds NETWORK: the captures are those that came in, and the run's report and outputs those of the model of networks.
finds() {
    diff -r "work/in/$1" "work/truth/$1" && cmp "work/$1.txt" "work/sent/$1.txt" && diff -r "work/out/$1" "work/sent/$1"
}

# hidden: what the two networks do not share at the cockpit is what got lost.
hidden() {
    afdx-skew work/out/A work/out/B >skew.txt &&
        awk '$1 == "cockpit/port-2" && ($11 || $15) { print $3, $11, $13, $15, $17 }' skew.txt | diff - <(printf '100 3 3 0 0\n403 0 0 1 1\n')
}

# changes_nothing STATUS LINE RULES: the import ends so, and all captures are as they were.
changes_nothing() {
    local status=0
    cp -r work/in before
    afdx-import "$3" work/raw work/in >answer.txt 2>said.txt || status=$?
    echo "status $status: $(cat said.txt)"
    [ "$status" -eq "$1" ] && [ ! -s answer.txt ] && [ "$(cat said.txt)" = "$2" ] && diff -r before work/in && rm -r before
}

# mirrored: of a mirror of both directions each port is warned of; editcap leaves what came in.
mirrored() {
    local network=$top/examples/network port
    mkdir -p span/raw span/out && "$afdx" run "$network/table.toml" "$network/in" span/out >span/report.txt &&
        mergecap -w span/raw/span.pcapng "$network"/in/port-*.pcap span/out/port-*.pcap || return 1
    editcap -w 0.005 span/raw/span.pcapng span/raw/came.pcapng 2>/dev/null || return 1
    echo 'end_systems = { 1 = "port-1", 2 = "port-2", 3 = "port-3", 4 = "port-4" }' >span/ends
    for port in span came; do
        printf '[[source]]\nfile = "%s.pcapng"\n' $port | cat - span/ends >span/$port.toml
        afdx-import span/$port.toml span/raw span/$port >/dev/null 2>span/$port.txt || return 1
    done
    [ "$(grep -c 'what leaves the switch too' span/span.txt)" -eq 4 ] && grep -qxF "$(grep 'leaves the switch too' "$page")" span/span.txt &&
        [ ! -s span/came.txt ] && "$afdx" run "$network/table.toml" span/came span/out | diff - span/report.txt
}

# untagged: tags are counted, and taken off; what is left is what came in.
untagged() {
    local network=$top/examples/network
    mkdir -p tagged/raw tagged/out && "$afdx" run "$network/table.toml" "$network/in" tagged/out >tagged/report.txt &&
        PYTHONPATH=$top/end_to_end python3 - "$network" <<'END' || return 1
import sys
from dataclasses import replace
from pathlib import Path

import captures

for path in sorted(Path(sys.argv[1], "in").iterdir()):
    records, _ = captures.read(path.read_bytes())
    put = [replace(one, frame=one.frame[:12] + bytes.fromhex("81002005") + one.frame[12:], original=one.length + 4) for one in records]
    Path("tagged/raw", path.name).write_bytes(captures.pcap(put))
END
    printf '[[source]]\nfile = "port-%s.pcap"\nto = "port-%s"\n' 1 1 2 2 3 3 4 4 >tagged/rules.toml
    afdx-import tagged/rules.toml tagged/raw tagged/in 2>tagged/said.txt >/dev/null
    [ "$(grep -c 'frames have a VLAN tag' tagged/said.txt)" -eq 4 ] && grep -qxF "$(grep 'frames have a VLAN tag:' "$page")" tagged/said.txt || return 1
    sed -i 's/^to .*/&\ntags = true/' tagged/rules.toml
    afdx-import tagged/rules.toml tagged/raw tagged/in 2>&1 >/dev/null | grep -c '^afdx-import: tags of .* frames taken off' | grep -qx 4 &&
        "$afdx" run "$network/table.toml" tagged/in tagged/out | diff - tagged/report.txt
}

# set_back: of a clock that was set back in the middle the page's warning; cut there, with an offset, it is what came in.
set_back() {
    local port=$top/examples/network/in/port-1.pcap
    mkdir -p back/raw && editcap -r "$port" back/1.pcap 1-123 && editcap -t -0.15 "$port" back/2.pcap 1-123 &&
        mergecap -a -F nsecpcap -w back/raw/port-1.pcap back/1.pcap back/2.pcap || return 1
    printf '[[source]]\nfile = "port-1.pcap"\nto = "port-1"\n' >back/rules.toml
    afdx-import back/rules.toml back/raw back/in 2>back/said.txt >/dev/null
    cat back/said.txt
    grep -qxF "$(grep 'clock set back' "$page")" back/said.txt || return 1
    (cd back && grep '^editcap .*1-123$' "$page" | bash)
    printf '[[source]]\nfile = "%s.pcap"\nto = "port-1"\n' before after >back/rules.toml
    echo 'offset_ns = 150000000' >>back/rules.toml
    afdx-import back/rules.toml back/raw back/in && cmp back/in/port-1.pcap "$port"
}

# peak MEGABYTES: the most memory, in KiB, that the import of a recording of this size takes.
peak() {
    PYTHONPATH=$top/end_to_end python3 - "$1" <<'END'
import resource
import subprocess
import sys

from captures import HEADER, frame, record

stamp = 1_790_000_000_000_000_000
frames = [frame(link, 1036, end_system=1, network=0x20) for link in range(9)]
with open("big/raw.pcap", "wb") as file:
    file.write(HEADER)
    for _ in range(int(sys.argv[1])):
        for number in range(1000):
            stamp += 90_000
            file.write(record(stamp, frames[number % 9]))
subprocess.run(["afdx-import", "big/rules.toml", "big", "big/in"], check=True, stdout=subprocess.DEVNULL)
print(resource.getrusage(resource.RUSAGE_CHILDREN).ru_maxrss)
END
}

# memory_stays: twice the recording takes no more memory, but for two of the pieces of 4 MiB in which it is read.
memory_stays() {
    local less more
    mkdir -p big && printf '[[source]]\nfile = "raw.pcap"\nto = "port-1"\n' >big/rules.toml
    less=$(peak 200) && more=$(peak 400) && rm -r big
    echo "$less KiB, $more KiB"
    [ "$more" -lt $((less + 8192)) ]
}

# marks STEP STAMPS UNIT FILE: a capture of a frame at each of these ns, of links STEP apart: the same frame if STEP is 0.
marks() {
    PYTHONPATH=$top/end_to_end python3 - "$@" <<'END'
import sys
from pathlib import Path

from captures import SECOND, Record, frame, pcap

step, stamps, unit, name = sys.argv[1:]
records = [Record(1_790_000_000 * SECOND + int(stamp), frame(1 + int(step) * number, 64)) for number, stamp in enumerate(stamps.split())]
Path(name).write_bytes(pcap(records, unit=int(unit)))
END
}

# tells_no_drift: two marks 20 us apart, of a clock of ns and one of us, tell the offset alone.
tells_no_drift() {
    marks 1 "400 20700" 1 mark-a.pcap && marks 1 "0 20000" 1000 mark-b.pcap &&
        afdx-import --align mark-a.pcap mark-b.pcap | tail -n 3 |
        diff - <(printf '# too short to tell a drift\noffset_ns = 550\ndrift_ppb = 0\n')
}

# more_than_one_fits: three frames of the same bytes within 110 us may pair in more than one way.
more_than_one_fits() {
    local status=0
    marks 0 "0 60000 110000" 1 mark-a.pcap && marks 0 "37000000 37060000 37110000" 1 mark-b.pcap
    afdx-import --align mark-a.pcap mark-b.pcap >answer.txt 2>said.txt || status=$?
    cat answer.txt said.txt
    [ "$status" -eq 3 ] && [ ! -s answer.txt ] && grep -q "more than one offset fits, mark-a.pcap and mark-b.pcap$" said.txt
}

mkdir bin work && ln -s "$afdx" bin/afdx && PATH=$room/bin:$top/python/bin:$PATH
cp "$top"/examples/aircraft/*.toml work
sed -n '/^```toml$/,/^```$/ { /^```/! p }' "$page" >work/rules.toml

check "the recordings" python3 "$top/end_to_end/recorded_network.py" work
check "the page's commands are found" python3 "$top/end_to_end/steps.py" "$page" steps
check "importing, 1: afdx-import rules.toml raw in" step_prints importing/1
check "importing, 2: the runs" step_prints importing/2
for network in A B; do
    check "network $network: to the byte what came in, and what the model makes of it" finds "$network"
done
check "importing, 3: measuring" step_prints importing/3
check "two clocks" step_prints two_clocks/1
check "two clocks: marks that are close together" tells_no_drift
check "two clocks: the same frames close together" more_than_one_fits
check "two networks" step_prints two_networks/1
check "two networks, frame by frame" step_prints two_networks/2
check "what got lost is found" hidden

late="afdx-import: a frame of A/cockpit/port-3 is more than 0 ms late: 2026-09-21T14:13:20.352740730Z comes after 2026-09-21T14:13:20.368740614Z (cockpit.pcap.zst, record 784, offset 136506), cockpit.pcap.zst, record 793, offset 138114"
sed '1i window_ms = 0' work/rules.toml >narrow.toml
check "a window that is too narrow" changes_nothing 3 "$late" narrow.toml
head -c 100000 /dev/zero | tr '\0' '\377' | cat work/raw/bay.pcap - >work/raw/faulty.pcap
sed 's/bay.pcap/faulty.pcap/' work/rules.toml >faulty.toml
check "a faulty recording" changes_nothing 3 "afdx-import: 4294967295 bytes captured, faulty.pcap, record 1245, offset 220819" faulty.toml
printf '[[source]]\nfile = "*.pcapng.gz"\nport = 3\n' >wrong.toml
check "faulty rules" changes_nothing 3 "afdx-import: source 1: unknown key port, wrong.toml
afdx-import: source 1: needs either to or end_systems, wrong.toml" wrong.toml
for command in afdx-import afdx-skew; do
    check "$command: a Python without its modules" "$BASH" -c "! /usr/bin/python3 -S '$top/python/bin/$command' a b c 2>said.txt &&
        grep -q '^$command: no numpy, .*zstandard in .*: install python3-numpy .*python3-zstandard ' said.txt"
done
check "a mirror of both directions" mirrored
check "tags" untagged
check "a clock that was set back" set_back
check "memory of twice the recording" memory_stays
finish
