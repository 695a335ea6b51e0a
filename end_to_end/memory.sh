#!/usr/bin/env bash
# afdx with each of its allocations refused in turn: the answer is the right one, or `afdx: memory` with status 5. And a run of
# captures that are cut at each byte, beside the model.
. "$(dirname "$0")/common.sh"
install python3=python3 cc=gcc tcpdump=tcpdump text2pcap=wireshark-common \
    editcap=wireshark-common
export PYTHONDONTWRITEBYTECODE=1
afdx=${AFDX:-$top/crates/afdx/out/afdx}
cd "$room" || exit 1

# refuses NAME STATUS LINE INPUT ARGUMENT..: for these arguments and this input $afdx ends with this status and this line, or is out of memory;
# what it writes goes to $output.
output=-
refuses() {
    local name=$1
    shift
    check "$name" python3 "$top/end_to_end/refused.py" "$room/refuse.so" "$1" "$2" "$3" "$output" "$afdx" "${@:4}"
    tail -n 1 "$room/said"
}

{ table_ports 1 2 && table_link 10 1 2 1518 low; } >table.toml
sed 's/to = .*/to = [1]/' table.toml >own.toml
sed 's/bag_ms = .*/bag_ms = 3/' table.toml >bag.toml
sed 's/id = 10/id = 10\ncolor = 1/' table.toml >color.toml
sed 's/buffer = .*/buffer = 1518/; s/jitter_us = .*/jitter_us = 1000/' table.toml >small.toml
echo 'constant = "0300"' | cat - table.toml >constant.toml
cat >network.toml <<'END'
version = 1

[[switch]]
name = "A"
table = "table.toml"

[[switch]]
name = "B"
table = "later.toml"

[[wire]]
from = "A.2"
to = "B.1"
END
sed 's/jitter_us = .*/jitter_us = 1000/' table.toml >later.toml
sed 's/later/table/' network.toml >short.toml
mkdir -p in cut pcapng usb sent out both/A both/B puts/A puts/B
frames in/port-1.pcap 0.000000000:10:1518 0.000999999:10:1518 0.001000000:10:1518
frames in/port-2.pcap 0.000000000:11:64
head -c 1500 in/port-1.pcap >cut/port-1.pcap
editcap -F pcapng in/port-1.pcap pcapng/port-1.pcap
editcap -T usb-linux -F nsecpcap in/port-1.pcap usb/port-1.pcap
for kind in cut pcapng usb; do
    cp in/port-2.pcap $kind
done
cp -r in whole && enlarge whole/port-1.pcap 65
cp in/port-[12].pcap both/A
cp in/port-2.pcap both/B
"$afdx" run table.toml in sent >/dev/null
alone=(alone --id 10 --bag 1 --jitter 0 --size 1518)

check "the library is built" cc -Wall -Wextra -O1 -shared -fPIC -o refuse.so "$top/end_to_end/refuse.c"
refuses "alone" 0 "" in/port-1.pcap "${alone[@]}"
refuses "check" 0 "" /dev/null check table.toml
refuses "size" 0 "" /dev/null size small.toml
refuses "run" 0 "" /dev/null run table.toml in out
refuses "run without the check" 0 "" /dev/null run table.toml in out --unchecked
refuses "run that fails on a policed frame" 1 "" /dev/null run table.toml in out --verdict --fail-on policed
refuses "run of captures of 17 MB" 0 "" /dev/null run table.toml whole out
refuses "measure" 0 "" /dev/null measure table.toml in
refuses "survey" 0 "" /dev/null survey table.toml in
refuses "trace" 0 "" /dev/null trace table.toml in out
refuses "trace of two links, from the first frame" 0 "" /dev/null trace table.toml in out --link 10 --link 11 --relative
refuses "compare" 0 "" /dev/null compare table.toml in sent --stamps free --rest --rows out
refuses "compare that differs" 1 "" /dev/null compare table.toml in in --stamps free --rest --rows out
refuses "network check" 0 "" /dev/null network check network.toml
refuses "network jitter" 0 "" /dev/null network jitter network.toml
refuses "help" 0 "" /dev/null --help
refuses "usage" 2 "afdx: usage" /dev/null alone --bag 3
refuses "a number out of its limits" 2 "afdx: usage" /dev/null alone --id 10 --bag 3 --jitter 0 --size 1518
refuses "no TOML" 3 "afdx: table C2 Toml" /dev/null check in/port-1.pcap
refuses "an unknown key" 3 "afdx: table C3 UnknownKey, link 1" /dev/null check color.toml
refuses "a gap that is none" 3 "afdx: table C6 Range, link 1, bag_ms" /dev/null check bag.toml
refuses "a constant that is none" 3 "afdx: table C7 Constant" /dev/null check constant.toml
refuses "a link to its own port" 3 "afdx: table C13 ToOwnPort, link 1" /dev/null check own.toml
refuses "a load that is refused" 4 "afdx: load L2 Buffer, port 2, need 904847360000000, limit 248709120000000" /dev/null \
    check small.toml
refuses "a jitter that is not enough" 4 "afdx: network J1 Jitter, switch B, link 10, need 153, has 0" /dev/null \
    network check short.toml
refuses "pcapng" 3 "afdx: capture P3 Magic, port 1" /dev/null run table.toml pcapng out
refuses "another link type" 3 "afdx: capture P5 LinkType 189, port 1" /dev/null run table.toml usb out
refuses "a capture that is cut" 3 "afdx: capture P11 CutData, port 1, record 1" /dev/null run table.toml cut out
refuses "a capture of alone that is cut" 3 "afdx: capture P11 CutData, record 1" cut/port-1.pcap "${alone[@]}"
refuses "no capture" 5 "afdx: device get none/port-1.pcap" /dev/null run table.toml none out
refuses "no folder to write to" 5 "afdx: device put none/port-1.pcap" /dev/null run table.toml in none
refuses "standard input cannot be read" 5 "afdx: device read" . "${alone[@]}"
output=/dev/full refuses "the answer cannot be written" 5 "afdx: device write" in/port-1.pcap "${alone[@]}"
output=/dev/full refuses "the report cannot be written" 5 "afdx: device write" /dev/null run table.toml in out
rm -r out && mv puts out
refuses "network run" 0 "" /dev/null network run network.toml both out
rm -r out && mkdir out
mkdir first
for port in 1 2 3 4; do
    tcpdump --time-stamp-precision=nano -c 17 -r "$top/examples/network/in/port-$port.pcap" -w "first/port-$port.pcap" 2>/dev/null
done
check "each cut of a capture, beside the model" \
    python3 "$top/end_to_end/cuts.py" "$afdx" "$top/examples/network/table.toml" first 3
tail -n 1 "$room/said"
finish
