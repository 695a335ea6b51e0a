#!/usr/bin/env bash
# The lines of docs/use/MESSAGES.md but those of networks (network.sh): each is provoked, with its status, and the page has no other; and the page's report.
. "$(dirname "$0")/common.sh"
install python3=python3 text2pcap=wireshark-common editcap=wireshark-common mergecap=wireshark-common
export PYTHONDONTWRITEBYTECODE=1 LC_ALL=C
afdx=${AFDX:-$top/crates/afdx/out/afdx}
page=$top/docs/use/MESSAGES.md
cd "$room" || exit 1
: >provoked.txt

# says STATUS LINE ARGUMENT..: the program ends so; the line is one of the page's.
says() {
    echo "$1 $2" >>provoked.txt
    check "$2" ends "$1" "$2" "${input:-/dev/null}" "${@:3}"
    check "$2, explained" explained "$1" "$2" "${input:-/dev/null}" "${@:3}"
}

# explained STATUS LINE FILE ARGUMENT..: with --explain it ends so too, and then says of the line's code what \`afdx explain\` says.
explained() {
    local code
    code=$(sed -E 's/^afdx: ((argument|table|capture|load|device) )?(\w+).*/\3/' <<<"$2")
    "$afdx" explain "$code" >entry.txt && [ -s entry.txt ] && ends "$1" "$2"$'\n'"$(cat entry.txt)" "$3" --explain "${@:4}"
}

# cannot_write: a standard output that takes nothing.
cannot_write() {
    local status=0
    "$afdx" check table.toml >/dev/full 2>said.txt || status=$?
    cat said.txt
    [ "$status" -eq 5 ] && [ "$(cat said.txt)" = "afdx: device write" ]
}

# lacks_memory: a table file that is larger than the memory that the program may have.
lacks_memory() (
    truncate -s 100M large.toml
    ulimit -v 60000
    ends 5 "afdx: memory" /dev/null check large.toml
)

# table EDIT..: table.toml, changed by sed, as changed.toml.
table() {
    sed "$@" table.toml >changed.toml
}

# refuses_table LINE EDIT..: the table with this edit is refused.
refuses_table() {
    table "${@:2}"
    says 3 "afdx: table $1" check changed.toml
}

# refuses_load LINE EDIT..: so is its load.
refuses_load() {
    table "${@:2}"
    says 4 "afdx: load $1" check changed.toml
}

# refuses_capture LINE: so is in/port-1.pcap, which is whole again after that.
refuses_capture() {
    says 3 "afdx: capture $1" run table.toml in out
    cp good.pcap in/port-1.pcap
}

# patch OFFSET BYTES: writes bytes, as printf has them, into in/port-1.pcap.
patch() {
    printf '%b' "$2" | dd of=in/port-1.pcap bs=1 seek="$1" conv=notrunc status=none
}

# link ID PRIORITY: a further link like the table's.
link() {
    echo && table_link "$1" 1 2 1518 "$2"
}

# lines_are_the_pages: the lines that were provoked, with their status, are those of the page; network.sh provokes those of
# networks.
lines_are_the_pages() {
    sed -n '/^## Networks/,/^## Files/ d; s/^| `\(afdx: [^`]*\)` | \([0-9]\) |.*/\2 \1/p' "$page" | sort >wanted.txt
    [ -s wanted.txt ] && sort provoked.txt | diff wanted.txt -
}

# report_is_the_pages: so is the report of one frame of each kind.
report_is_the_pages() {
    "$afdx" run lossy.toml in out --unchecked --verdict >report.txt && sed -n '/^## The report/,$ { /^```text/,/^```$/ { /^```/! p } }' "$page" | diff - report.txt
}

table_ports 1 2 >table.toml
link 10 low >>table.toml
mkdir in out
frames good.pcap 0.000000000:10:64 0.001000000:10:64
cp good.pcap in/port-1.pcap
head -c 24 good.pcap >in/port-2.pcap

says 2 "afdx: usage" run table.toml in
table '1i version = 3\nlatency_us = 80'
says 2 "afdx: argument A1 Latency, --least-latency 90, limit 80" compare changed.toml in out --least-latency 90
says 2 "afdx: argument A2 NoSuchPort, --ports 3" compare table.toml in out --ports 1,3
says 2 "afdx: argument A2 NoSuchPort, --offset 3" compare table.toml in out --offset 3=100
says 2 "afdx: argument A3 LeftOut, --offset 1" compare table.toml in out --ports 2 --offset 1=100
says 2 "afdx: argument A4 Span, --from 2000000000, --until 1000000000" compare table.toml in out --from 2000000000 --until 1000000000

refuses_table "C2 Toml" 's/"low"/"low/'
refuses_table "C3 UnknownKey, link 1" 's/bag_ms/bag/'
refuses_table "C4 MissingKey, port 2, mbit" '/id = 2/ { n; d }'
refuses_table "C5 Kind, link 1, to" 's/to = .*/to = 2/'
refuses_table "C6 Range, link 1, bag_ms" 's/bag_ms = .*/bag_ms = 3/'
refuses_table "C7 Constant" '1i constant = "02000000"'
refuses_table "C8 TwicePort, port 2" 's/^id = 2/id = 1/'
link 10 high >twin.toml
refuses_table "C9 TwiceLink, link 2" '$r twin.toml'
refuses_table "C10 NoSuchPort, link 1" 's/from = .*/from = 3/'
refuses_table "C11 ToEmpty, link 1" 's/to = .*/to = []/'
refuses_table "C12 ToTwice, link 1" 's/to = .*/to = [2, 2]/'
refuses_table "C13 ToOwnPort, link 1" 's/to = .*/to = [1]/'
table_ports {3..25} >ports.toml
refuses_table "C14 TooMany, port" '$r ports.toml'

: >in/port-1.pcap
refuses_capture "P2 NoHeader, port 1"
editcap -F pcapng good.pcap in/port-1.pcap
refuses_capture "P3 Magic, port 1"
patch 4 '\x03'
refuses_capture "P4 Version, port 1"
editcap -F nsecpcap -T linux-sll good.pcap in/port-1.pcap
refuses_capture "P5 LinkType 113, port 1"
head -c 110 good.pcap >in/port-1.pcap
refuses_capture "P6 CutHeader, port 1, record 2"
patch 32 '\x01\x00\x04\x00'
refuses_capture "P7 Huge, port 1, record 1"
patch 28 '\x00\xca\x9a\x3b'
refuses_capture "P8 Fraction, port 1, record 1"
patch 24 '\xff\xff\xff\xff'
refuses_capture "P9 Late, port 1, record 1"
patch 24 '\x01'
refuses_capture "P10 Backwards, port 1, record 2"
head -c 150 good.pcap >in/port-1.pcap
refuses_capture "P11 CutData, port 1, record 2"
mkdir outputs && : >outputs/port-1.pcap && cp good.pcap outputs/port-2.pcap
says 3 "afdx: capture P2 NoHeader, output 1" compare table.toml in outputs

for number in 11 12 13 14 15 16; do link "$number" low; done >six.toml
link 12 high >high.toml
refuses_load "L1 Rate, port 2, need 2285015040, limit 2048000000" '$r six.toml'
refuses_load "L2 Buffer, port 2, need 578416640000000, limit 497418240000000" 's/^buffer = .*/buffer = 3036/'
refuses_load "L3 HighDelay, port 2, need 282430, limit 282000" -e 's/^max_delay_us = .*/max_delay_us = 282/' -e '$r high.toml'
refuses_load "L4 LowDelay, port 2, need 379224, limit 283000" -e 's/^max_delay_us = .*/max_delay_us = 283/' -e '$r high.toml'

mv in/port-2.pcap away.pcap
says 5 "afdx: device get in/port-2.pcap" run table.toml in out
mv away.pcap in/port-2.pcap
rmdir out
says 5 "afdx: device put out/port-1.pcap" run table.toml in out
mkdir out
input=. says 5 "afdx: device read" alone --id 10 --bag 1 --jitter 0 --size 1518

echo "5 afdx: device write" >>provoked.txt
check "afdx: device write" cannot_write
echo "5 afdx: memory" >>provoked.txt
check "afdx: memory" lacks_memory

# One frame of each kind.
sed -e '/^id = 2/,/^$/ { s/^buffer.*/buffer = 2500/; s/^max_delay.*/max_delay_us = 50/ }' -e 's/max_size = .*/max_size = 1000/' table.toml >lossy.toml
for number in 11 12; do link "$number" low | sed 's/max_size = .*/max_size = 1000/'; done >>lossy.toml
link 20 low | sed 's/from = 1/from = 2/; s/to = .*/to = [1]/' >>lossy.toml
frames sent.pcap 1.000000000:10:63 1.000001000:10:1519 1.000002000:99:64 1.000003000:20:64 1.000004000:10:1001 \
    2.000000000:10:1000 2.000001000:11:1000 2.000002000:12:1000 2.001000000:10:1000 2.001000001:10:64
frames once.pcap 1.500000000:10:64
editcap -F nsecpcap -s 50 once.pcap cut.pcap
cp once.pcap foreign.pcap
printf '\x02' | dd of=foreign.pcap bs=1 seek=40 conv=notrunc status=none
mergecap -F nsecpcap -w in/port-1.pcap sent.pcap cut.pcap foreign.pcap
check "the page's report" report_is_the_pages
check "the page has the lines that were provoked, and no others" lines_are_the_pages
finish
