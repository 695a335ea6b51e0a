#!/usr/bin/env bash
# Captures that other programs wrote are read, and what we write is read by them: bytes, and stamps to the nanosecond.
. "$(dirname "$0")/common.sh"
install python3=python3 tcpdump=tcpdump text2pcap=wireshark-common editcap=wireshark-common \
    mergecap=wireshark-common capinfos=wireshark-common tshark=tshark
recapture=$top/crates/recapture/out/recapture
cd "$room" || exit 1

# is_kept FILE: it is read, and written again with the same stamps and bytes, and the tools take it without complaint.
is_kept() {
    "$recapture" <"$1" >again.pcap &&
        shown "$1" >before.txt && shown again.pcap >after.txt &&
        [ -s before.txt ] && cmp before.txt after.txt &&
        capinfos again.pcap 2>complaints.txt >info.txt && [ ! -s complaints.txt ] &&
        grep -q 'nanosecond pcap' info.txt &&
        ! tshark -r again.pcap 2>&1 >seen.txt | grep -v '^Running as user' &&
        ! grep -qiE 'malformed|cut short|damaged' seen.txt
}

# is_refused LINE FILE: it is refused with this line and status 3, and nothing is written.
is_refused() {
    local status=0
    "$recapture" <"$2" >out.pcap 2>said.txt || status=$?
    cat said.txt
    [ "$status" -eq 3 ] && [ ! -s out.pcap ] && [ "$(cat said.txt)" = "$1" ]
}

frames first.pcap 0.000000000:10:64 1.000005000:10:64 1.000005000:11:65 4294967294.999999999:12:1518
frames second.pcap 0.000000001:20:100 2.500000000:20:1518
tcpdump -r first.pcap -w micros.pcap 2>/dev/null
tcpdump --time-stamp-precision=nano -r first.pcap -w nanos.pcap 2>/dev/null
editcap -F nsecpcap micros.pcap edited.pcap
mergecap -F pcap -w merged.pcap first.pcap second.pcap
editcap -s 50 first.pcap -F nsecpcap snapped.pcap
mergecap -F pcapng -w next.pcapng first.pcap second.pcap
head -c 150 nanos.pcap >cut.pcap

check "text2pcap's capture is kept" is_kept first.pcap
check "tcpdump's capture in microseconds is kept" is_kept micros.pcap
check "tcpdump's capture in nanoseconds is kept" is_kept nanos.pcap
check "editcap's capture in nanoseconds is kept" is_kept edited.pcap
check "mergecap's capture is kept" is_kept merged.pcap
check "a capture of cut frames is kept" is_kept snapped.pcap
check "pcapng is refused by its magic" is_refused "recapture: Magic" next.pcapng
check "a capture cut in its second record is refused" is_refused "recapture: CutData(2)" cut.pcap
finish
