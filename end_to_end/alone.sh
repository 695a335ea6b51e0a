#!/usr/bin/env bash
# afdx alone on captures that other programs wrote: what it passes is what Wireshark's tools filter, to the byte and the
# nanosecond, and its refusals are the lines and statuses that docs/use/FORMATS.md says.
. "$(dirname "$0")/common.sh"
install python3=python3 tcpdump=tcpdump text2pcap=wireshark-common editcap=wireshark-common mergecap=wireshark-common \
    tshark=tshark
afdx=${AFDX:-$top/crates/afdx/out/afdx}
cd "$room" || exit 1

# passes FILE FILTER: of the file, link 10 passes what tshark's filter lets through.
passes() {
    "$afdx" alone --id 10 --bag 1 --jitter 10000 --size 1000 <"$1" >passed.pcap &&
        tshark -r "$1" -Y "$2" -F nsecpcap -w wanted.pcap 2>/dev/null &&
        shown wanted.pcap >before.txt && shown passed.pcap >after.txt &&
        [ -s before.txt ] && cmp before.txt after.txt
}

# fills_the_disk: an output that takes nothing is a write fault.
fills_the_disk() {
    local status=0
    "$afdx" "${alone[@]}" <nanos.pcap 2>said.txt >/dev/full || status=$?
    echo "status $status: $(cat said.txt)"
    [ "$status" -eq 5 ] && [ "$(cat said.txt)" = "afdx: device write" ]
}

# stamps FILE JITTER STAMP..: with this jitter in us, link 10 passes the frames of these stamps.
stamps() {
    "$afdx" alone --id 10 --bag 1 --jitter "$2" --size 1518 <"$1" >answer.pcap &&
        tshark -r answer.pcap -T fields -e frame.time_epoch >seen.txt 2>complaints.txt && printf '%s\n' "${@:3}" | diff - seen.txt
}

# cut_answer LENGTH: how alone answers to two frames of 60 bytes that are cut to so many: its status and its line.
cut_answer() {
    case $1 in
        24 | 100 | 176) echo "0 " ;;
        ? | 1? | 2[0-3]) echo "3 afdx: capture P2 NoHeader" ;;
        2? | 3? | 10? | 11[0-5]) echo "3 afdx: capture P6 CutHeader, record $(($1 / 100 + 1))" ;;
        *) echo "3 afdx: capture P11 CutData, record $(($1 / 100 + 1))" ;;
    esac
}

# at_each_cut: they are cut to each number of bytes, and come through a pipe; whole records are passed.
at_each_cut() {
    local length
    for length in $(seq 0 176); do
        head -c "$length" two.pcap >part.pcap
        cat part.pcap | "$afdx" "${alone[@]}" >answer.pcap 2>said.txt
        echo "${PIPESTATUS[1]} $(cat said.txt)" >seen.txt
        cut_answer "$length" | diff - seen.txt || return 1
        cmp "$([ -s said.txt ] && echo /dev/null || echo part.pcap)" answer.pcap || return 1
    done
}

own='eth.dst == 03:00:00:00:00:0a && frame.cap_len == frame.len && frame.cap_len >= 60 && frame.cap_len <= 996'
alone=(alone --id 10 --bag 1 --jitter 0 --size 1518)

frames sent.pcap 0.000000000:10:64 0.000000000:11:64 0.000250001:10:1000 0.000300000:10:1001 0.001000000:266:64 \
    0.002500000:10:500 0.002500000:2560:500 3.999999999:10:1000 4294967294.999999999:10:64
tcpdump -r sent.pcap -w micros.pcap 2>/dev/null
tcpdump --time-stamp-precision=nano -r sent.pcap -w nanos.pcap 2>/dev/null
editcap -s 500 sent.pcap -F nsecpcap snapped.pcap
frames early.pcap 0.000000000:10:1518 0.000999999:10:1518 0.001000000:10:1518
mergecap -F pcapng -w next.pcapng sent.pcap early.pcap
head -c 150 nanos.pcap >cut.pcap
frames sooner.pcap 0.000000000:10:1518 0.000600000:10:1518
frames two.pcap 0.000000000:10:64 0.001000000:10:64

check "text2pcap's capture: the link's own frames" passes sent.pcap "$own"
check "tcpdump's capture in microseconds" passes micros.pcap "$own"
check "tcpdump's capture in nanoseconds" passes nanos.pcap "$own"
check "cut frames are nobody's" passes snapped.pcap "$own"
check "the frame that is a nanosecond early is policed" stamps early.pcap 0 0.000000000 0.001000000
check "with a jitter of 400 us a frame that comes so much sooner is passed" stamps sooner.pcap 400 0.000000000 0.000600000
check "with a microsecond less it is policed" stamps sooner.pcap 399 0.000000000
check "pcapng is refused by its magic" ends 3 "afdx: capture P3 Magic" next.pcapng "${alone[@]}"
check "a cut record is named" ends 3 "afdx: capture P11 CutData, record 2" cut.pcap "${alone[@]}"
check "a capture that is cut at each byte" at_each_cut
check "an unknown command" ends 2 "afdx: usage" sent.pcap alones
check "a gap that is none" ends 2 "afdx: usage" sent.pcap alone --id 10 --bag 3 --jitter 0 --size 1518
check "an option is missing" ends 2 "afdx: usage" sent.pcap alone --id 10 --bag 1 --jitter 0
check "standard input cannot be read" ends 5 "afdx: device read" . "${alone[@]}"
check "standard output takes nothing" fills_the_disk
check "help" helps --help
check "help of the command" helps alone --help
finish
