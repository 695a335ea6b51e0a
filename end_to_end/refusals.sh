#!/usr/bin/env bash
# What afdx run and afdx check refuse, on real files: the line, the status, and which files are there then.
. "$(dirname "$0")/common.sh"
install python3=python3 text2pcap=wireshark-common editcap=wireshark-common
export PYTHONDONTWRITEBYTECODE=1
afdx=${AFDX:-$top/crates/afdx/out/afdx}
cd "$room" || exit 1

# refused STATUS LINE ARGUMENT..: it ends so, and no capture was written.
refused() {
    rm -rf out && mkdir out
    ends "$1" "$2" /dev/null "${@:3}" && [ -z "$(ls out)" ]
}

# fails_in_the_second: where the second capture cannot be put, the first one is not put either and no report is printed.
fails_in_the_second() {
    rm -rf out && mkdir -p out/port-2.pcap
    ends 5 "afdx: device put out/port-2.pcap" /dev/null run table.toml in out --unchecked && [ "$(ls out)" = port-2.pcap ]
}

# fills_the_disk: where the report cannot be written, the captures are there.
fills_the_disk() {
    local status=0
    rm -rf out && mkdir out
    "$afdx" run table.toml in out --unchecked >/dev/full 2>said.txt || status=$?
    echo "status $status: $(cat said.txt)"
    [ "$status" -eq 5 ] && [ "$(cat said.txt)" = "afdx: device write" ] && [ -s out/port-1.pcap ] && [ -s out/port-2.pcap ]
}

# checks TABLE: afdx check says of the table what the model says.
checks() {
    python3 "$top/end_to_end/model.py" "$1" >wanted.txt && "$afdx" check "$1" >answer.txt && diff wanted.txt answer.txt
}

# runs_checked: what is accepted runs as without the check.
runs_checked() {
    rm -rf out plain && mkdir out plain
    "$afdx" run table.toml in out >answer.txt && "$afdx" run table.toml in plain --unchecked >wanted.txt &&
        [ -s answer.txt ] && diff wanted.txt answer.txt && diff -r plain out
}

{ table_ports 1 2 && table_link 10 1 2 1518 low; } >table.toml
sed 's/to = .*/to = [1]/' table.toml >own.toml
sed 's/bag_ms = .*/bag_ms = 3/' table.toml >bag.toml
sed 's/jitter_us = .*/jitter_us = 10001/' table.toml >jitter.toml
sed 's/buffer = .*/buffer = 1518/; s/jitter_us = .*/jitter_us = 1000/' table.toml >small.toml
{ cat table.toml && echo 'police = "frame"'; } >police.toml
{ echo 'version = 2' && sed 's/frame/none/' police.toml; } >no_police.toml
{ echo 'latency_us = 0' && cat table.toml; } >latency.toml
{ echo 'version = 3' && sed 's/latency_us = .*/latency_us = 101/' latency.toml; } >late.toml
sed 's/mbit = 100/mbit = 1000/' table.toml >gigabit.toml
mkdir in half pcapng
frames in/port-1.pcap 0.000000000:10:1000 0.000100000:10:500
frames in/port-2.pcap 0.000000000:11:64
cp in/port-1.pcap half
editcap -F pcapng in/port-1.pcap pcapng/port-1.pcap
editcap -F pcapng in/port-2.pcap pcapng/port-2.pcap
cp -r pcapng half_pcapng && rm half_pcapng/port-2.pcap

check "arguments are missing" refused 2 "afdx: usage" run table.toml in --unchecked
check "no table" refused 5 "afdx: device get none.toml" run none.toml in out --unchecked
check "no TOML" refused 3 "afdx: table C2 Toml" run in/port-1.pcap in out --unchecked
check "a link to its own port" refused 3 "afdx: table C13 ToOwnPort, link 1" run own.toml in out --unchecked
check "a gap that is none, before captures that are not there" \
    refused 3 "afdx: table C6 Range, link 1, bag_ms" run bag.toml none out --unchecked
check "a jitter above the greatest" refused 3 "afdx: table C6 Range, link 1, jitter_us" check jitter.toml
check "policing by frames in version 1" refused 3 "afdx: table C3 UnknownKey, link 1" check police.toml
check "a kind of policing that is none" refused 3 "afdx: table C6 Range, link 1, police" check no_police.toml
check "a latency in version 1" refused 3 "afdx: table C3 UnknownKey, top" check latency.toml
check "a latency that is too long" refused 3 "afdx: table C6 Range, top, latency_us" check late.toml
check "1000 Mbit/s in version 1" refused 3 "afdx: table C6 Range, port 1, mbit" check gigabit.toml
check "no first capture" refused 5 "afdx: device get none/port-1.pcap" run table.toml none out --unchecked
check "names are joined as they are" refused 5 "afdx: device get none//port-1.pcap" run table.toml none/ out --unchecked
check "no second capture" refused 5 "afdx: device get half/port-2.pcap" run table.toml half out --unchecked
check "is reported before the first one's fault" \
    refused 5 "afdx: device get half_pcapng/port-2.pcap" run table.toml half_pcapng out --unchecked
check "pcapng" refused 3 "afdx: capture P3 Magic, port 1" run table.toml pcapng out --unchecked
check "no folder to write to" \
    ends 5 "afdx: device put none/port-1.pcap" /dev/null run table.toml in none --unchecked
check "the second capture cannot be written" fails_in_the_second
check "the report cannot be written" fills_the_disk
check "a table that is accepted" checks table.toml
check "runs as without the check" runs_checked
check "a table that is refused" \
    refused 4 "afdx: load L2 Buffer, port 2, need 904847360000000, limit 248709120000000" check small.toml
check "is not run, and no capture is got" \
    refused 4 "afdx: load L2 Buffer, port 2, need 904847360000000, limit 248709120000000" run small.toml none out
check "help of run" helps run --help
check "help of check" helps check --help
finish
