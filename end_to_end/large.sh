#!/usr/bin/env bash
# Captures of 26 MB, 136 MB and 1.2 GB: what goes out is what goes out without the frames that make them large, in a fraction of their memory;
# and if they have faults, the one of the lowest port is named, and nothing is put, also if the memory is less than the capture. And what a
# run of a network keeps of its captures.
. "$(dirname "$0")/common.sh"
install text2pcap=wireshark-common python3=python3
export PYTHONDONTWRITEBYTECODE=1
afdx=${AFDX:-$top/crates/afdx/out/afdx}
cd "$room" || exit 1

{ table_ports 1 2 && table_link 10 1 2 1518 low && table_link 11 2 1 200 high; } >table.toml
mkdir -p small middle in out wanted cut
frames small/port-1.pcap 0.000000000:10:1518 0.000999999:10:1518 0.001000000:10:1518 0.003000000:10:64
frames small/port-2.pcap 0.000000000:11:64 0.002000000:11:200 0.004000000:11:100 2.000000000:11:64

# runs_in MEGABYTES FOLDER: a run over this folder takes no more memory at its peak.
runs_in() {
    python3 - "$1" "$afdx" run table.toml "$2" out <<'END'
import resource
import subprocess
import sys

ended = subprocess.run(sys.argv[2:], stdout=subprocess.DEVNULL)
peak = resource.getrusage(resource.RUSAGE_CHILDREN).ru_maxrss // 1024
print(f"status {ended.returncode}, {peak} MB")
sys.exit(ended.returncode or peak > int(sys.argv[1]))
END
}

# names_fault LINE FOLDER: a run over this folder ends with this line, and puts nothing.
names_fault() {
    rm -rf out && mkdir out && "$afdx" run table.toml "$2" out >answer.txt 2>said.txt
    [ $? -eq 3 ] && cat said.txt && [ "$(cat said.txt)" = "$1" ] && [ ! -s answer.txt ] && [ -z "$(ls out)" ]
}

check "a run over small captures" "$afdx" run table.toml small wanted
check "captures of 26 MB" eval 'cp small/* middle && enlarge middle/port-1.pcap 100 && "$afdx" run table.toml middle out && diff -r wanted out'
check "the captures are made large" eval 'cp small/* in && enlarge in/port-1.pcap 520 && [ "$(stat -c %s in/port-1.pcap)" -ge 130000000 ]'
check "a run over large captures takes less than 40 MB" runs_in 40 in
check "it puts what goes out without those frames" diff -r wanted out
cp in/port-1.pcap cut && truncate -s -1 cut/port-1.pcap && head -c 99 small/port-2.pcap >cut/port-2.pcap
check "of two faults the lowest port's is named, though the other is met first" \
    names_fault "afdx: capture P11 CutData, port 1, record 524" cut
cp in/port-1.pcap cut
check "and the other port's, where it is the only one" names_fault "afdx: capture P11 CutData, port 2, record 1" cut
mkdir long && cp small/* long && enlarge long/port-1.pcap 4600 && truncate -s -5 long/port-1.pcap
check "the fault at the end of 1.2 GB is named in 300 MB" eval '(ulimit -v 307200; names_fault "afdx: capture P11 CutData, port 1, record 4604" long)'
rm -rf in cut
check "run, measure, survey, trace, compare and network run over twice as many frames take no more memory" python3 "$top/bench/memory.py" "$afdx"
finish
