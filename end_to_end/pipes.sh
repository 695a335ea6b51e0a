#!/usr/bin/env bash
# A run over pipes, one for each port: ten million frames in memory that stands still, to the byte what model.py says of one period of
# them; so a million of `measure` and of `survey`; a trace, to the byte that over files; a run of a network over a pipe for each port of
# an end system; and faults, of which the lowest port's is named though a pipe can be read only once.
. "$(dirname "$0")/common.sh"
install python3=python3 gzip=gzip
install_python numpy
export PYTHONDONTWRITEBYTECODE=1
afdx=${AFDX:-$top/crates/afdx/out/afdx}
table=$top/examples/network/table.toml
ports=(1 2 3 4)
cd "$room" || exit 1
mkdir -p in out wanted two
cp -r "$top/examples/network/in" one

# repeated COMMAND TIMES CAPTURE FILE: see repeated.py; each time 2 seconds later.
repeated() {
    /usr/bin/python3 "$top/end_to_end/repeated.py" "$1" "$2" 2 "$3" "$4"
}

# are_repeated TIMES FOLDER: its captures are so often those that the model says of one period.
are_repeated() {
    local port
    for port in "${ports[@]}"; do
        repeated check "$1" "wanted/port-$port.pcap" "$2/port-$port.pcap" || return 1
    done
}

# as_modelled_twice: of two periods the model says what it says of one, twice, so that it need not be asked of more.
as_modelled_twice() {
    local port
    for port in "${ports[@]}"; do
        repeated write 2 "one/port-$port.pcap" "two/port-$port.pcap" || return 1
    done
    python3 "$top/end_to_end/model.py" "$table" one wanted >wanted.txt && mkdir twice &&
        python3 "$top/end_to_end/model.py" "$table" two twice >/dev/null && are_repeated 2 twice
}

# through_pipes WRITE.. -- COMMAND..: runs the command while `WRITE PORT` writes each port's capture into a pipe of the folder `in`.
through_pipes() {
    local port status=0 write=()
    while [ "$1" != -- ]; do
        write+=("$1")
        shift
    done
    shift
    for port in "${ports[@]}"; do
        rm -f "in/port-$port.pcap"
        mkfifo "in/port-$port.pcap"
        "${write[@]}" "$port" &
    done
    rm -rf out && mkdir out
    "$@" || status=$?
    wait
    return "$status"
}

# many PORT, zipped PORT: write a port's capture into its pipe: so many periods, and one as zcat gives it.
many() {
    repeated write "$times" "one/port-$1.pcap" "in/port-$1.pcap"
}

zipped() {
    gzip -c "one/port-$1.pcap" | zcat >"in/port-$1.pcap"
}

# run_within KILOBYTES: a run over the folder `in` in so much memory.
run_within() {
    (ulimit -v "$1" && exec "$afdx" run "$table" in out >report.txt)
}

# counts_are TIMES: the report has so often what the model counts.
counts_are() {
    awk -v times="$1" '{ for (i = 3; i <= NF; i++) if ($i ~ /^[0-9]+$/) $i *= times; print }' wanted.txt | diff - report.txt
}

# tells_within KILOBYTES COMMAND: a command over the folder `in` that puts nothing, in so much memory.
tells_within() {
    (ulimit -v "$1" && exec "$afdx" "$2" "$table" in >told.txt)
}

# tells TIMES COMMAND: what it told is what the model says of one period, so often.
tells() {
    python3 "$top/end_to_end/answers.py" "$2" "$table" one >once.txt && repeated tell "$1" once.txt often.txt && cmp often.txt told.txt
}

# traces_within KILOBYTES: a trace over the folder `in`, in so much memory.
traces_within() {
    (ulimit -v "$1" && exec "$afdx" trace "$table" in out)
}

# is_traced TIMES: it is that over files of so many periods.
is_traced() {
    local port
    mkdir -p files traced
    for port in "${ports[@]}"; do
        repeated write "$1" "one/port-$port.pcap" "files/port-$port.pcap" || return 1
    done
    "$afdx" trace "$table" files traced && diff -r traced out
}

# tells_twice: of two periods the model says so in a survey.
tells_twice() {
    python3 "$top/end_to_end/answers.py" survey "$table" two >told.txt && tells 2 survey
}

# names_fault LINE STATUS: a run over the folder `in` ends with this line, and puts nothing.
names_fault() {
    local status=0
    "$afdx" run "$table" in out >answer.txt 2>said.txt || status=$?
    cat said.txt
    [ "$status" -eq "$2" ] && [ "$(cat said.txt)" = "$1" ] && [ ! -s answer.txt ] && [ -z "$(ls -A out)" ]
}

# network_over FOLDER: a run of the network over this folder, in 200 MB.
network_over() {
    rm -rf led && mkdir -p led/cabin led/bay led/cockpit
    (ulimit -v 204800 && exec "$afdx" network run "$top/examples/aircraft/network.toml" "$1" led >report.txt)
}

# network_through_pipes: a run of the network while each capture is written into a pipe.
network_through_pipes() {
    local capture status=0
    for capture in "$top"/examples/aircraft/in/*/*.pcap; do
        mkdir -p "piped/$(basename "$(dirname "$capture")")"
        mkfifo "piped/${capture#"$top/examples/aircraft/in/"}"
        cat "$capture" >"piped/${capture#"$top/examples/aircraft/in/"}" &
    done
    network_over piped || status=$?
    wait
    return "$status"
}

# is_the_same: the run of the network over files leads to what that over pipes did.
is_the_same() {
    mv led led-by-pipes && mv report.txt report-by-pipes.txt && network_over "$top/examples/aircraft/in" &&
        diff -r led led-by-pipes && cmp report.txt report-by-pipes.txt
}

times=12700
check "of two periods the model says twice what it says of one" as_modelled_twice
check "a run over pipes, in 200 MB, of ten million frames" through_pipes many -- run_within 204800
check "they are so often the model's, to the byte" are_repeated "$times" out
check "so are the counters" counts_are "$times"
times=1270
check "of two periods the model says in a survey what it says of one, twice" tells_twice
for command in measure survey; do
    check "$command over pipes, in 200 MB, of a million frames" through_pipes many -- tells_within 204800 "$command"
    check "is so often the model's" tells "$times" "$command"
done
times=100
check "a trace over pipes, in 200 MB" through_pipes many -- traces_within 204800
check "is that over files" is_traced "$times"
times=1
check "a run over pipes that zcat writes" through_pipes zipped -- run_within 204800
check "is the model's" eval 'are_repeated 1 out && counts_are 1'
check "a run of a network over pipes, in 200 MB" network_through_pipes
check "is that over files" is_the_same
truncate -s -1 one/port-4.pcap
truncate -s 20 one/port-3.pcap
check "of two faults the lowest port's is named" through_pipes many -- names_fault "afdx: capture P2 NoHeader, port 3" 3
finish
