#!/usr/bin/env bash
# afdx run on captures of several ports: those of the example network, some that are full of ties, the example's frames
# as tcpdump recorded them on lines in a network namespace, and these recordings cut, merged and shifted by Wireshark's
# tools. What comes out is to the byte what end_to_end/model.py says, and Wireshark's tools read it.
. "$(dirname "$0")/common.sh"
install python3=python3 ip=iproute2 unshare=util-linux tcpdump=tcpdump text2pcap=wireshark-common \
    editcap=wireshark-common mergecap=wireshark-common capinfos=wireshark-common tshark=tshark
export PYTHONDONTWRITEBYTECODE=1
afdx=${AFDX:-$top/crates/afdx/out/afdx}
model=$top/end_to_end/model.py
network=$top/examples/network
ports=(1 2 3 4)
cd "$room" || exit 1

# as_modelled TABLE IN: status, captures, report with its verdict and the line on standard error are the model's.
as_modelled() {
    local status=0 wanted=0
    rm -rf out model && mkdir out model
    "$afdx" run "$1" "$2" out --unchecked --verdict >report.txt 2>said.txt || status=$?
    python3 "$model" --verdict "$1" "$2" model >wanted.txt 2>line.txt || wanted=$?
    echo "status $status: $(cat said.txt)"
    [ "$status" -eq "$wanted" ] && cmp line.txt said.txt && cmp wanted.txt report.txt && diff -r model out
}

# checked_as_modelled TABLE IN: the table's lines are the model's, and the checked run gives what the unchecked one gave.
checked_as_modelled() {
    "$afdx" check "$1" >lines.txt && python3 "$model" "$1" >wanted_lines.txt && cmp lines.txt wanted_lines.txt &&
        rm -rf checked && mkdir checked && "$afdx" run "$1" "$2" checked --verdict >checked.txt && cmp checked.txt report.txt && diff -r checked out
}

# are_read: capinfos and tshark take each capture that came out without complaint, and see as many frames as were sent.
are_read() {
    local port file
    for port in "${ports[@]}"; do
        file=out/port-$port.pcap
        capinfos "$file" 2>complaints.txt >info.txt && ! grep -v '^Running as user' complaints.txt &&
            grep -q 'nanosecond pcap' info.txt && grep -q 'Strict time order: *True' info.txt &&
            tshark -r "$file" >seen.txt 2>complaints.txt && ! grep -v '^Running as user' complaints.txt &&
            ! grep -qiE 'malformed|cut short|damaged' seen.txt &&
            [ "$(wc -l <seen.txt)" -eq "$(frames_sent "$port")" ] || return 1
    done
}

# frames_sent PORT: the number that the model's report has.
frames_sent() {
    awk -v port="$1" '$1 == "out" && $2 == port { sum += $NF } END { print sum }' wanted.txt
}

# shows PATTERN..: the report has a line like each.
shows() {
    local pattern
    for pattern in "$@"; do
        grep -qE "$pattern" report.txt || { echo "no line like $pattern"; return 1; }
    done
}

# policed_alone LINK: of this link frames were policed, of no other, and no frame was lost.
policed_alone() {
    cat report.txt
    [ "$(grep -E '^link .* policed [1-9]' report.txt | cut -d ' ' -f 2)" = "$1" ] &&
        ! grep -qE '^out .* (full|aged) [1-9]' report.txt
}

# within_bounds IN [TABLE]: under the example's table, each link's passed frames left, none else, and within the bounds.
within_bounds() {
    python3 "$top/end_to_end/bounds.py" "${2:-$network/table.toml}" "$1" out
}

# tied_as_modelled: captures full of ties.
tied_as_modelled() {
    local seed
    for seed in 1 2 3 4 5 6; do
        python3 "$top/end_to_end/ties.py" ties "$seed" && as_modelled ties/table.toml ties/in || return 1
    done
}

# later_as_modelled: captures full of ties, on switches with a latency.
later_as_modelled() {
    local seed
    for seed in 1 2 3 4 5 6; do
        python3 "$top/end_to_end/ties.py" ties "$seed" &&
            third_version ties/table.toml "$((seed * 2))" >later.toml && as_modelled later.toml ties/in || return 1
    done
}

# third_as_first: without a latency, captures full of ties lead to the same in the third version as in the first.
third_as_first() {
    local seed
    for seed in 1 2 3 4 5 6; do
        python3 "$top/end_to_end/ties.py" ties "$seed" &&
            third_version ties/table.toml 0 >third.toml && rm -rf first third && mkdir first third &&
            "$afdx" run ties/table.toml ties/in first --unchecked >first.txt &&
            "$afdx" run third.toml ties/in third --unchecked >third.txt &&
            cmp first.txt third.txt && diff -r first third || return 1
    done
}

# record: recordings of the example's frames, in nanos/ and micros/.
record() {
    local alone=(unshare -n) port
    [ "$(id -u)" -eq 0 ] || alone=(sudo unshare -n)
    mkdir nanos micros
    if "${alone[@]}" sh -c 'ip link add one type veth peer name two && ip link set one up && tcpdump -i one -d'; then
        for _ in 1 2 3; do # again where the system was too slow, or stamped two frames out of order
            "${alone[@]}" python3 "$top/end_to_end/record.py" "$network/in" . "${ports[@]}" && return
        done
        return 1
    fi
    echo "No network namespace can be had here: text2pcap makes the captures." >&3
    for port in "${ports[@]}"; do
        python3 "$top/end_to_end/frames.py" "$network/in/port-$port.pcap" >frames.txt &&
            text2pcap -q -F nsecpcap -t '%s.%f' frames.txt "nanos/port-$port.pcap" &&
            text2pcap -q -F pcap -t '%s.%f' frames.txt "micros/port-$port.pcap" || return 1
    done
}

# change COMMAND..: a folder `changed` of captures that COMMAND makes; it is called with a recording and the new file.
change() {
    local port
    rm -rf changed && mkdir changed
    for port in "${ports[@]}"; do
        "$@" "nanos/port-$port.pcap" "changed/port-$port.pcap" || return 1
    done
}

# changed_as_modelled COMMAND TABLE: of the captures that COMMAND makes of the recordings, all is the model's.
changed_as_modelled() {
    change "$1" && as_modelled "$2" changed
}

cut_frames() { editcap -F nsecpcap -s 150 "$@"; }
cut_lists() { editcap -F nsecpcap -r "$@" 20-70; }
shift_years() { editcap -F nsecpcap -t -900000000 "$@"; }
merge_two() { mergecap -F nsecpcap -w "$2" "$1" "micros/${1#nanos/}"; }
merge_as_micros() { mergecap -F pcap -w "$2" "$1"; }
append_two() { mergecap -F nsecpcap -a -w "$2" "$1" "$1"; }

# Slow lines, small buffers and little patience: frames are full and aged.
sed 's/^mbit = .*/mbit = 10/; s/^buffer = .*/buffer = 1000/; s/^max_delay_us = .*/max_delay_us = 300/' \
    "$network/table.toml" >tight.toml

check "the model gives the numbers that were worked out by hand" python3 "$top/end_to_end/model_rows.py"
check "its answers to size, measure and trace are the lines that were worked out by hand" python3 "$top/end_to_end/answers_rows.py"
check "the example network" as_modelled "$network/table.toml" "$network/in"
check "its load is checked first" checked_as_modelled "$network/table.toml" "$network/in"
check "Wireshark's tools read its outputs" are_read
check "the babbler alone is policed, and nothing is lost" policed_alone 401
check "what was passed left within the bounds" within_bounds "$network/in"
check "the example network on a faster switch" as_modelled "$network/faster.toml" "$network/in"
check "its load is checked first" checked_as_modelled "$network/faster.toml" "$network/in"
check "what was passed left within the bounds" within_bounds "$network/in" "$network/faster.toml"
check "the example network on tight ports" as_modelled tight.toml "$network/in"
check "frames are full, aged and sent there" shows '^out .* full [1-9]' '^out .* aged [1-9]' '^out .* sent [1-9]'
check "Wireshark's tools read these outputs" are_read

check "ends, arrivals, starts and ages at one instant" tied_as_modelled
check "the same on switches with a latency" later_as_modelled
check "version 3 without a latency is as version 1" third_as_first

check "the frames are recorded" record 3>&1
for kind in nanos micros; do
    check "recorded in $kind" as_modelled "$network/table.toml" "$kind"
    check "Wireshark's tools read what comes out" are_read
    check "what was passed left within the bounds" within_bounds "$kind"
    check "recorded in $kind, on tight ports" as_modelled tight.toml "$kind"
done

check "frames cut by editcap" changed_as_modelled cut_frames "$network/table.toml"
check "are nobody's" shows '^in 4 .* cut [1-9]'
check "parts of recordings, by editcap" changed_as_modelled cut_lists tight.toml
check "recordings shifted by years, by editcap" changed_as_modelled shift_years "$network/table.toml"
editcap -F nsecpcap -t 0.00037 nanos/port-2.pcap changed/port-2.pcap
check "one port shifted against the others" as_modelled "$network/table.toml" changed
check "two recordings of each line merged, by mergecap" changed_as_modelled merge_two "$network/table.toml"
check "what was passed left within the bounds" within_bounds changed
check "recordings as microseconds, by mergecap" changed_as_modelled merge_as_micros tight.toml
cp nanos/port-2.pcap changed/port-1.pcap
check "a line on another's port" as_modelled "$network/table.toml" changed
check "is the wrong port" shows '^in 1 .* wrong-port [1-9]'
check "recordings appended to themselves, by mergecap" changed_as_modelled append_two "$network/table.toml"
check "go backwards" grep -q '^afdx: capture P10 Backwards, port 1, record ' said.txt
change cp && head -c 5000 nanos/port-3.pcap >changed/port-3.pcap
check "a recording that breaks off" as_modelled "$network/table.toml" changed
check "is cut" grep -q '^afdx: capture P11 CutData, port 3, record ' said.txt
finish
