#!/usr/bin/env bash
# The line that says how much a command has read: on a terminal, after a second, gone at the end; in a file or a pipe there is none.
. "$(dirname "$0")/common.sh"
install text2pcap=wireshark-common python3=python3
export PYTHONDONTWRITEBYTECODE=1
afdx=${AFDX:-$top/crates/afdx/out/afdx}
example=$top/examples/network
cd "$room" || exit 1

# slowly FILE PIPE: writes a file into a pipe, for three seconds.
slowly() {
    rm -f piece.* && split -n 30 -a 2 "$1" piece. && for piece in piece.*; do cat "$piece" && sleep 0.1; done >"$2"
}

# through_a_pipe IN COMMAND..: runs a command over the folder `piped`: that is IN, whose first capture is a pipe that is written slowly.
through_a_pipe() {
    local source=$1 status=0
    shift
    rm -rf piped out && mkdir out && cp -r "$source" piped && rm piped/port-1.pcap && mkfifo piped/port-1.pcap
    slowly "$source/port-1.pcap" piped/port-1.pcap &
    "$@" || status=$?
    wait
    return "$status"
}

# on_a_terminal ARGUMENT..: runs a command whose standard error is a terminal, and shows what that was sent.
on_a_terminal() {
    local status=0
    python3 "$top/end_to_end/terminal.py" --folder seen "$@" >answer.txt || status=$?
    cat seen/lines.txt
    return "$status"
}

# says PATTERN: each line that was shown is such a line, and there was one.
says() {
    [ -s seen/lines.txt ] && ! grep -Evx "$1" seen/lines.txt
}

# is_rare: there are at least three lines, and after a second no more than five in each.
is_rare() {
    local count seconds
    count=$(wc -l <seen/lines.txt) && seconds=$(sed -n '$s/.*, \([0-9]*\) s$/\1/p' seen/lines.txt)
    echo "$count lines in $seconds s" && [ "$count" -ge 3 ] && [ "$count" -le $((5 * seconds)) ]
}

# leaves TEXT: on the terminal stands this text in the end.
leaves() {
    [ "$(cat seen/screen.txt)" = "$1" ]
}

line='afdx: [0-9]+\.[0-9] MB, [0-9]+ s'
example_run=("$afdx" run "$example/table.toml")
{ table_ports 1 2 && table_link 10 1 2 1518 low && table_link 11 2 1 200 high; } >table.toml
mkdir wanted out seen large large_out
frames large/port-1.pcap 0.000000000:10:1518 0.003000000:10:64
frames large/port-2.pcap 0.000000000:11:64 2.000000000:11:64
cp -r "$example/in" in && cp -r in cut && truncate -s -1 cut/port-1.pcap

check "the example's run" eval '"${example_run[@]}" in wanted >wanted.txt'
check "a run shows nothing on a terminal within the first second" eval 'on_a_terminal "${example_run[@]}" in out && ! grep ", 0 s" seen/lines.txt'
check "a run of more than a second over a pipe" through_a_pipe in on_a_terminal "${example_run[@]}" piped out
check "says how much it has read, and for how long" says "$line"
check "no more than five times a second" is_rare
check "leaves nothing of it" leaves ""
check "and is the run that it is else" eval 'diff wanted.txt answer.txt && diff -r wanted out'
check "a run whose report goes to the same terminal" through_a_pipe in on_a_terminal --both "${example_run[@]}" piped out
check "showed such lines there too" grep -Ex "$line" seen/lines.txt
check "and leaves the report alone" leaves "$(cat wanted.txt)"
check "standard error that is a pipe gets nothing" eval 'through_a_pipe in "${example_run[@]}" piped out 2>&1 >answer.txt | cat >said.txt
    diff wanted.txt answer.txt && [ ! -s said.txt ]'
check "nor does a file" eval 'through_a_pipe in "${example_run[@]}" piped out >answer.txt 2>said.txt && diff wanted.txt answer.txt && [ ! -s said.txt ]'
check "a fault at a capture's end" eval '! "${example_run[@]}" cut out 2>fault.txt && ! through_a_pipe cut on_a_terminal "${example_run[@]}" piped out'
check "comes after such lines" grep -Ex "$line" seen/lines.txt
check "and its line stands there alone" leaves "$(cat fault.txt)"
check "a run over 1.2 GB in files" eval 'enlarge large/port-1.pcap 4600 && on_a_terminal --pause 1.5 "$afdx" run table.toml large large_out'
check "says how much that is" grep -Ex 'afdx: [01]\.[0-9] of 1\.2 GB, [0-9]+ s' seen/lines.txt
check "and leaves nothing either" leaves ""
finish
