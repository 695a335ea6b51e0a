#!/usr/bin/env bash
# What is there where the outside fails: full, small and read-only file systems, links, what is no file, closed streams, calls
# of the system that fail one after the other, a program that is ended at any of them, other runs and other users. Each name has the
# capture of an older run or the whole new one, the status and the line say which, and no other file changes: what fails before the
# first file is moved moves none.
. "$(dirname "$0")/common.sh"
install text2pcap=wireshark-common python3=python3 cc=gcc unshare=util-linux setpriv=util-linux
export PYTHONDONTWRITEBYTECODE=1
afdx=${AFDX:-$top/crates/afdx/out/afdx}
as_root=()
[ "$(id -u)" -eq 0 ] || as_root=(sudo)
cd "$room" || exit 1

# again: OUT has the captures of the older run, IN those of this one.
again() {
    rm -rf in out alias && cp -a given in && cp -a older out
}

# run_over IN OUT ARGUMENT..: runs afdx with these arguments before it, and keeps what it says.
run_over() {
    local source=$1 target=$2 status=0
    shift 2
    "$@" "$afdx" run table.toml "$source" "$target" >answer.txt 2>said.txt || status=$?
    echo "$status" >status.txt
    echo "status $status: $(cat said.txt)"
}

# said STATUS LINE: it ended so.
said() {
    [ "$(cat status.txt)" -eq "$1" ] && [ "$(cat said.txt)" = "$2" ]
}

# are_there COUNT [FOLDER]: in the folder the first COUNT captures are those of this run, the others those of the older one, and
# there is no other file; what came in is as it was.
are_there() {
    local port
    rm -rf wanted && cp -a older wanted
    for port in $(seq "$1"); do
        cp "newer/port-$port.pcap" wanted
    done
    diff -r wanted "${2:-out}" && diff -r given in
}

# leaves STATUS LINE COUNT ARGUMENT..: with these arguments before it, afdx ends so, and so many captures are those of this run.
leaves() {
    local status=$1 line=$2 count=$3
    shift 3
    again && run_over in out "$@" && said "$status" "$line" && are_there "$count"
}

# --- What is in the place of a file ---

# all_but COUNT: each file and folder, what it is, which, and what it holds, but for the first COUNT captures in OUT.
all_but() {
    local port skipped=()
    for port in $(seq "$1"); do
        skipped+=(! -path "out/port-$port.pcap")
    done
    find in out table.toml elsewhere.pcap "${skipped[@]}" -printf '%p %y %l %i %m\n' | sort
    find in out table.toml elsewhere.pcap "${skipped[@]}" \( -type f -o -type l \) -exec md5sum {} + | sort
}

# keeps IN OUT COUNT LINE COMMAND..: after this command has changed IN or OUT, a run ends with status 5 and this line; so many
# captures are those of this run, and every other file is the one that it was.
keeps() {
    local source=$1 target=$2 count=$3 line=$4 port
    shift 4
    again && "$@" && all_but "$count" >before.txt || return 1
    run_over "$source" "$target" && said 5 "$line" && all_but "$count" >after.txt && diff before.txt after.txt || return 1
    for port in $(seq "$count"); do
        cmp "newer/port-$port.pcap" "out/port-$port.pcap" || return 1
    done
}

# instead KIND FILE: has what is no file in the place of a file.
instead() {
    rm -r "$2" && "$1" "$2"
}

# names_unread FILE ARGUMENT..: where each read of this file fails, though it can be opened, afdx with these arguments ends with a line
# that names it, and every file is the one that it was.
names_unread() {
    again && ln -sf /proc/self/mem "$1" && all_but 0 >before.txt || return 1
    "$afdx" "${@:2}" >answer.txt 2>said.txt
    echo $? >status.txt
    cat said.txt
    said 5 "afdx: device get $1" && [ ! -s answer.txt ] && all_but 0 >after.txt && diff before.txt after.txt
}

# through_a_link TARGET: a link in OUT that leads to no file that was got is replaced, and what it leads to is as it was.
through_a_link() {
    again && ln -sf "$1" out/port-1.pcap && run_over in out && said 0 "" && [ ! -L out/port-1.pcap ] && are_there 2 &&
        cmp elsewhere.pcap table.toml
}

# with_a_fault: where a capture has a fault behind its first frames, the new files are removed.
with_a_fault() {
    again && head -c 99 given/port-2.pcap >in/port-2.pcap && run_over in out && said 3 "afdx: capture P11 CutData, port 2, record 1" &&
        cp given/port-2.pcap in && are_there 0
}

# from_a_fifo: a capture is read from a FIFO.
from_a_fifo() {
    again && instead mkfifo in/port-1.pcap && { cat given/port-1.pcap >in/port-1.pcap & } && run_over in out && said 0 "" &&
        rm in/port-1.pcap && cp given/port-1.pcap in && are_there 2
}

# --- File systems, streams and limits ---

# mounted COUNT LINE COMMANDS: these shell commands make OUT another file system, in a namespace of its own.
mounted() {
    again && rm -rf after && mkdir after
    "${as_root[@]}" unshare -m sh -c "$3 && { '$afdx' run table.toml in out >answer.txt 2>said.txt; echo \$? >status.txt; cp -a out/. after; }"
    echo "status $(cat status.txt): $(cat said.txt)"
    said 5 "$2" && are_there "$1" after
}

small() { # small KIB: the commands for a file system of so many KiB that has the older captures
    echo "mount -t tmpfs -o size=${1}k none out && cp -a older/. out"
}

limited() { # limited ARGUMENT..: no file may grow past 8 KiB
    (trap '' XFSZ && ulimit -f 8 && "$@")
}

# limit_is_kept: the same, where the system would end a program that writes more.
limit_is_kept() {
    leaves 5 "$put_2" 0 bash -c 'ulimit -c 0 -f 8 && exec "$@"' -
}

# few_open_files: with so few files that may be open that a run ends for it, a line says which it lacked and nothing is replaced; with
# one more all is.
few_open_files() {
    local files=5 status=5
    while [ "$status" -ne 0 ] && [ "$files" -lt 40 ]; do
        files=$((files + 1))
        again && run_over in out bash -c "ulimit -n $files && exec \"\$@\"" -
        status=$(cat status.txt)
        echo "$files files: status $status"
        [ "$status" -eq 0 ] && continue
        grep -xE 'afdx: device (get (table\.toml|in/port-[12]\.pcap)|put out/port-[12]\.pcap)' said.txt && [ "$status" -eq 5 ] && are_there 0 ||
            return 1
    done
    [ "$files" -gt 6 ] && said 0 "" && are_there 2
}

redirected() { # redirected REDIRECTION ARGUMENT..
    local redirection=$1
    shift
    sh -c "exec \"\$@\" $redirection" - "$@"
}

# --- Calls of the system ---

preloaded() { # preloaded VARIABLE=VALUE ARGUMENT..: see failing.c
    rm -f calls.txt
    env "$1" CALLS="$PWD/calls.txt" LD_PRELOAD="$PWD/failing.so" "${@:2}"
}

# new_ones CALL: how many captures the line says are those of this run, where this call failed.
new_ones() {
    case "$1 $(cat said.txt)" in
        "rename afdx: device put out/port-2.pcap") echo 1 ;;
        *" afdx: device put out/port-"[12].pcap) echo 0 ;;
        *" afdx: device write" | "$1 ") echo 2 ;;
        *) echo "no such line" ;;
    esac
}

# each_fails CALL LINES: this call fails, the first time, the second and so on, until the program makes no more of them. What
# the line and the status say is so, and so many of the lines are there.
each_fails() {
    local number lines=0
    for number in $(seq 20); do
        again && run_over in out preloaded "FAIL=$1:$number"
        [ -s said.txt ] && lines=$((lines + 1))
        [ "$(cat status.txt)" -eq "$([ -s said.txt ] && echo 5 || echo 0)" ] && are_there "$(new_ones "$1")" || return 1
        [ "$(grep -c "^$1" calls.txt)" -lt "$number" ] && break
    done
    [ "$number" -gt 2 ] && [ "$lines" -eq "$2" ]
}

# filled NAME..: OUT has files of these names, as of an older run.
filled() {
    local name
    rm -rf out
    for name in "$@"; do
        mkdir -p "$(dirname "out/$name")" && echo older >"out/$name"
    done
}

# put_fails CALL NUMBER NAMES ARGUMENT..: afdx with these arguments puts files of these names, and this call fails for the file of
# this number, from 0 on. The line names it; where it could not be moved, the files before it are those in WHOLE, and all others are
# the older ones.
put_fails() {
    local call=$1 number=$2 names name moved=0
    read -ra names <<<"$3"
    shift 3
    filled "${names[@]}" && rm -rf wanted && cp -r out wanted
    [ "$call" = rename ] && moved=$number
    for name in "${names[@]:0:moved}"; do
        cp "whole/$name" "wanted/$name"
    done
    preloaded "FAIL=$call:$((number + 1))" "$afdx" "$@" >answer.txt 2>said.txt
    echo $? >status.txt
    cat said.txt
    said 5 "afdx: device put out/${names[number]}" && [ ! -s answer.txt ] && diff -r wanted out
}

# each_put_fails CALL NAMES ARGUMENT..: so it is for each file in turn.
each_put_fails() {
    local number names
    read -ra names <<<"$2"
    filled "${names[@]}" && "$afdx" "${@:3}" >answer.txt && rm -rf whole && mv out whole || return 1
    for number in "${!names[@]}"; do
        put_fails "$1" "$number" "${@:2}" || return 1
    done
}

# each_half: each write takes half of its bytes, and the rest is written by the next.
each_half() {
    local number
    for number in 1 2 3; do
        leaves 0 "" 2 preloaded "HALF=write:$number" && cmp answer.txt report.txt || return 1
    done
}

# stays_beside: where neither the move nor the removal can be done, the new file stays beside the name; the next one is removed.
stays_beside() {
    again && run_over in out preloaded "FAIL=rename:1,unlink:1" && said 5 "$put_1" && rm out/port-1.pcap.new-0 && are_there 0
}

# interrupted LINE ARGUMENT..: where each read is interrupted, afdx with these arguments ends with this line, and writes
# nothing; so it does where standard error is full.
interrupted() {
    local line=$1 error
    shift
    for error in said.txt /dev/full; do
        again && : >said.txt
        INTERRUPTED=1 LD_PRELOAD="$PWD/failing.so" "$afdx" "$@" >answer.txt 2>"$error" <given/port-1.pcap
        echo $? >status.txt
        [ ! -s answer.txt ] && said 5 "$([ "$error" = /dev/full ] || echo "$line")" && are_there 0 || return 1
    done
}

# polices_in KIB: a stack of so many KiB is enough for the policing of one link.
polices_in() {
    (ulimit -s "$1" && exec "$afdx" alone --id 10 --bag 1 --jitter 0 --size 1000) <given/port-1.pcap >answer.txt && [ -s answer.txt ]
}

# each_kill: the program is ended at each call in turn. The captures that were moved are those of this run; what is left
# beside them is in no one's way, and is removed by the next run.
each_kill() {
    local number moved
    for number in $(seq 60); do
        again && run_over in out preloaded "KILL=$number"
        moved=$(head -n "$((number - 1))" calls.txt | grep -c rename)
        [ "$(cat status.txt)" -eq 0 ] && break
        rm -rf left && mkdir left
        find out -name '*.new-*' -exec mv {} left \;
        echo "call $number, $(tail -1 calls.txt): $moved new, left beside: $(ls left)"
        [ "$(cat status.txt)" -eq 137 ] && are_there "$moved" || return 1
        cp -a left/. out && run_over in out && said 0 "" && are_there 2 || return 1
    done
    echo "$((number - 1)) calls"
    [ "$number" -gt 10 ] && are_there 2
}

# --- Other runs ---

# another_puts: while another run has the lock of OUT, nothing is put there; a run into another folder is not held up.
another_puts() {
    leaves 5 "$put_1" 0 flock out && mkdir -p other && run_over in other flock out && said 0 "" && are_there 2 other
}

# another_writes: a new file that another run has is left to it, and so is what is no file.
another_writes() {
    again && echo its >out/port-1.pcap.new-0 && mkdir out/port-2.pcap.new-0 && run_over in out flock out/port-1.pcap.new-0 && said 0 "" &&
        [ "$(cat out/port-1.pcap.new-0)" = its ] && rm -r out/port-1.pcap.new-0 out/port-2.pcap.new-0 && are_there 2
}

# two_runs: two runs into one folder at once, 20 times. In the end all captures are of one that was done, and one that was not says so.
two_runs() {
    local number first second
    for number in $(seq 20); do
        again
        "$afdx" run table.toml in out >/dev/null 2>first.txt &
        "$afdx" run table.toml old_in out >/dev/null 2>second.txt
        second=$?
        wait $!
        first=$?
        echo "$number: $first $(cat first.txt), $second $(cat second.txt)"
        case "$first $second" in
            "0 0") diff -r newer out || diff -r older out || return 1 ;;
            "0 5") diff -r newer out && [ "$(cat second.txt)" = "$put_1" ] || return 1 ;;
            "5 0") diff -r older out && [ "$(cat first.txt)" = "$put_1" ] || return 1 ;;
            *) return 1 ;;
        esac
    done
}

# --- Other users ---

# as_other ARGUMENT..: as a user who owns nothing of this.
as_other() {
    "${as_root[@]}" setpriv --reuid=65534 --regid=65534 --clear-groups "$@"
}

# opened_to_all: another user may reach all of this, read what came in, and make files in OUT.
opened_to_all() {
    again && chmod a+x "$room" && chmod -R a+rX table.toml in && chmod a+rwx out && cp "$afdx" other_afdx && chmod a+rx other_afdx
}

# not_anothers: a capture that another user may not write is not replaced, though its folder is open to all.
not_anothers() {
    opened_to_all && chmod 644 out/* && as_other ./other_afdx run table.toml in out >answer.txt 2>said.txt
    echo $? >status.txt
    rm other_afdx
    said 5 "$put_1" && are_there 0
}

# keeps_mode MODE: a capture that is replaced keeps its mode.
keeps_mode() {
    again && chmod "$1" out/port-1.pcap && run_over in out && said 0 "" && [ "$(stat -c %a out/port-1.pcap)" = "$1" ] && are_there 2
}

# keeps_owner: root leaves a capture to its owner.
keeps_owner() {
    again && "${as_root[@]}" chown 65534:65534 out/port-2.pcap && run_over in out "${as_root[@]}" && said 0 "" &&
        [ "$(stat -c %u:%g out/port-2.pcap)" = 65534:65534 ] && are_there 2
}

# out_of_a_network_is_in: a folder in OUT is that of IN, with a recording of a port with a wire; nothing is put, into no other one either.
out_of_a_network_is_in() {
    rm -rf came left came_before left_before && cp -r "$aircraft/in" came && echo recording >came/bay/port-1.pcap &&
        mkdir -p left/cabin left/cockpit && ln -s ../came/bay left/bay && cp -a came came_before && cp -a left left_before
    "$afdx" network run "$aircraft/network.toml" came left >answer.txt 2>said.txt
    echo $? >status.txt
    cat said.txt
    said 5 "afdx: device put left/bay/port-2.pcap" && [ ! -s answer.txt ] && diff -r came_before came && diff -r left_before left
}

{ table_ports 1 2 && table_link 10 1 2 1000 low && table_link 20 2 1 1000 low; } >table.toml
mkdir old_in older given newer
frames old_in/port-1.pcap 0.001000000:10:900 0.003000000:10:900
frames old_in/port-2.pcap 0.000000000:20:200
frames given/port-1.pcap $(seq -f '0.%03g000000:10:1000' 40)
frames given/port-2.pcap 0.000000000:20:64 0.002000000:20:64
"$afdx" run table.toml old_in older >report.txt && "$afdx" run table.toml given newer >report.txt || exit 1
cp table.toml elsewhere.pcap
cc -shared -fPIC -O1 -o failing.so "$top/end_to_end/failing.c" || exit 1

aircraft=$top/examples/aircraft
ports=$(printf '%s/port-%s.pcap ' cabin 1 cabin 2 cabin 3 bay 1 bay 2 bay 3 bay 4 cockpit 1 cockpit 2 cockpit 3)
# The same in the order in which they are first written: of bay and cockpit a part goes out while the run goes on.
written=$(printf '%s/port-%s.pcap ' bay 1 bay 2 bay 3 bay 4 cockpit 1 cockpit 2 cockpit 3 cabin 1 cabin 2 cabin 3)
put_1="afdx: device put out/port-1.pcap"
put_2="afdx: device put out/port-2.pcap"
check "older captures are replaced" leaves 0 "" 2
check "OUT is IN" keeps in in 0 "afdx: device put in/port-1.pcap" true
check "OUT is IN by another spelling" keeps in ./in/ 0 "afdx: device put ./in//port-1.pcap" true
check "OUT is IN by its whole path" keeps in "$PWD/in" 0 "afdx: device put $PWD/in/port-1.pcap" true
check "OUT is a link to IN" keeps in alias 0 "afdx: device put alias/port-1.pcap" ln -s in alias
check "IN is a link to OUT" keeps alias out 0 "$put_1" ln -s out alias
check "a link from OUT into IN" keeps in out 0 "$put_1" ln -sf ../in/port-1.pcap out/port-1.pcap
check "a link from IN into OUT" keeps in out 0 "$put_1" ln -sf ../out/port-1.pcap in/port-1.pcap
check "a hard link from OUT into IN" keeps in out 0 "$put_1" ln -f in/port-1.pcap out/port-1.pcap
check "a hard link to another port's capture" keeps in out 0 "$put_2" ln -f in/port-1.pcap out/port-2.pcap
check "a hard link to the table" keeps in out 0 "$put_1" ln -f table.toml out/port-1.pcap
check "a link to a file that was not got is replaced" through_a_link ../elsewhere.pcap
check "so is a link to nothing" through_a_link ../nothing.pcap
check "a capture with a fault" with_a_fault
check "a FIFO in OUT" keeps in out 0 "$put_1" instead mkfifo out/port-1.pcap
check "a FIFO in IN is read" from_a_fifo
check "a folder in a capture's place in OUT" keeps in out 0 "$put_2" instead mkdir out/port-2.pcap
check "a folder in a capture's place in IN" keeps in out 0 "afdx: device get in/port-2.pcap" instead mkdir in/port-2.pcap
for name in in/port-1.pcap in/port-2.pcap; do
    for command in run trace compare; do
        check "$name can be opened and not read by $command" names_unread "$name" "$command" table.toml in out
    done
done
check "a file in the place of OUT" keeps in out 0 "$put_1" instead touch out
check "a capture that may not be written" keeps in out 0 "$put_1" chmod a-w out/port-1.pcap
check "OUT of a network is IN" out_of_a_network_is_in
check "a capture that another user may not write" not_anothers
for mode in 600 640 666; do
    check "a capture of mode $mode keeps it" keeps_mode "$mode"
done
check "a capture of another user stays its own" keeps_owner
check "OUT is empty" ends 2 "afdx: usage" /dev/null run table.toml none ""
check "IN is empty" ends 2 "afdx: usage" /dev/null run table.toml "" none

check "a read-only file system" mounted 0 "$put_1" "mount --bind out out && mount -o remount,bind,ro out"
check "a file system without room for the first capture" mounted 0 "$put_1" "$(small 8)"
check "a file system without room for the second" mounted 0 "$put_2" "$(small 48)"
check "a limit of a file's size" leaves 5 "$put_2" 0 limited
check "a limit that would end the program" limit_is_kept
check "standard output is full" leaves 5 "afdx: device write" 2 redirected ">/dev/full"
check "standard output is closed" leaves 5 "afdx: device write" 2 redirected ">&-"
check "standard input and error are closed" leaves 0 "" 2 redirected "<&- 2>&-"
check "all three are closed" leaves 5 "" 2 redirected "<&- >&- 2>&-"

check "each open fails in turn" each_fails open 6
check "each write fails in turn" each_fails write 5
check "each sync fails in turn" each_fails fsync 2
check "each rename fails in turn" each_fails rename 2
check "each close fails in turn, after the sync" each_fails close 0
check "each write takes half in turn" each_half
for call in write rename; do
    check "each $call of trace fails in turn" each_put_fails "$call" "arrivals.csv departures.csv" trace table.toml given out
    check "each $call of compare fails in turn" each_put_fails "$call" differences.csv compare table.toml given newer --stamps free --rows out
done
check "each write of network run fails in turn" each_put_fails write "$written" network run "$aircraft/network.toml" "$aircraft/in" out
check "each rename of network run fails in turn" each_put_fails rename "$ports" network run "$aircraft/network.toml" "$aircraft/in" out
check "a new file that can be neither moved nor removed" stays_beside
check "each read of alone is interrupted" interrupted "afdx: device read" alone --id 10 --bag 1 --jitter 0 --size 1000
check "each read of check is interrupted" interrupted "afdx: device get table.toml" check table.toml
check "each read of run is interrupted" interrupted "afdx: device get table.toml" run table.toml in out
check "each read of compare is interrupted" interrupted "afdx: device get table.toml" compare table.toml given newer --rows out
check "the program is ended at each call in turn" each_kill
check "another run puts into OUT" another_puts
check "another run has the new file" another_writes
check "two runs at once" two_runs
check "few open files" few_open_files
check "alone in a stack of 512 KiB" polices_in 512
check "a stack of 128 KiB" leaves 0 "" 2 bash -c 'ulimit -s 128 && exec "$@"' -
finish
