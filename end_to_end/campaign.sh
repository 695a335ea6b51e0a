#!/usr/bin/env bash
# python/bin/afdx-campaign: the same answers by local threads, by a Dask scheduler with workers over loopback and by a Slurm of this
# machine alone, though what takes part is killed on the way; what was planted in the recordings is found; a full disk; and the page
# in Debian's chromium.
. "$(dirname "$0")/common.sh"
install python3=python3 chromium=chromium chromedriver=chromium-driver unshare=util-linux script=bsdutils \
    slurmctld=slurmctld slurmd=slurmd munged=munge sinfo=slurm-client
install_python distributed jinja2 matplotlib numpy psutil selenium
export PYTHONDONTWRITEBYTECODE=1 LC_ALL=C.UTF-8
export AFDX=${AFDX:-$top/crates/afdx/out/afdx}
campaign=$top/python/bin/afdx-campaign
made=engines/local/killed # the campaign whose answers are looked at
cd "$room" || exit 1

# engine NAME: campaigns by this engine, with kills.
engine() {
    /usr/bin/python3 "$top/end_to_end/campaign_engines.py" "$1" recordings "engines/$1"
}

# campaign NAME LINE..: NAME.toml of the program that the other campaigns have, with these lines before its tables.
campaign() {
    local name=$1
    shift
    {
        printf '%s\n' "program = \"$room/engines/local/afdx\"" "root = \"$name\"" "scratch = \"$room/scratch\"" "$@"
        printf '%s\n' '[[table]]' 'name = "before"' "file = \"$room/recordings/before.toml\""
    } >"$name.toml"
}

# ends_so STATUS LINE ARGUMENT..: afdx-campaign ends with this status and this last line.
ends_so() {
    local wanted=$1 line=$2 status=0
    shift 2
    "$campaign" "$@" >answer.txt 2>said.txt || status=$?
    echo "status $status: $(cat said.txt answer.txt)"
    [ "$status" -eq "$wanted" ] && [ "$(tail -n 1 said.txt)" = "$line" ]
}

# column FILE NUMBER: that column of a CSV without its heading, each word once.
column() {
    tail -n +2 "$1" | cut -d, -f"$2" | sort -u | xargs
}

# is TEXT TEXT
is() {
    echo "$1"
    [ "$1" = "$2" ]
}

# page_says TEXT..: the page's text has each of these.
page_says() {
    local text
    for text in "$@"; do
        sed 's|<[^>]*>||g' "$made/campaign.html" | grep -F "$text" || { echo "no $text"; return 1; }
    done
}

# compares: of two tables over the same recordings, one is compared with the other on the page.
compares() {
    campaign both "recordings = [\"$room/recordings/recordings/*\"]"
    printf '%s\n' '[[table]]' 'name = "after"' "file = \"$room/recordings/after.toml\"" >>both.toml
    cp -r "$made" both
    rm both/store.sqlite
    "$campaign" run both.toml
    [ $? -eq 1 ] && [ "$(column both/csv/compare.csv 1)$(column both/csv/compare.csv 2)" = beforeafter ] &&
        /usr/bin/python3 "$top/end_to_end/campaign_page.py" both
}

# asks_anew: a recording that changed is answered anew and nothing else; of a status that is forgotten, its tasks alone.
asks_anew() {
    campaign anew 'recordings = ["few/*"]'
    mkdir few && cp -r recordings/recordings/r001[4-7] few && "$campaign" run anew.toml
    touch few/r0015/port-3.pcap && "$campaign" run anew.toml --dry | grep -F '4 tasks, 3 answered, 1 left' || return 1
    "$campaign" run anew.toml
    "$campaign" again anew.toml --status 3 | grep -Fx '1 answers of status 3 forgotten' || return 1
    "$campaign" status anew.toml | grep '^4 tasks, 3 answered, 0 of them faults, 1 left'
}

# has_one_answer: that campaign's line, CSV and page have the recording's answer, and no fault.
has_one_answer() {
    cat answer.txt
    grep -qF '1 tasks, 1 answered, 0 of them faults, 0 left' answer.txt && [ "$(wc -l <forgotten/csv/faults.csv)" -eq 1 ] &&
        grep -q '^before,.*,r0014$' forgotten/csv/worst.csv && ! grep -q 'is a fault' forgotten/campaign.html
}

# answers_anew: an answer that was forgotten, or removed by hand, is on the page, in the CSV and in the line and the status of `run` as
# it is when it was asked for again.
answers_anew() {
    local file
    campaign forgotten 'recordings = ["few/r0014"]'
    printf '%s\n' '[limits]' 'tries = 1' 'timeout_s = 0.001' >>forgotten.toml
    ends_so 1 "" run forgotten.toml && grep ',timeout,' forgotten/csv/faults.csv || return 1
    sed -i 's/^timeout_s.*/timeout_s = 100/' forgotten.toml
    "$campaign" again forgotten.toml --status 124 && ends_so 0 "" run forgotten.toml && has_one_answer || return 1
    file=$(find "$PWD/forgotten/answers" -name '*.json.gz')
    echo '{}' | gzip >"$file"
    ends_so 5 "afdx-campaign: cannot read or write $file: damaged: remove it, and \`run\` asks again" page forgotten.toml || return 1
    rm "$file" && ends_so 0 "" run forgotten.toml && has_one_answer
}

# comes_back: a recording that is away for a moment while it is asked for has changed; `run` asks again once it is back.
comes_back() {
    campaign away 'recordings = ["few/r0014"]'
    printf '#!/bin/sh\n[ "$1" != survey ] || [ -e %s/away.pcap ] || mv %s/few/r0014/port-3.pcap %s/away.pcap\nexec "%s" "$@"\n' \
        "$room" "$room" "$room" "$AFDX" >mover && chmod +x mover && sed -i "s|^program = .*|program = \"$room/mover\"|" away.toml
    ends_so 1 "" run away.toml && grep "^before,r0014,75,changed,1,the recording $room/few/r0014 changed" away/csv/faults.csv || return 1
    cp -p away.pcap few/r0014/port-3.pcap && "$campaign" run away.toml --dry | grep -F '1 tasks, 0 answered, 1 left' &&
        ends_so 0 "" run away.toml && [ "$(wc -l <away/csv/faults.csv)" -eq 1 ] && "$campaign" run away.toml --dry | grep -F '1 tasks, 1 answered, 0 left'
}

# pipes_are_faults: a named pipe in the place of a capture is one at once, and so is a loop of links, which is tried again.
pipes_are_faults() {
    campaign pipes 'recordings = ["odd/*"]' 'identity = "content"'
    mkdir odd && cp -r few/r001[456] odd && rm odd/*/port-3.pcap && mkfifo odd/r0014/port-3.pcap && ln -s port-3.pcap odd/r0015/port-3.pcap
    timeout 120 "$campaign" run pipes.toml
    [ $? -eq 1 ] && is "$(tail -n +2 pipes/csv/faults.csv)" "before,r0014,3,capture,1,no regular file: port-3.pcap in $room/odd/r0014
before,r0015,5,device,3,cannot read $room/odd/r0015/port-3.pcap: Too many levels of symbolic links
before,r0016,5,missing,1,no port-3.pcap in $room/odd/r0016"
}

# script_in_its_place: what a script in the place of the program prints, and how it ends, is a fault of that recording alone. What it
# began ends with it at its time limit, and with a run that is interrupted.
script_in_its_place() {
    local driver
    campaign script 'recordings = ["few/*"]' && printf '%s\n' '[limits]' 'tries = 2' 'timeout_s = 2' >>script.toml
    cat >wrapped <<END && chmod +x wrapped && sed -i "s|^program = .*|program = \"$room/wrapped\"|" script.toml
#!/bin/sh
case \$1:\$3 in
survey:*/r0014) printf 'caf\303\251\n' ;;
survey:*/r0015) sleep 1000 & echo \$! >>"$room/begun"; wait; exit ;;
survey:*/r0016) "$AFDX" "\$@" | sed 's/^\(link,.*[0-9],\)0,/\19223372036854775808,/'; exit ;;
survey:*/r0017) readlink /proc/self/fd/2 >"$room/printed"; printf '\033[31m' >&2; head -c 20000000 /dev/zero >&2; exit 255 ;;
esac
exec "$AFDX" "\$@"
END
    mkdir few/r0018 && cp recordings/recordings/r0018/* few/r0018 && ends_so 1 "" run script.toml -j 5 || return 1
    cut -c1-130 script/csv/faults.csv
    is "$(tail -n +2 script/csv/faults.csv | cut -d, -f2-5 | xargs)" \
        "r0014,76,garbled,1 r0015,124,timeout,2 r0016,76,garbled,1 r0017,255,refused,1" || return 1
    grep -F 'r0014,76,garbled,1,"the program printed what no afdx prints, line 1: caf' script/csv/faults.csv &&
        grep -F 'r0016,76,garbled,1,"the program printed what no afdx prints, a number from 9223372036854775808 on"' script/csv/faults.csv &&
        grep -E '^before,r0017,255,refused,1,\\x1b\[31m(\\x00)+.* \.\.$' script/csv/faults.csv && [ "$(wc -c <script/csv/faults.csv)" -lt 2000 ] &&
        grep -q "^$room/scratch/" printed && grep ',r0018$' script/csv/worst.csv && [ "$(wc -l <begun)" -eq 2 ] || return 1
    "$campaign" again script.toml --status 124 && sed -i 's/^timeout_s.*/timeout_s = 1000/' script.toml
    "$campaign" run script.toml &
    driver=$!
    until [ "$(wc -l <begun)" -eq 3 ]; do sleep 0.1; done
    kill -TERM "$driver"
    wait "$driver"
    [ $? -eq 6 ] && { while read -r child; do has_ended "$child" || return 1; done <begun; }
}

# has_ended PROCESS: it ends within ten seconds; one that nobody waits for may stay as a zombie.
has_ended() {
    for _ in $(seq 100); do
        sed 's/.*) //' "/proc/$1/stat" 2>/dev/null | grep -q '^[^ZX]' || return 0
        sleep 0.1
    done
    return 1
}

# full_disk: a root without room ends it with status 5 and a line; with room the same command goes on, to the same answers.
full_disk() {
    local as_root=()
    [ "$(id -u)" -eq 0 ] || as_root=(sudo env "PATH=$PATH" "AFDX=$AFDX" PYTHONDONTWRITEBYTECODE=1)
    campaign disk "recordings = [\"$room/recordings/recordings/*\"]"
    mkdir disk
    "${as_root[@]}" unshare -m bash -c "
        mount -t tmpfs -o size=150k none disk
        '$campaign' run disk.toml 2>full.txt; echo \"status \$?\" >>full.txt
        find disk -name '*.json.gz' | wc -l >>full.txt
        mount -o remount,size=100m disk
        '$campaign' run disk.toml; echo \"status \$?\" >>full.txt
        '$campaign' status disk.toml --digest >digest.txt"
    cat full.txt digest.txt
    [ "$(sed -n 2p full.txt)" = "status 5" ] && [ "$(sed -n 4p full.txt)" = "status 1" ] && [ "$(sed -n 3p full.txt)" -gt 0 ] &&
        head -n 1 full.txt | grep -q '^afdx-campaign: cannot read or write .*/disk/.*: No space left on device$' &&
        [ "$(tail -n 1 digest.txt)" = "$(cat engines/digest)" ]
}

# asks_of_networks: of a network the same is asked: its delays are those from end to end, and what is kept is by switch.
asks_of_networks() {
    printf '%s\n' "program = \"$AFDX\"" 'recordings = ["flights/*"]' 'root = "aircraft"' 'ask = "trace"' 'keep = "policed"' '[[network]]' \
        'name = "aircraft"' "file = \"$top/examples/aircraft/network.toml\"" >aircraft.toml
    mkdir flights && cp -r "$top/examples/aircraft/in" flights/first && "$campaign" run aircraft.toml && ls -R aircraft/kept &&
        grep '^aircraft,cockpit,401,2,15,137660,319918,.*,first$' aircraft/csv/worst.csv &&
        grep '^aircraft,cabin,401,first,' aircraft/csv/babblers.csv && grep -o 'nearest to its bound was [a-z]* link [0-9]* at port' aircraft/campaign.html &&
        head -n 1 aircraft/kept/aircraft/first/bay/arrivals.csv | grep ',origin$'
}

# tells_progress: a line on a terminal, of which nothing stays.
tells_progress() {
    campaign terminal "recordings = [\"$room/recordings/recordings/r000*\"]"
    script -qec "'$campaign' run terminal.toml -j 1" terminal.txt >/dev/null && cat -v terminal.txt &&
        grep -q 'afdx-campaign: done [0-9]*, left [0-9]*, failed 0, [0-9.]* MB/s, .* to go' terminal.txt && [ ! -e terminal/campaign.log ]
}

check "recordings" /usr/bin/python3 "$top/end_to_end/campaign_recordings.py" recordings 45 40
check "local threads, killed" engine local
check "Dask, killed" engine dask
check "Slurm, killed" engine slurm

check "the recordings that are bad" is "$(tail -n +2 $made/csv/faults.csv)" "before,r0017,3,capture,1,\"afdx: capture P11 CutData, port 2, record $(
    sed -n 's/.*r0017.*record \([0-9]*\).*/\1/p' $made/csv/faults.csv)\"
before,r0033,3,capture,1,\"afdx: capture P3 Magic, port 2\"
before,r0044,5,missing,1,no port-5.pcap in $room/recordings/recordings/r0044"
check "those in which a link babbles" is "$(column $made/csv/babblers.csv 4)" "r0011 r0036"
check "the step, by the clearest link" is "$(sed -n 2p $made/csv/trends.csv | cut -d, -f6)" r0027
check "are on the page" page_says '45 of 45 tasks are answered, 3 of them are faults' 'Recordings with a fault' '2 links were policed, in 2 recordings' 'from r0027 on'
check "the page in a browser" /usr/bin/python3 "$top/end_to_end/campaign_page.py" "$made"
check "two tables, and their page in a browser" compares
check "what changed is asked anew" asks_anew
check "an answer that was forgotten, or removed, comes anew" answers_anew
check "a recording that was away" comes_back
check "a named pipe, and a capture out of reach" pipes_are_faults
check "a script in the place of the program" script_in_its_place
check "a network" asks_of_networks
check "a full disk" full_disk
check "a line that says how far it is" tells_progress

campaign refused "recordings = [\"$room/recordings/recordings/*\"]"
sed 's/^mbit = .*/mbit = 10/' recordings/before.toml >slow.toml
sed -i "s|^file = .*|file = \"slow.toml\"|" refused.toml
check "a table that is refused" ends_so 4 "afdx-campaign: table before: $("$AFDX" check slow.toml 2>&1)" run refused.toml
check "no program" ends_so 5 "afdx-campaign: cannot run $room/none: no such program" run <(sed "s|^program = .*|program = \"$room/none\"|" refused.toml)
for key in program root scratch; do
    campaign nul "recordings = [\"$room/recordings/recordings/*\"]"
    sed -i "s|^$key = .*|$key = \"a\\\\u0000b\"|" nul.toml
    check "a NUL in $key" ends_so 3 "afdx-campaign: nul.toml: a NUL in $key, top" run nul.toml
    sed -i "s|^$key = .*|$key = \"\"|" nul.toml
    check "an empty $key" ends_so 3 "afdx-campaign: nul.toml: $key is empty, top" run nul.toml
done
campaign nul 'recordings = [""]'
check "an empty pattern" ends_so 3 "afdx-campaign: nul.toml: a pattern in recordings is empty, top" run nul.toml
sed -i -e 's/""/"x"/' -e 's|^file = .*|file = "a\\u0000b"|' nul.toml
check "a NUL in the file of a table" ends_so 3 "afdx-campaign: nul.toml: a NUL in file, [[table]] 1" run nul.toml
check "no campaign file" ends_so 5 "afdx-campaign: cannot read none.toml: No such file or directory" run none.toml
check "a campaign that was not run" ends_so 5 "afdx-campaign: no tasks in $room/refused: \`afdx-campaign run\` lists them" status refused.toml
check "a Python without its modules" "$BASH" -c "! /usr/bin/python3 -S '$campaign' run refused.toml 2>said.txt &&
    grep -q '^afdx-campaign: no jinja2, matplotlib, numpy in .*: install python3-jinja2 python3-matplotlib python3-numpy ' said.txt"
check "no such engine" ends_so 2 "afdx-campaign: engine ssh is none of local, tcp://HOST:PORT, tls://HOST:PORT, slurm[:PARTITION]" run refused.toml --engine ssh
finish
