#!/usr/bin/env bash
# python/bin/afdx-view: its page of the example network, of tables and captures that are refused or lose frames, of a table of 24 ports
# and 4096 links, and of a network of three switches, opened in Debian's chromium; what ends it early; and README's picture.
. "$(dirname "$0")/common.sh"
install python3=python3 chromium=chromium chromedriver=chromium-driver pdftotext=poppler-utils
install_python jinja2 matplotlib numpy pandas selenium
export PYTHONDONTWRITEBYTECODE=1
export SOURCE_DATE_EPOCH=1768471200
export AFDX=${AFDX:-$top/crates/afdx/out/afdx}
view=$top/python/bin/afdx-view
network=$top/examples/network
cd "$room" || exit 1

# ends_with STATUS LINE ARGUMENT..: view ends so for these arguments, with this last line, and there is no page and no other file.
ends_with() {
    local wanted=$1 line=$2 status=0
    shift 2
    rm -rf made && mkdir made
    TMPDIR=$room/made "$view" "$@" >answer.txt 2>said.txt || status=$?
    echo "status $status: $(cat said.txt)"
    [ "$status" -eq "$wanted" ] && [ "$(tail -n 1 said.txt)" = "$line" ] && [ ! -s answer.txt ] && [ -z "$(ls -A made)" ]
}

# makes PAGE ARGUMENT..: view makes this page of these arguments without a sound.
makes() {
    local page=$1
    shift
    "$view" "$@" "$page" >answer.txt 2>said.txt && [ -s "$page" ] && ! cat answer.txt said.txt | grep .
}

# opens PAGE CHECK..: chromium opens it without complaint, and what view_page.py looks for is there.
opens() {
    /usr/bin/python3 "$top/end_to_end/view_page.py" "$@"
}

# opens_network PAGE CHECK..: the same of the page of a network, by view_network.py.
opens_network() {
    /usr/bin/python3 "$top/end_to_end/view_network.py" "$@"
}

# tells KIND HTML TEXT..: this part of a page begins its verdict with this kind, and has each of these texts.
tells() {
    local kind=$1 part=$2 text
    shift 2
    echo "$part"
    grep -q "<p class=\"verdict $kind\">" <<<"$part" || { echo "not $kind"; return 1; }
    part=$(sed 's|<[^>]*>||g; s|^ ||' <<<"$part")
    for text in "$@"; do
        grep -qE "$text" <<<"$part" || { echo "no $text"; return 1; }
    done
}

# says KIND PAGE TEXT..: the first verdict is of this kind and has each of these texts.
says() {
    tells "$1" "$(tr '\n' ' ' <"$2" | grep -o '<p class="verdict [^/]*</*[^p]*.*' | sed 's|</p>.*||; s|  *| |g')" "${@:3}"
}

# from_answers: of what the program answered before the same page is made but for its origin, and no program is run.
from_answers() {
    "$AFDX" size "$network/table.toml" --csv >earlier/size.csv && "$AFDX" measure "$network/table.toml" "$network/in" --csv >earlier/measure.csv &&
        "$AFDX" trace "$network/table.toml" "$network/in" earlier || return 1
    (export AFDX=none && makes answers.html "$network/table.toml" "$network/in" --answers earlier) &&
        cmp <(sed '/id="origin"/,$d' network.html) <(sed '/id="origin"/,$d' answers.html)
}

# contradicts OPTION..: the files of trace with these options are refused beside the other answers of the run.
contradicts() {
    "$AFDX" trace "$network/table.toml" "$network/in" earlier "$@" &&
        ends_with 5 "afdx-view: the files in earlier are not what size, measure and trace answer of $network/table.toml" \
            "$network/table.toml" "$network/in" made/page.html --answers earlier
}

# tells_its_origin PAGE FILE..: the page has the program's version, and the sums of it and of each file, and says nothing of the host.
tells_its_origin() {
    local page=$1 file sum
    shift
    grep -qF "<td>$("$AFDX" --version | head -n 1) · " "$page" || { echo "no version"; return 1; }
    for file in "$(command -v "$AFDX")" "$@"; do
        sum=$(sha256sum <"$file" | cut -d ' ' -f 1)
        grep -q "<td>$sum" "$page" || { echo "no $sum of $file"; return 1; }
    done
    ! grep -n -e "$HOSTNAME" -e "$top" -e "$room" "$page"
}

# names_sums PAGE NAME..: the page has the sums of files of these names, in this order, and then the program's.
names_sums() {
    local page=$1
    shift
    diff <(sed -n 's|^<tr><td>SHA-256 of \([^<]*\)<td>.*|\1|p' "$page") <(printf '%s\n' "$@" afdx)
}

# names_the_premise PAGE: the promise, and the bounds of the ways, are under the premise that the program names, and the run tested it.
names_the_premise() {
    local premise
    premise=$("$AFDX" network check lines/network.toml | grep '^premise ')
    grep -q "then in this accepted network, under the $premise, whatever frames the captures hold, " "$1" &&
        grep -q "The $premise, as the network file says: .* over one line, .* The run tested it " "$1" &&
        grep -q "the bounds, which are of the whole way, under the $premise (" "$1"
}

# one_line_refused: the camera's 16th frame comes twice at one instant; there is no page then.
one_line_refused() {
    local capture=lines/in/cabin/port-1.pcap
    { head -c 8053 "$capture" && tail -c +7596 "$capture"; } >twice.pcap && mv twice.pcap "$capture" &&
        ends_with 4 "afdx: network R2 Line, switch cabin, port 1, record 17" lines/network.toml lines/in made/page.html
}

# tells_whether_proved: the page has the last line that the program says of its version.
tells_whether_proved() {
    grep -xF "<tr><td>proofs<td>$("$AFDX" --version | sed -n 3p)" network.html
}

# tells_progress: on a terminal, view says what it does, and leaves nothing of it.
tells_progress() {
    script -qec "'$view' '$network/table.toml' '$network/in' terminal.html" terminal.txt >/dev/null && cat -v terminal.txt &&
        grep -q 'afdx-view: afdx trace, [0-9]* s so far' terminal.txt
}

# A program that has the signal SIGNAL sent to the view that runs it, while it traces or while the view draws. It keeps its process
# in `child`.
cat >signalling <<'END'
#!/bin/sh
echo $$ >"$ROOM/child"
case "$1 $WHEN" in
"trace tracing") kill -s "$SIGNAL" "$PPID"; exec sleep 60 ;;
"measure drawing") "$PROGRAM" "$@"; (sleep 2; kill -s "$SIGNAL" "$PPID") >/dev/null 2>&1 & ;;
*) exec "$PROGRAM" "$@" ;;
esac
END
chmod +x signalling

# is_ended_by SIGNAL WHEN STATUS TABLE IN: after the signal, which a gate in the background may have ignored, view ends without a
# word, and nothing of it is left.
is_ended_by() {
    local status=0 program=$AFDX
    rm -rf made && mkdir made
    ROOM=$room PROGRAM=$program SIGNAL=$1 WHEN=$2 AFDX=$room/signalling TMPDIR=$room/made \
        env --default-signal="$1" "$view" "$4" "$5" made/page.html >answer.txt 2>said.txt || status=$?
    echo "status $status: $(cat said.txt)"
    ls -A made
    [ "$status" -eq "$3" ] && [ ! -s said.txt ] && [ -z "$(ls -A made)" ] && ! kill -0 "$(cat child)" 2>/dev/null
}

# keeps_below KILOBYTES ARGUMENT..: no more memory than this is taken by view, which runs no program for these arguments.
keeps_below() {
    local limit=$1
    shift
    /usr/bin/python3 - "$limit" "$view" "$@" <<'END'
import resource, subprocess, sys
subprocess.run(sys.argv[2:], check=True)
most = resource.getrusage(resource.RUSAGE_CHILDREN).ru_maxrss
print(f"{most} KB")
sys.exit(most > int(sys.argv[1]))
END
}

# below_20_megabytes PAGE
below_20_megabytes() {
    stat -c '%s bytes' "$1"
    [ "$(stat -c %s "$1")" -lt 20000000 ]
}

sed 's/^mbit = .*/mbit = 10/; s/^buffer = .*/buffer = 1000/; s/^max_delay_us = .*/max_delay_us = 300/' "$network/table.toml" >tight.toml
mkdir silent cut calm pipe earlier
head -c 24 "$network/in/port-1.pcap" | tee silent/port-{1,2,3}.pcap >silent/port-4.pcap
cp "$network"/in/* cut && head -c 5000 "$network/in/port-2.pcap" >cut/port-2.pcap
cp "$network"/in/port-[123].pcap calm && cp silent/port-4.pcap calm
cp "$network"/in/port-[234].pcap pipe && mkfifo pipe/port-1.pcap
echo 'version = 4' >other.toml
python3 "$top/bench/network.py" middle 20000
awk -v RS= -v ORS='\n\n' '!/^\[\[link/ || links++ < 120' middle/table.toml >middle.toml

check "the example network" makes network.html "$network/table.toml" "$network/in"
check "its verdict" says policed network.html '^Accepted\. ' '788 frames in, 958 copies out, 0 lost, 162 policed' \
    'Link 401 babbled for (99|100) ms, from 80\.611 ms \(2026-01-15 10:00:00\.080940000 UTC\) to 179\.773 ms' \
    ': its excess was policed, 162 of its 198 frames' \
    'No other link came near its bound: the nearest, link 402 at port 2, took 33 % of it \(111,520 of 333,451 ns\)'
check "its page in a browser, and in print" opens network.html "$network/table.toml" "$network/in" --print
check "its origin" tells_its_origin network.html "$network/table.toml" "$network"/in/*
check "whether the program was proved" tells_whether_proved
check "what is promised of the run" grep 'then under this accepted table, whatever frames the captures hold, ' network.html
check "the same page again" makes again.html "$network/table.toml" "$network/in"
check "is the same but for its own name" diff <(sed 's/again\.html/network.html/' again.html) network.html
check "so is that of earlier answers" from_answers
check "answers that are not there" ends_with 5 "afdx-view: cannot read none/size.csv: No such file or directory" \
    "$network/table.toml" "$network/in" made/page.html --answers none
check "answers of one link beside those of all" contradicts --link 100
check "answers that count from the first frame beside stamps" contradicts --relative
echo 'no,such,columns' >earlier/arrivals.csv
check "answers that are none" ends_with 5 "afdx-view: the files in earlier are not what size, measure and trace answer of $network/table.toml" \
    "$network/table.toml" "$network/in" made/page.html --answers earlier
check "a table of 234 rows" makes middle.html middle.toml middle/in
check "in a browser, and each row in print" opens middle.html middle.toml middle/in --print
check "no babbler" makes calm.html "$network/table.toml" calm
check "nothing to warn of" says good calm.html '^Accepted\. ' ', 0 lost, 0 policed' 'No link came near its bound'
check "tight ports, unchecked" makes tight.html tight.toml "$network/in" --unchecked
check "are not accepted, and lose frames" says bad tight.html '^Not accepted: port [0-9]+ breaks L' ' [1-9][0-9]* lost' \
    'no bound is promised'
check "and nothing is promised of them" eval "grep 'so nothing is promised of this run' tight.html && ! grep 'then under this' tight.html"
check "their page in a browser" opens tight.html tight.toml "$network/in" --unchecked
check "no frames" makes silent.html "$network/table.toml" silent
check "are said as that" says good silent.html '^Accepted\. No frame came in\. $'
check "and not as 1970" test "$(grep -c 1970 silent.html)" -eq 0
check "the page of no frames in a browser" opens silent.html "$network/table.toml" silent

check "tight ports, checked" ends_with 4 "$("$AFDX" check tight.toml 2>&1)" tight.toml "$network/in" made/page.html
check "a table that is refused" ends_with 3 "afdx: table C6 Range, top, version" other.toml "$network/in" made/page.html
check "no table" ends_with 5 "afdx: device get none.toml" none.toml "$network/in" made/page.html
check "no captures" ends_with 5 "afdx: device get none/port-1.pcap" "$network/table.toml" none made/page.html
check "a capture that breaks off" ends_with 3 "$("$AFDX" measure "$network/table.toml" cut 2>&1)" "$network/table.toml" cut made/page.html
check "a capture that is a pipe" ends_with 2 "afdx-view: pipe/port-1.pcap is not a file, and the program reads it more than once" \
    "$network/table.toml" pipe made/page.html
cp "$network/table.toml" table.html
check "a page in its table's place" ends_with 2 "afdx-view: the page would replace table.html, of which it is made" \
    table.html "$network/in" table.html
check "leaves the table" cmp table.html "$network/table.toml"
check "a name with a dash at its head" ends_with 2 "afdx-view: error: a name may not begin with a dash: write ./ before it" \
    -- "$network/table.toml" "$network/in" -page.html
check "no place for the page" ends_with 5 "afdx-view: cannot write none/page.html: No such file or directory" \
    "$network/table.toml" "$network/in" none/page.html
mkdir folder.html
check "a folder in its place" ends_with 5 "afdx-view: cannot write folder.html: Is a directory" "$network/table.toml" "$network/in" folder.html
check "no program" env AFDX=none "$BASH" -c "! '$view' '$network/table.toml' '$network/in' none.html 2>said.txt &&
    grep -qx 'afdx-view: cannot run none: No such file or directory' said.txt && [ ! -e none.html ]"
check "a Python without its modules" "$BASH" -c "! /usr/bin/python3 -S '$view' '$network/table.toml' '$network/in' none.html 2>said.txt &&
    grep -q '^afdx-view: no jinja2, matplotlib, .*: install python3-jinja2 python3-matplotlib ' said.txt && [ ! -e none.html ]"
check "a line that says how far it is" tells_progress
check "Ctrl-C while the program runs" is_ended_by INT tracing 130 "$network/table.toml" "$network/in"
check "SIGTERM while the program runs" is_ended_by TERM tracing 143 "$network/table.toml" "$network/in"

aircraft=$top/examples/aircraft
check "the example of three switches" makes aircraft.html "$aircraft/network.toml" "$aircraft/in"
check "its verdict" says policed aircraft.html '^Accepted\. ' '180 frames in from end systems, 150 copies out to them, 0 lost, 65 policed' \
    'Link 401 was policed at cabin, 65 of its 80 frames, from 30\.822 ms .* to 69\.880 ms' \
    'No way came near its bound: the nearest, link 303 from cockpit\.3 to cabin\.2, took 73 % of it \(61,820 of 85,124 ns\)'
check "its page in a browser, and in print" opens_network aircraft.html "$aircraft/network.toml" "$aircraft/in"
check "its origin" tells_its_origin aircraft.html "$aircraft"/*.toml "$aircraft"/in/*/*
check "what is promised of a network" grep 'then in this accepted network, whatever frames the captures hold, ' aircraft.html
cp -r "$aircraft" short && sed -i 's/^jitter_us = .*/jitter_us = 0/' short/bay.toml
check "a network that is refused" ends_with 4 "$("$AFDX" network check short/network.toml 2>&1 | tail -n 1)" short/network.toml short/in made/page.html
check "and unchecked" makes short.html short/network.toml short/in --unchecked
check "is not accepted" says bad short.html '^Not accepted: afdx: network J1 Jitter, switch bay, link' 'so no bound is promised'
check "its ways in a browser" opens_network short.html short/network.toml short/in --unchecked
cp -r "$aircraft" cable && sed -i '/^delay_ns = 40/ a down = true' cable/network.toml
check "an outage of a cable" makes cable.html cable/network.toml cable/in
check "its ends without frames" says policed cable.html '^Accepted\. [1-9][0-9]* ends get nothing, as something is down\. '
check "its page in a browser, and in print" opens_network cable.html cable/network.toml cable/in
cp -r "$aircraft" outage && sed -i '/^name = "cockpit"/ a down = true' outage/network.toml
check "an outage of a switch" makes outage.html outage/network.toml outage/in
check "its page in a browser, and in print" opens_network outage.html outage/network.toml outage/in
cp -r "$aircraft" lines && sed -i -e '1 i one_line = true' -e 's|^table = "\(.*\)\.toml"|table = "\1/table.toml"|' lines/network.toml
for switch in cabin bay cockpit; do
    mkdir "lines/$switch" && mv "lines/$switch.toml" "lines/$switch/table.toml"
done
check "end systems with one line each" makes lines.html "$room/lines/network.toml" "$room/lines/in"
check "are the premise of the promise, which the run tested" names_the_premise lines.html
check "of which a network without them says nothing" eval "! grep premise aircraft.html"
check "names of files below folders that begin at the root" names_sums lines.html network.toml {cabin,bay,cockpit}/table.toml \
    cabin/port-{1,2}.pcap bay/port-{2,3}.pcap cockpit/port-{2,3}.pcap
check "their sums, and nothing of the host" tells_its_origin lines.html lines/network.toml lines/*/table.toml lines/in/*/*
check "its ways in a browser, with the lesser bounds" opens_network lines.html lines/network.toml lines/in
check "frames that one line cannot bring" one_line_refused
check "answers are of a table" ends_with 2 "afdx-view: --answers is for a table, and $aircraft/network.toml is of a network" \
    "$aircraft/network.toml" "$aircraft/in" made/page.html --answers earlier
cp -r "$aircraft" linked && ln linked/bay.toml linked/bay.html
check "a page in a table's place" ends_with 2 "afdx-view: the page would replace linked/bay.toml, of which it is made" \
    linked/network.toml linked/in linked/bay.html
printf '[[switch]]\nname = "A"\ntable = "none.toml"\n' >alone.toml
check "a network whose table is not there" ends_with 5 "afdx: device get none.toml" alone.toml "$network/in" made/page.html

# recorded PAGE KIND TEXT..: the section of the recordings has a verdict of this kind, and each of these texts.
recorded() {
    tells "$2" "$(sed -n '/id="recordings"/,/<table/p' "$1" | tr '\n' ' ' | sed 's|  *| |g')" "${@:3}"
}

# from_recorded_answers: of what compare answered before too the same page is made but for its origin.
from_recorded_answers() {
    "$AFDX" trace "$network/table.toml" "$network/in" earlier &&
        "$AFDX" compare "$network/table.toml" "$network/in" faulty --stamps=free --rows earlier --csv >earlier/compare.csv
    (export AFDX=none && makes again.html "$network/table.toml" "$network/in" --answers earlier --recorded faulty --stamps free) &&
        cmp again-differences.csv faulty-differences.csv &&
        cmp <(sed '/id="origin"/,$d; s/faulty-diff/again-diff/g' faulty.html) <(sed '/id="origin"/,$d' again.html)
}

mkdir out
"$AFDX" run "$network/table.toml" "$network/in" out >/dev/null
cp -r out faulty
python3 "$top/end_to_end/planted.py" lost faulty 3 100
python3 "$top/end_to_end/planted.py" doubled faulty 3 200
python3 "$top/end_to_end/planted.py" turned faulty 2 20
check "recordings that conform" makes whole.html "$network/table.toml" "$network/in" --recorded out --stamps free
check "are said to" recorded whole.html good 'The recordings conform' '958 records are of a frame that was passed' 'Nearest to its bound was link '
check "and no difference is beside the page" test "$(wc -l <whole-differences.csv)" -eq 1
check "their page in a browser" opens whole.html "$network/table.toml" "$network/in" --recorded out --compare stamps=free
check "recordings that differ are an answer too" makes faulty.html "$network/table.toml" "$network/in" --recorded faulty --stamps free
check "and are said to" recorded faulty.html bad 'The recordings differ' '2 missing, 2 extra'
check "each difference in a browser, and in print" opens faulty.html "$network/table.toml" "$network/in" --recorded faulty --compare stamps=free --print
check "the recordings' origin" tells_its_origin faulty.html "$network/table.toml" faulty/*
check "what they were compared by" grep -q 'compare table.toml in faulty --stamps=free$' faulty.html
check "so is that of earlier answers of compare" from_recorded_answers
check "an option that compare refuses" ends_with 2 "afdx: usage" "$network/table.toml" "$network/in" made/page.html --recorded out --stamps begin
check "a port that the table lacks" ends_with 2 "afdx: argument A2 NoSuchPort, --ports 9" "$network/table.toml" "$network/in" made/page.html \
    --recorded out --stamps free --ports 9
check "recordings that are not there" ends_with 5 "afdx: device get none/port-1.pcap" \
    "$network/table.toml" "$network/in" made/page.html --recorded none

python3 "$top/bench/network.py" big 1000000
check "Ctrl-C while it draws" is_ended_by INT drawing 130 big/table.toml big/in
check "SIGTERM while it draws" is_ended_by TERM drawing 143 big/table.toml big/in
mkdir answers
"$AFDX" size big/table.toml --csv >answers/size.csv
"$AFDX" measure big/table.toml big/in --csv >answers/measure.csv
check "answers of 24 ports, 4096 links, a million frames" "$AFDX" trace big/table.toml big/in answers
check "their page, in memory for what is drawn" keeps_below 250000 big/table.toml big/in big.html --answers answers
check "its page is below 20 MB" below_20_megabytes big.html
check "its page in a browser, within 10 s" opens big.html big/table.toml big/in --seconds 10
check "README's picture" "$top/docs/use/network_picture.py" --check
finish
