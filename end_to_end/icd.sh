#!/usr/bin/env bash
# python/bin/afdx-icd and python/bin/afdx-diff: the commands of docs/use/ICD.md, and a network of five switches from its ICD
# (icds.py) to tables, whose ways are those that the lists say; what a second run, a changed row and bad rows do.
. "$(dirname "$0")/common.sh"
install python3=python3
install_python networkx openpyxl tomlkit
export PYTHONDONTWRITEBYTECODE=1 LC_ALL=C
afdx=${AFDX:-$top/crates/afdx/out/afdx}
export AFDX=$afdx
icd=$top/python/bin/afdx-icd
diff=$top/python/bin/afdx-diff
cd "$room" || exit 1

# lists NAME [shuffled|covered|parted|struck]: the lists, as NAME/.
lists() {
    /usr/bin/python3 "$top/end_to_end/icds.py" "$@"
}

# makes LISTS NET [ENDING]: afdx-icd makes NET of these lists, which end in .csv or so, without complaint.
makes() {
    local lists=$1 net=$2 ending=${3:-.csv}
    "$icd" "$lists/icd$ending" "$lists/ends$ending" "$lists/wires$ending" "$net" --mapping "$lists/map.toml" \
        >answer.txt 2>said.txt && [ ! -s said.txt ] && [ "$(tail -n 1 answer.txt)" = accepted ]
}

# refuses STATUS LISTS OPTION..: afdx-icd ends so for these lists; said.txt has its lines.
refuses() {
    local wanted=$1 lists=$2 status=0
    shift 2
    "$icd" "$lists/icd.csv" "$lists/ends.csv" "$lists/wires.csv" made --mapping "$lists/map.toml" "$@" \
        >answer.txt 2>said.txt || status=$?
    echo "status $status: $(cat said.txt)"
    [ "$status" -eq "$wanted" ]
}

# ways_are_the_lists: the network is accepted, and each way has the ends that the lists say and as many switches as the shortest.
ways_are_the_lists() {
    "$afdx" network check net/network.toml >checked.txt && [ "$(tail -n 1 checked.txt)" = accepted ] &&
        awk '/^link/ { n = 0; while ($(n + 8) != "least") n++; print $1, $2, $3, $4, $5, $6, "switches", n }' checked.txt |
        diff lists/ends.txt -
}

# unchanged LISTS [ENDING]: a run over these lists leaves the files as they are, each the same file as before.
unchanged() {
    ls -li --time-style=full-iso net >before.txt && makes "$1" net "${2:-}" && ls -li --time-style=full-iso net | diff before.txt -
}

# changed: link 150 gets another gap, and the tables differ in it and in jitters alone.
changed() {
    cp -r lists other && sed -Ei 's/^(150;.*);16;/\1;128;/' other/icd.csv && makes other new &&
        printf '< bag_ms = 16\n> bag_ms = 128\n' | diff - <(diff -r net new | grep '^[<>]' | grep -v jitter_us | sort -u)
}

# crossed: the switches that link 150 crosses.
crossed() {
    grep -l '^id = 150$' net/SW*.toml | sed 's|net/\(.*\).toml|\1|'
}

# differs FORM OPTION..: afdx-diff ends with 1, and names the link at each switch that it crosses in lines of this form, of sed.
differs() {
    local form=$1 status=0
    shift
    "$diff" net/network.toml new/network.toml "$@" >differs.txt || status=$?
    cat differs.txt
    [ "$status" -eq 1 ] && sed -n "s/^$form\$/\\1/p" differs.txt | diff <(crossed) -
}

# others_need: of other links nothing differs but jitters.
others_need() {
    ! grep ' link ' differs.txt | grep -v ' link 150 changed' | grep -vE ': jitter_us [0-9]+ -> [0-9]+$'
}

# lowered: a jitter that is lowered by hand is named, with what the program says of the network.
lowered() {
    local status=0
    cp -r net low && sed -i '/^id = 150$/,/^jitter_us/ s/^jitter_us = .*/jitter_us = 0/' low/SW2.toml
    "$diff" net/network.toml low/network.toml >differs.txt || status=$?
    cat differs.txt
    "$afdx" network check low/network.toml 2>said.txt
    [ "$status" -eq 1 ] && grep -q '^SW2 need 150 refused: lacks 0 -> [1-9]' differs.txt &&
        grep -qxF "check refused: verdict accepted -> $(cat said.txt)" differs.txt
}

# all_at_once: each bad row has its line, and nothing is made.
all_at_once() {
    cp -r lists bad && sed -i '3s/;L$/;X/; 5s/^104/101/; 7s/;ES16|ES12;/;ES7;/; 8s/;ES8;/;#N\/A;/' bad/icd.csv &&
        echo '101;ES2_101;ES2;ES20;64;250;33;L' >>bad/icd.csv && echo 'SW2;21;SW1;21;1000;0' >>bad/wires.csv &&
        sed -i '4s/;100$/;1/' bad/ends.csv && refuses 3 bad && diff - said.txt <<END && [ ! -e made ]
afdx-icd: not high or low, bad/icd.csv line 3, column PRIO, value "X"
afdx-icd: bad/icd.csv line 2 has it too, bad/icd.csv line 5, column VL_ID, value "101"
afdx-icd: ES7 would send to itself, bad/icd.csv line 7, column DST_ES, value "ES7"
afdx-icd: an error of the spreadsheet in place of a value: it has to be mended there, bad/icd.csv line 8, column SRC_ES, value "#N/A"
afdx-icd: bad/icd.csv line 2 has it too, with another DST_ES: all receivers have to stand in one row, with | between them, \
bad/icd.csv line 122, column VL_ID, value "101"
afdx-icd: not one of 10, 100, 1000, bad/ends.csv line 4, column MBIT, value "1"
afdx-icd: bad/wires.csv line 2 is the same cable: one row is for both directions, bad/wires.csv line 8, column SWITCH_A, value "SW2"
END
}

# one_line STATUS LISTS LINE: afdx-icd ends so for these lists, with this line alone.
one_line() {
    refuses "$1" "$2" && [ "$(cat said.txt)" = "afdx-icd: $3" ]
}

# taken_twice: a heading that the mapping names for two columns.
taken_twice() {
    cp -r lists twice && sed -i '/^id = /a bag_ms = "BAG_MS"\njitter_us = "BAG_MS"' twice/map.toml &&
        one_line 3 twice '"BAG_MS" is the heading of bag_ms too, columns.jitter_us, twice/map.toml'
}

# zero_in_front: the number of a link as hexadecimal lists have it.
zero_in_front() {
    local what="begins with 0, as hexadecimal numbers may: it has to be decimal, without zeros in front"
    cp -r lists zero && sed -i '3s/^102;/0102;/' zero/icd.csv &&
        one_line 3 zero "$what, zero/icd.csv line 3, column VL_ID, value \"0102\""
}

# looks_like LIST COLUMN HEADING: a heading of LIST.csv that may be a missing column.
looks_like() {
    rm -rf alike && cp -r lists alike && sed -i "1s/\$/;$3/; 2,\$s/\$/;7/" "alike/$1.csv" &&
        one_line 3 alike "\"$3\" may be this column: the mapping has to name it, or \"\" for none, alike/$1.csv line 1, column $2"
}

# cable_delay: the delay of the cables under such a heading, which the mapping may name; another one is on two lines, with commas.
cable_delay() {
    cp -r lists delays && sed -i '1s/DELAY_NS/Cable delay [ns]/; 1s/^/"Cable,\nin,the,drawing,of,all";/; 2,$s/^/x;/' delays/wires.csv &&
        one_line 3 delays \
        '"Cable delay [ns]" may be this column: the mapping has to name it, or "" for none, delays/wires.csv line 1, column delay_ns' &&
        printf '[columns.wires]\ndelay_ns = "Cable delay [ns]"\n' >>delays/map.toml && unchanged delays
}

# default_priority: the priority under a heading that the mapping does not name, beside a default for it.
default_priority() {
    cp -r lists prio && sed -i '/^priority = /d' prio/map.toml && printf '[defaults]\npriority = "L"\n' >>prio/map.toml && one_line 3 prio \
        '"PRIO" may be this column: the mapping has to name it, or "" for none, prio/icd.csv line 1, column priority'
}

# note: a title above a list and a note under it have a line each.
note() {
    local what="no more than two cells of this row are filled: if it is a note, it has to go"
    cp -r lists noted && echo "Note 1" >>noted/icd.csv && one_line 3 noted "$what, noted/icd.csv line 122, column 1, value \"Note 1\"" &&
        cp -r lists titled && sed -i '1i ICD rev C' titled/icd.csv && one_line 3 titled "none of the headings VL_ID, SRC_ES, DST_ES, \
bag_ms, jitter_us, PRIO: is there a title above them, or has the mapping to name them?, titled/icd.csv line 1"
}

# in_a_workbook CHANGE STATUS LINE: of workbooks whose list of links is changed so (icds.py) afdx-icd ends so, and says this alone.
in_a_workbook() {
    local status=0
    rm -rf "$1" && lists "$1" "$1" && "$icd" "$1"/{icd,ends,wires}.xlsx put --mapping "$1/map.toml" >answer.txt 2>said.txt || status=$?
    echo "status $status: $(cat said.txt)"
    [ "$status" -eq "$2" ] && [ "$(cat said.txt)" = "afdx-icd: $3" ]
}

# too_tight: ports without room are named, and there are no tables.
too_tight() {
    cp -r lists tight && printf '[defaults.ends]\nbuffer = 100\n' >>tight/map.toml && refuses 4 tight &&
        grep -q '^afdx: load L2 Buffer, port 1, .*, switch SW1$' said.txt &&
        grep -q '^afdx-icd: SW5 port 4 .* breaks L2 (ES20)$' said.txt && [ ! -e made ]
}

# unchecked: they are put if that is asked for, and the program refuses them.
unchecked() {
    refuses 4 tight --unchecked && [ "$(head -n 1 said.txt)" = "$("$afdx" network check made/network.toml 2>&1)" ]
}

# past_ten_milliseconds: rows that need more jitter than a table can have are named.
past_ten_milliseconds() {
    cp -r lists slow && sed -i 's/;1000;/;10;/' slow/wires.csv && sed -Ei 's/;[0-9]+;[0-9]+;[0-9]+;H$/;128;500;1400;L/' slow/icd.csv &&
        refuses 4 slow && grep -q '^afdx: network J2 NoJitter, switch SW' said.txt &&
        grep -qE '^afdx-icd: SW[1-5] link [0-9]+ needs jitter_us [0-9]{5} \(ES[0-9_]+\)$' said.txt
}

# nowhere: no program, and a folder that cannot be made.
nowhere() {
    AFDX=none refuses 5 lists && [ "$(cat said.txt)" = "afdx-icd: cannot run none: No such file or directory" ] &&
        : >made && refuses 5 lists && [ "$(cat said.txt)" = "afdx-icd: cannot make made: File exists" ]
}

lists lists
lists shuffled shuffled
mkdir bin && ln -s "$icd" "$diff" bin

check "tables of an ICD" makes lists net
check "each way has its ends, and the fewest hops" ways_are_the_lists
check "a second run changes nothing" unchanged lists
check "the lists in another order, in workbooks, change nothing" unchanged shuffled .xlsx
check "no difference" diff /dev/null <("$diff" net/network.toml net/network.toml)
check "a changed row" changed
check "afdx-diff names it" differs '\(.*\) link 150 changed: bag_ms 16 -> 128.*'
check "and of others what they need" others_need
check "as comma-separated values" differs '\(.*\),link,150,changed,bag_ms,16,128' --csv
check "a jitter that is lowered by hand is newly refused" lowered
check "bad rows, all at once" all_at_once
check "a heading of two columns" taken_twice
check "a zero in front" zero_in_front
for column in "buffer Port buffer [byte]" "buffer TxBuffer" "buffer Buf." "max_delay_us Delay max"; do
    check "the heading ${column#* }" looks_like ends "${column%% *}" "${column#* }"
done
check "the heading Cable delay [ns]" cable_delay
check "the heading PRIO beside a default" default_priority
check "a note and a title" note
check "a cover before the list" in_a_workbook covered 3 "none of the headings VL_ID, SRC_ES, DST_ES, bag_ms, jitter_us, PRIO: \
is the list on another sheet, is there a title above them, or has the mapping to name them?, covered/icd.xlsx sheet \"Cover\" line 1"
check "the headings alone on a sheet before the list" in_a_workbook parted 0 "warning: no links: the list is its headings alone, \
parted/icd.xlsx sheet \"Part 1\" line 1
afdx-icd: warning: not read, with headings as the first visible sheet has: if the rows of this one count, they have to be there, \
parted/icd.xlsx sheet \"Sheet\" line 1"
struck="warning: struck through, and read all the same: if this"
check "a column and a row that are struck through" in_a_workbook struck 0 "$struck column does not count, it has to go, struck/icd.xlsx \
line 1, column PRIO
afdx-icd: $struck row does not count, it has to go, struck/icd.xlsx line 3, column 1, value \"102\""
check "a network that is refused" too_tight
check "its tables all the same" unchecked
rm -rf made
check "more jitter than a table can have" past_ten_milliseconds
check "no program, no folder" nowhere
check "a Python without its modules" "$BASH" -c "! /usr/bin/python3 -S '$icd' a b c d 2>said.txt &&
    grep -q '^afdx-icd: no networkx, openpyxl, tomlkit in .*: install python3-networkx python3-openpyxl python3-tomlkit ' said.txt"
for command in "$icd" "$diff"; do
    check "$(basename "$command") --help" "$command" --help
done
run_page "$top/docs/use/ICD.md"
finish
