#!/usr/bin/env bash
# afdx compare over the program's own outputs, whole, cut and with a fault planted, beside the model; its options and its failures.
. "$(dirname "$0")/common.sh"
install python3=python3
export PYTHONDONTWRITEBYTECODE=1 LC_ALL=C
afdx=${AFDX:-$top/crates/afdx/out/afdx}
network=$top/examples/network
table=$network/table.toml
cd "$room" || exit 1

# compares STATUS ARGUMENT..: the lines and the rows are the model's, and so is the status.
compares() {
    local status=$1 said
    shift
    rm -rf rows wanted
    mkdir rows wanted
    "$afdx" compare "$@" --rows rows >lines.txt 2>said.txt
    said=$?
    python3 "$top/end_to_end/compare_answers.py" "$@" --rows wanted >model.txt
    [ $? -eq "$said" ] && [ "$said" -eq "$status" ] && [ ! -s said.txt ] &&
        cmp model.txt lines.txt && cmp wanted/differences.csv rows/differences.csv
}

# conforms ARGUMENT.. / differs ARGUMENT..: the same, and the last line says so.
conforms() {
    compares 0 "$@" && [ "$(tail -n 1 lines.txt)" = conforms ] && [ "$(wc -l <rows/differences.csv)" -eq 1 ]
}

differs() {
    compares 1 "$@" && [ "$(tail -n 1 lines.txt)" = differs ]
}

# named KIND..: the rows are of these kinds, in this order.
named() {
    [ "$(tail -n +2 rows/differences.csv | cut -d, -f3 | tr '\n' ' ')" = "$* " ]
}

# plant KIND PORT NUMBER ARGUMENT..: a copy of the outputs with a fault.
plant() {
    rm -rf faulty
    cp -r out faulty
    python3 "$top/end_to_end/planted.py" "$1" faulty "$2" "$3" "${@:4}"
}

# finds KIND ROW..: the fault at the hundredth record of port 3 is named by rows of these kinds and nothing else.
finds() {
    plant "$1" 3 100 && differs "$table" "$network/in" faulty --stamps free && named "${@:2}"
}

# late_frames: one that is late by less than the bound is named as late, and one that is later is not taken for the same any more.
late_frames() {
    plant late 3 100 --by 300000 && differs "$table" "$network/in" faulty --stamps free && named late && finds late missing extra
}

# let_through: a frame of the camera that is policed is named by its extra record, with its own number.
let_through() {
    local number
    number=$(awk -F, '$5 == 401 && $6 != "" && $7 == "policed" { print $3; exit }' traced/arrivals.csv)
    rm -rf faulty && cp -r out faulty && cp "$network/in/port-4.pcap" port-4.pcap &&
        python3 "$top/end_to_end/planted.py" through faulty 3 "$number" --input port-4.pcap &&
        differs "$table" "$network/in" faulty --stamps free && named extra &&
        grep -q "^3,401,extra,$number," rows/differences.csv
}

# cuts: what lies between two instants conforms too, whatever was before and after.
cuts() {
    local from=1768471200000328943 step
    for step in 20000000 70000000 111111111 150000000; do
        conforms "$table" "$network/in" out --stamps free --from $((from + step)) --until $((from + step + 90000000)) || return 1
    done
}

# switches_that_vary: on the switch with a latency, one that is known to vary has greater bounds, and conforms as well.
switches_that_vary() {
    local least
    for least in 0 5 16; do
        conforms "$network/faster.toml" "$network/in" faster --stamps free --least-latency "$least" || return 1
    done
}

# clocks: what is recorded 1 ms later at port 3 differs, and conforms with the offset.
clocks() {
    rm -rf apart && cp -r out apart && python3 - <<'END' && differs "$table" "$network/in" apart --stamps free &&
import dataclasses, sys
from pathlib import Path
sys.path.insert(0, f"{__import__('os').environ['HERE']}")
import model
path = Path("apart/port-3.pcap")
records = model.records_of(path.read_bytes(), 3)
path.write_bytes(model.capture_of([dataclasses.replace(record, stamp=record.stamp + 1_000_000) for record in records]))
END
        conforms "$table" "$network/in" apart --stamps free --offset 3=-1000000
}

# ended_bits: stamps of last bits are 12 bytes before the line is free.
ended_bits() {
    rm -rf bits && cp -r out bits && python3 - <<'END' && conforms "$table" "$network/in" bits && differs "$table" "$network/in" bits --stamps free
import dataclasses, sys
from pathlib import Path
sys.path.insert(0, f"{__import__('os').environ['HERE']}")
import model
for port, gap in {1: 960, 2: 960, 3: 960, 4: 9600}.items():
    path = Path(f"bits/port-{port}.pcap")
    records = model.records_of(path.read_bytes(), port)
    path.write_bytes(model.capture_of([dataclasses.replace(record, stamp=record.stamp - gap) for record in records]))
END
}

# some_ports: what is recorded at two ports alone.
some_ports() {
    rm -rf few && mkdir few && cp out/port-3.pcap out/port-1.pcap few &&
        conforms "$table" "$network/in" few --stamps free --ports 3,1 && [ "$(grep -c '^out ' lines.txt)" -eq 2 ]
}

# fails STATUS LINE ARGUMENT..: the line and the status, and nothing is written.
fails() {
    local status=$1 line=$2
    shift 2
    "$afdx" compare "$@" >lines.txt 2>said.txt
    [ $? -eq "$status" ] && [ "$(cat said.txt)" = "$line" ] && [ ! -s lines.txt ]
}

# over FROM UNTIL: a span in which nothing is judged, as the model says too.
over() {
    local line="afdx: argument A4 Span, --from $1, --until $2"
    fails 2 "$line" "$table" "$network/in" out --stamps free --from "$1" --until "$2" &&
        ! python3 "$top/end_to_end/compare_answers.py" "$table" "$network/in" out --stamps free --from "$1" --until "$2" 2>model.txt &&
        [ "$(cat model.txt)" = "$line" ]
}

# over_before_all / over_after_all: up to the first of all stamps, or from the last one on, something is judged; a nanosecond away nothing is.
over_before_all() {
    local first
    first=$(sed -n 's/^span \([0-9]*\) .*/\1/p' whole.txt)
    over 1768471200 1768471201 && over 0 $((first - 1)) && conforms "$table" "$network/in" out --stamps free --from 0 --until "$first"
}

over_after_all() {
    local last
    last=$(sed -n 's/^span .* to //p' whole.txt)
    over 2000000000000000000 2000000000000000001 && over $((last + 1)) 2000000000000000000 &&
        conforms "$table" "$network/in" out --stamps free --from "$last" --until 2000000000000000000
}

# no_records: of recordings without any the span is what is given.
no_records() {
    mkdir nothing
    for port in 1 2 3 4; do
        head -c 24 "out/port-$port.pcap" >"nothing/port-$port.pcap"
    done
    conforms "$table" nothing nothing --stamps free --from 5 --until 6 && [ "$(head -n 1 lines.txt)" = "span 5 to 6" ]
}

# ends_before_all / begins_after_all: the first or the last of all stamps stands for the instant that is not given.
ends_before_all() {
    fails 2 "afdx: argument A4 Span, --from $(sed -n 's/^span \([0-9]*\) .*/\1/p' whole.txt), --until 1768471200" "$table" "$network/in" out --stamps free --until 1768471200
}

begins_after_all() {
    fails 2 "afdx: argument A4 Span, --from 2000000000000000000, --until $(sed -n 's/^span .* to //p' whole.txt)" "$table" "$network/in" out --stamps free \
        --from 2000000000000000000
}

export HERE=$top/end_to_end
mkdir out faster traced
"$afdx" run "$table" "$network/in" out >/dev/null && "$afdx" run "$network/faster.toml" "$network/in" faster >/dev/null &&
    "$afdx" trace "$table" "$network/in" traced && "$afdx" compare "$table" "$network/in" out --stamps free >whole.txt

check "the model finds what was worked out by hand" python3 "$top/end_to_end/compare_rows.py"
check "its lines and rows are those that were worked out by hand" \
    python3 "$top/end_to_end/compare_scenes.py" python3 "$top/end_to_end/compare_answers.py"
check "and so are the program's" python3 "$top/end_to_end/compare_scenes.py" "$afdx" compare
check "the program's own outputs conform" conforms "$table" "$network/in" out --stamps free
check "the same from a switch at rest" conforms "$table" "$network/in" out --stamps free --rest
check "and so does what is cut out of them" cuts
check "a switch whose latency may vary" switches_that_vary
check "stamps of last bits" ended_bits
check "a recorder whose clock is ahead" clocks
check "recordings of two ports" some_ports
check "a frame that is lost" finds lost missing
check "one that is doubled" finds doubled extra
check "two that change places" finds swapped missing extra missing extra
check "one that is late" late_frames
check "one whose last byte is turned" finds turned missing extra
check "a babbler's frame that is let through" let_through
head -c 30 out/port-2.pcap >cut.pcap && mkdir broken && cp out/*.pcap broken && cp cut.pcap broken/port-2.pcap
check "an output that is no capture" fails 3 "afdx: capture P6 CutHeader, output 2, record 1" "$table" "$network/in" broken
check "a port that the table lacks, before an output is looked for" fails 2 "afdx: argument A2 NoSuchPort, --ports 9" "$table" "$network/in" nowhere --ports 1,9
check "an offset of a port that is left out" fails 2 "afdx: argument A3 LeftOut, --offset 1" "$table" "$network/in" out --ports 3 --offset 1=5
check "an end in seconds, before all stamps" ends_before_all
check "a beginning after all stamps" begins_after_all
check "a span in seconds, and one that ends right before all stamps" over_before_all
check "a span after all stamps, and one that begins right after them" over_after_all
check "a span of recordings without a record" no_records
check "a least latency above the table's" fails 2 "afdx: argument A1 Latency, --least-latency 17, limit 16" "$network/faster.toml" "$network/in" faster \
    --stamps free --least-latency 17
check "no output" fails 5 "afdx: device get nowhere/port-1.pcap" "$table" "$network/in" nowhere
finish
