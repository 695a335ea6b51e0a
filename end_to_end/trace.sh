#!/usr/bin/env bash
# afdx trace on the example network, on captures full of ties and on networks that are drawn by chance: beside the model, and
# beside the captures that afdx run puts, as tshark reads them. pandas has each number as it is, read as FORMATS says.
. "$(dirname "$0")/common.sh"
install python3=python3 tshark=tshark
install_python pandas
export PYTHONDONTWRITEBYTECODE=1 LC_ALL=C
afdx=${AFDX:-$top/crates/afdx/out/afdx}
network=$top/examples/network
cd "$room" || exit 1

# as_modelled TABLE IN [OPTION..]: the two files are the model's, with status 0; nothing else was put, and nothing was said.
as_modelled() {
    rm -rf rows wanted && mkdir rows wanted
    "$afdx" trace "$1" "$2" rows "${@:3}" >lines.txt 2>said.txt &&
        python3 "$top/end_to_end/answers.py" trace "$1" "$2" wanted "${@:3}" && diff -r wanted rows && [ ! -s lines.txt ] && [ ! -s said.txt ]
}

# records: port, record, stamp in ns and size with check sequence of each frame in the captures that were put.
records() {
    local port
    for port in $(seq 1 24); do
        [ ! -f "out/port-$port.pcap" ] || tshark -r "out/port-$port.pcap" -T fields -E separator=, -e frame.number -e frame.time_epoch -e frame.len |
            awk -F, -v OFS=, -v port="$port" '{ sub(/[.]/, "", $2); sub(/^0+/, "", $2); print port, $1, $2, $3 + 4 }'
    done
}

# joined TABLE IN [--unchecked]: so; and what was sent are the records that afdx run puts, each under its number.
joined() {
    as_modelled "$@" && rm -rf out && mkdir out && "$afdx" run "$1" "$2" out "${@:3}" >report.txt && records >seen.txt 2>complaints.txt &&
        awk -F, -v OFS=, '$11 == "sent" { print $1, $2, $9, $6 }' rows/departures.csv | cmp - seen.txt
}

# shows PATTERN..: a line of the two files is like each.
shows() {
    local pattern
    for pattern in "$@"; do
        grep -qE "$pattern" rows/*.csv || { echo "no line like $pattern"; return 1; }
    done
}

# reads_by_pandas: both files of `rows`, read by the page's own lines and written again, are what they were.
reads_by_pandas() {
    sed -n '/^```python$/,/^```$/p' "$top/docs/use/FORMATS.md" | grep -v '^```' >rows/read.py && cat >>rows/read.py <<'END'
arrivals.to_csv("arrivals.again", index=False)
departures.to_csv("departures.again", index=False)
print(*sorted({str(kind) for rows in (arrivals, departures) for kind in rows.dtypes}))
END
    (cd rows && /usr/bin/python3 read.py && cmp arrivals.csv arrivals.again && cmp departures.csv departures.again) | tee pandas.txt &&
        [ "$(cat pandas.txt)" = "Int64 int64 object" ]
}

# selects TABLE IN LINKS [OPTION..]: with a --link for each of LINKS, which a comma parts, the two files are the model's, and their lines
# are those of the whole files with one of these links, as they stand there.
selects() {
    local link options=()
    for link in ${3//,/ }; do options+=(--link "$link"); done
    as_modelled "$1" "$2" "${@:4}" && rm -rf whole && mv rows whole && as_modelled "$1" "$2" "${@:4}" "${options[@]}" &&
        awk -F, -v links=",$3," 'FNR == 1 || ($5 != "" && index(links, "," $5 ","))' whole/arrivals.csv | cmp - rows/arrivals.csv &&
        awk -F, -v links=",$3," 'FNR == 1 || index(links, "," $4 ",")' whole/departures.csv | cmp - rows/departures.csv
}

# some LINKS [OPTION..]: of the example so; both files have lines of these links.
some() {
    selects "$network/table.toml" "$network/in" "$@" && [ "$(wc -l <rows/arrivals.csv)" -gt 1 ] && [ "$(wc -l <rows/departures.csv)" -gt 1 ]
}

# none LINKS: of the example so; both files are the heading alone.
none() { selects "$network/table.toml" "$network/in" "$1" && [ "$(cat rows/*.csv | wc -l)" -eq 2 ]; }

# counts_from_first TABLE IN [OPTION..]: with --relative the two files are the model's; each instant is by the first frame's stamp less than
# without it, and all other fields are the same.
counts_from_first() {
    as_modelled "$1" "$2" "${@:3}" && rm -rf whole && mv rows whole && as_modelled "$@" --relative &&
        first=$("$afdx" survey "$1" "$2" --unchecked | awk '$1 == "span" { print $3 }') &&
        less "$first" 4 whole/arrivals.csv rows/arrivals.csv && less "$first" 7,8,9 whole/departures.csv rows/departures.csv
}

# less N FIELDS WHOLE LESS: LESS is WHOLE, with N less in these fields where they are not empty. awk has no numbers of 61 bits.
less() {
    /usr/bin/python3 - "$@" <<'END'
import sys
from pathlib import Path

less, fields = int(sys.argv[1]), [int(field) - 1 for field in sys.argv[2].split(",")]
whole, given = (Path(name).read_text(encoding="ascii").splitlines() for name in sys.argv[3:])
for number, line in enumerate(whole[1:], 1):
    words = line.split(",")
    for field in fields:
        words[field] = words[field] and str(int(words[field]) - less)
    whole[number] = ",".join(words)
sys.exit(whole != given)
END
}

# tied_as_modelled: captures full of ties, most of them at ports where frames are lost.
tied_as_modelled() {
    local seed
    for seed in 1 2 3 4; do
        python3 "$top/end_to_end/ties.py" ties "$seed" && joined ties/table.toml ties/in --unchecked &&
            third_version ties/table.toml "$((seed * 2))" >later.toml && joined later.toml ties/in --unchecked || return 1
    done
}

# drawn_as_modelled: accepted networks with one port that babbles; no copy is lost.
drawn_as_modelled() {
    local seed
    for seed in 1 2 3 4; do
        python3 "$top/end_to_end/babbling.py" drawn "$seed" && joined drawn/table.toml drawn/in &&
            ! grep -E ',passed,,.|,aged$' rows/*.csv || return 1
    done
}

sed 's/^mbit = .*/mbit = 10/; s/^buffer = .*/buffer = 1000/; s/^max_delay_us = .*/max_delay_us = 300/' "$network/table.toml" >tight.toml
third_version tight.toml 40 >tight-later.toml

check "the example network" joined "$network/table.toml" "$network/in"
check "the same on a faster switch" joined "$network/faster.toml" "$network/in"
check "tight ports" joined tight.toml "$network/in" --unchecked
check "frames are policed, full and aged there" shows ',policed,[0-9]+,$' ',passed,,[0-9;]+$' ',aged$' ',sent$'
check "pandas has each number, read as FORMATS says" reads_by_pandas
check "every other fate is reported" shows ',cut,,$' ',short,,$' ',foreign,,$' ',no-link,,$' ',201,.*,wrong-port,,$' ',too-big,,$'
check "ends, arrivals, starts and ages at one instant, also with a latency" tied_as_modelled
check "networks that are drawn by chance, with a port that babbles" drawn_as_modelled
check "one link" some 401
check "two links" some 401,101
check "in another order, one of them twice" some 101,401,101
check "links of frames that the filter dropped too" some 201,400
check "a link that the table lacks" none 77
check "beside one that it has" some 77,401
check "the least and the greatest number" none 0,65535
check "stamps from the first frame" counts_from_first "$network/table.toml" "$network/in"
check "also of selected links, which the first frame is not of" counts_from_first "$network/table.toml" "$network/in" --link 401
check "also at tight ports, behind a latency" counts_from_first tight-later.toml "$network/in" --unchecked
check "the load is checked first" ends 4 "$("$afdx" check tight.toml 2>&1 >/dev/null)" /dev/null trace tight.toml "$network/in" rows
check "no file" ends 5 "afdx: device get none.toml" /dev/null trace none.toml "$network/in" rows
check "no captures" ends 5 "afdx: device get nowhere/port-1.pcap" /dev/null trace "$network/table.toml" nowhere rows
check "no folder to put them in" ends 5 "afdx: device put nowhere/arrivals.csv" /dev/null trace "$network/table.toml" "$network/in" nowhere
check "help of trace" helps trace --help
finish
