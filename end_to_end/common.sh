# shellcheck shell=bash disable=SC2154
# Functions of the end-to-end scripts: what each needs, and how a check is counted.
set -u

top=$(cd "$(dirname "${BASH_SOURCE[0]}")/.." && pwd)
room=$(mktemp -d)
trap 'rm -rf "$room"' EXIT
passed=0
failed=0

# install COMMAND=PACKAGE..: has each Debian package installed whose command is missing. Scripts run side by side, and installing is
# one at a time: who comes second finds the commands there.
install() {
    local pair missing=() as_root=() lock
    exec {lock}>"${TMPDIR:-/tmp}/afdx-install.lock"
    flock "$lock"
    for pair in "$@"; do
        command -v "${pair%%=*}" >/dev/null || missing+=("${pair#*=}")
    done
    if [ "${#missing[@]}" -gt 0 ]; then
        [ "$(id -u)" -eq 0 ] || as_root=(sudo)
        "${as_root[@]}" apt-get update -q >/dev/null &&
            "${as_root[@]}" env DEBIAN_FRONTEND=noninteractive apt-get install -qy --no-install-recommends "${missing[@]}" >/dev/null ||
            { echo "cannot install: ${missing[*]}"; exit 1; }
    fi
    exec {lock}>&-
}

# install_python MODULE..: the same of modules of Debian's own Python, by which the package runs: each is in the package python3-MODULE.
install_python() {
    local module packages=()
    for module in "$@"; do
        /usr/bin/python3 -c "import $module" 2>/dev/null || packages+=("no-such-command=python3-$module")
    done
    install "${packages[@]}"
}

# check NAME COMMAND..: counts whether the command succeeds.
check() {
    local name=$1
    shift
    if "$@" >"$room/said" 2>&1; then
        passed=$((passed + 1))
        echo "ok      $name"
    else
        failed=$((failed + 1))
        echo "FAILED  $name"
        sed 's/^/        /' "$room/said" | head -20
    fi
}

# finish: the last line, and the status.
finish() {
    echo "$passed passed, $failed failed"
    [ "$failed" -eq 0 ]
}

# frames FILE ARGUMENT..: a nanosecond capture of these frames (see frames.py), written by text2pcap.
frames() {
    local file=$1
    shift
    python3 "$top/end_to_end/frames.py" "$@" >"$room/frames.txt" &&
        text2pcap -q -F nsecpcap -t '%s.%f' "$room/frames.txt" "$file"
}

# enlarge FILE COUNT: the capture is followed by so many records of 262,144 bytes, which are for no link.
enlarge() {
    PYTHONPATH=$top/end_to_end python3 - "$1" "$2" <<'END'
import sys

from captures import words

with open(sys.argv[1], "r+b") as file:
    file.seek(0, 2)
    for _ in range(int(sys.argv[2])):
        file.write(words(1, 0, 262_144, 262_144))
        file.seek(262_144, 1)
    file.truncate()
END
}

# shown FILE: what tshark sees of a capture, to the nanosecond and the byte; arguments after FILE go to tshark.
shown() {
    tshark -r "$@" -T fields -e frame.time_epoch -e frame.cap_len 2>/dev/null &&
        tshark -r "$@" -x 2>/dev/null
}

# is_printed FILE PRINTED: the lines of a page are what was printed. tshark warns root, and the warnings of two at once may run
# into each other: they are left out, and so are the blank lines that stay of them.
is_printed() {
    diff <(grep . "$1") <(sed -e 's/Running as user[^.]*\. This could be dangerous\.//g' -e '/^$/d' "$2")
}

# step_prints STEP: this step of a page prints what the page has. It ends with more than 1 (a `diff` that differs) where the last
# line is a refusal, and only there.
step_prints() {
    local wanted=$room/steps/$1.txt status=0 refused=0
    (cd work && bash -euo pipefail "$room/steps/$1.sh") >printed.txt 2>&1 || status=$?
    tail -n 1 "$wanted" | grep -q '^afdx[a-z-]*: ' && refused=1
    echo "status $status"
    [ $((status > 1)) -eq "$refused" ] && is_printed "$wanted" printed.txt
}

# run_page PAGE: checks the page's commands, one after the other in $room/work, with the commands of $room/bin.
run_page() {
    local section step number
    mkdir -p bin work && ln -sf "$afdx" bin/afdx && PATH=$room/bin:$PATH && cp -r "$top/examples" work
    check "the page's commands are found" python3 "$top/end_to_end/steps.py" "$1" steps
    while read -r section; do
        for step in "steps/$section"/*.sh; do
            number=$(basename "$step" .sh)
            check "$section, $number: $(head -n 1 "$step")" step_prints "$section/$number"
        done
    done < <(sections "$1")
}

# sections PAGE: those that have commands, in the page's order, as steps.py names them.
sections() {
    sed -n 's/^## //p' "$1" | tr 'A-Z' 'a-z' | sed -E 's/[^a-z0-9]+/_/g; s/^_|_$//g' | while read -r section; do
        [ ! -d "steps/$section" ] || echo "$section"
    done
}

# ends STATUS LINE FILE ARGUMENT..: $afdx ends with this status and this line for these arguments and this input, and nothing is
# on standard output.
ends() {
    local wanted=$1 line=$2 file=$3 status=0
    shift 3
    "$afdx" "$@" <"$file" >answer.txt 2>said.txt || status=$?
    echo "status $status: $(cat said.txt)"
    [ "$status" -eq "$wanted" ] && [ ! -s answer.txt ] && [ "$(cat said.txt)" = "$line" ]
}

# table_ports ID..: the [[port]] of a table for each of these, with a buffer and an age that hardly anything reaches.
table_ports() {
    printf '[[port]]\nid = %s\nmbit = 100\nbuffer = 100000\nmax_delay_us = 500000\n\n' "$@"
}

# table_link ID FROM TO MAX_SIZE PRIORITY: a [[link]] of a table, of one frame each millisecond.
table_link() {
    printf '[[link]]\nid = %s\nfrom = %s\nto = [%s]\nbag_ms = 1\njitter_us = 0\nmax_size = %s\npriority = "%s"\n' "$@"
}

# third_version TABLE LATENCY_US: the table in version 3, with this latency.
third_version() {
    echo "version = 3"
    echo "latency_us = $2"
    grep -v '^version' "$1"
}

# helps ARGUMENT..: the help of $afdx is on standard output, with status 0.
helps() {
    "$afdx" "$@" >answer.txt 2>said.txt && grep -q -- '--help\|-h' answer.txt && [ ! -s said.txt ]
}
