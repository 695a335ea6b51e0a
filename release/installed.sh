#!/usr/bin/env bash
# What ./package --try does in a fresh Debian, as root, in a copy of the commit's files beside which the .deb lies: installs it with
# what it recommends, and nothing that those recommend; does README's first run; and runs the end-to-end scripts that take a program,
# or those that the file `scripts` names, by the installed one. The Python commands are the installed ones too. Left out are demo.sh,
# which needs the kit, and package.sh, which makes packages.
set -u
shopt -s nullglob
cd "$(dirname "$0")/.." || exit 1
export DEBIAN_FRONTEND=noninteractive AFDX=/usr/bin/afdx

# Each Debian that was installed has it: chromedriver needs the first name, Slurm the machine's own.
[ -e /etc/hosts ] || printf '%s\n' '127.0.0.1 localhost' "127.0.1.1 $(uname -n)" >/etc/hosts
mapfile -t recommended < <(dpkg-deb -f ./*.deb Recommends | tr -d ' ' | tr , '\n')
apt-get install -qy --no-install-recommends ./*.deb "${recommended[@]}" >/dev/null || { echo "cannot install the .deb"; exit 1; }
rm -r python/afdx
ln -s /usr/share/afdx/afdx python/afdx
for command in python/bin/*; do
    ln -sf "/usr/bin/${command##*/}" python/bin
done

# first_run: README's commands after the installation, in an empty folder.
first_run() {
    sed -n '/^## First run$/,/^## Build$/p' README.md | sed -n '/^```$/,/^```$/{ /^```$/!p }' >first.sh
    mkdir first && (cd first && bash -e ../first.sh && ls out/port-{1,2,3,4}.pcap) && [ "$(wc -l <first.sh)" -eq 2 ]
}

failed=0
first_run >said.txt 2>&1 || { failed=1; cat said.txt; }
echo "README's first run: $(tail -n 1 said.txt)"
mapfile -t scripts < <(grep . scripts || grep -l '{AFDX:-' end_to_end/*.sh | grep -v -e /demo.sh -e /package.sh)

# try_script SCRIPT: what it printed that is not ok, if it failed; and how it ended.
try_script() {
    local began=$SECONDS said=said/${1##*/}
    bash "$1" >"$said" 2>&1 || { touch "$said.failed"; grep -v '^ok ' "$said" >"$said.wrong"; }
    echo "$1: $(tail -n 1 "$said") ($((SECONDS - began)) s)" >>"$said.wrong"
    cat "$said.wrong"
}

# As in ./test the scripts run side by side, one a core.
mkdir said
export -f try_script
printf '%s\0' "${scripts[@]}" | xargs -0 -n 1 -P "$(nproc)" bash -c 'try_script "$1"' bash
wrong=(said/*.failed)
failed=$((failed + ${#wrong[@]}))
echo "$failed scripts failed"
[ "$failed" -eq 0 ] && [ "${#scripts[@]}" -gt 0 ]
