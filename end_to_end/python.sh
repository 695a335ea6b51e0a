#!/usr/bin/env bash
# The tests of the Python package, by Debian's own Python.
. "$(dirname "$0")/common.sh"
install pytest-3=python3-pytest tshark=tshark dumpcap=wireshark-common tcpdump=tcpdump zstd=zstd xz=xz-utils
install_python distributed hypothesis jinja2 matplotlib networkx numpy openpyxl pandas tomlkit tqdm zstandard
export PYTHONDONTWRITEBYTECODE=1
export AFDX=${AFDX:-$top/crates/afdx/out/afdx}
cd "$top/python" || exit 1

check "tests" pytest-3
finish
