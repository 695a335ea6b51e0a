#!/usr/bin/env bash
# The commands of docs/use/GUIDE.md, one after the other in one folder, beside the page's table: they print what the page has.
. "$(dirname "$0")/common.sh"
install python3=python3 tshark=tshark editcap=wireshark-common
install_python jinja2 matplotlib networkx numpy openpyxl tomlkit tqdm zstandard
export PYTHONDONTWRITEBYTECODE=1 LC_ALL=C
afdx=${AFDX:-$top/crates/afdx/out/afdx}
export AFDX=$afdx
page=$top/docs/use/GUIDE.md
cd "$room" || exit 1

mkdir bin work && ln -s "$top"/python/bin/afdx-{campaign,icd,import} bin
sed -n '/^```toml$/,/^```$/ { /^```/! p }' "$page" >work/table.toml
run_page "$page"
finish
