#!/usr/bin/env bash
# The cases of cases/*.toml: what the program answers to arguments, tables, captures and networks, with values that were worked out
# by hand. cases.py says what a case has.
. "$(dirname "$0")/common.sh"
install python3=python3
export PYTHONDONTWRITEBYTECODE=1
python3 "$top/end_to_end/cases.py" "${AFDX:-$top/crates/afdx/out/afdx}"
