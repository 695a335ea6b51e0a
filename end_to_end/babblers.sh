#!/usr/bin/env bash
# afdx run on a hundred random networks, each with one port that sends whatever it likes: no link of another port is
# disturbed, and every frame that leaves has left within the bound of its port and priority.
. "$(dirname "$0")/common.sh"
install python3=python3
export PYTHONDONTWRITEBYTECODE=1
afdx=${AFDX:-$top/crates/afdx/out/afdx}

check "a babbling port disturbs no other link" python3 "$top/end_to_end/babblers.py" "$afdx" "$room" 100
grep networks "$room/said"
finish
