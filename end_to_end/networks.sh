#!/usr/bin/env bash
# Networks of several switches, by the model in Python: the numbers that were worked out by hand, and 150 random networks whose
# senders send whatever they like. What the first switch passes of a link is delivered at each of its ends, in order and in time,
# by our switch and by 60 networks of switches whose latencies vary.
. "$(dirname "$0")/common.sh"
install python3=python3
export PYTHONDONTWRITEBYTECODE=1

check "the model gives the numbers that were worked out by hand" python3 "$top/end_to_end/network_rows.py"
check "the example of three switches is accepted" python3 "$top/end_to_end/network_model.py" check "$top/examples/aircraft/network.toml"
check "what is passed once is delivered in time" python3 "$top/end_to_end/networks.py" 150
check "so it is by switches whose latencies vary" python3 "$top/end_to_end/real_switches.py" 60
grep networks "$room/said"
finish
