# shellcheck shell=sh
# How many checks rt runs side by side; ./test and ./audit read this file. Sets RT_JOBS if nothing did.
#
# rt starts a check only if there is free memory for the most that one of this crate's size may take, so that the largest crate,
# which the last ones wait for, waits for all lanes. No check seen here took more than 5 GiB.
memory=$(sed -n 's/^MemTotal: *\([0-9]*\) kB$/\1/p' /proc/meminfo)
if [ -z "${RT_JOBS:-}" ] && [ "$(nproc)" -ge 4 ] && [ "${memory:-0}" -ge 20000000 ]; then
    RT_JOBS=4
    export RT_JOBS
fi
