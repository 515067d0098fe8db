#!/bin/sh
# Times hits by the calls that load, by a loader with its cache, and by a cache whose entries end, beside
# `get`, by one thread. Usage: bench/threads/loads.sh [ROUNDS]
# ROUNDS is 15 if left out.
set -e
rounds=${1:-15}
operations=${OPERATIONS:-1000000}
here=$(cd "$(dirname "$0")" && pwd)
program=$here/../../crates/bench_sync
(cd "$program" && rt run)
# The least and the median nanoseconds of each call, and the median of its ratios to the first.
table() {
    names=$1
    shift
    "$program/out/bench_sync" "$@" "$operations" 16384 "$rounds" | awk -v names="$names" -v operations="$operations" '
        function keep(list, call, value,  at) {
            for (at = NR; at > 1 && list[call, at - 1] > value; at--) list[call, at] = list[call, at - 1]
            list[call, at] = value
        }
        BEGIN { calls = split(names, name, ",") }
        { for (call = 1; call <= calls; call++) { keep(times, call, $call / operations); keep(ratios, call, $call / $1) } }
        END {
            middle = int((NR + 1) / 2)
            for (call = 1; call <= calls; call++)
                printf "| %s | %.1f | %.1f | %.2f |\n", name[call], times[call, 1], times[call, middle], ratios[call, middle]
        }'
}
echo "| Hits by | Least | Median | Beside \`get\` |"
echo "|---|---|---|---|"
table 'get,get_value_or_guard,get_or_insert_with' loads
table 'get,ReadThrough::get,SharedExpiring::get' read_through
