#!/bin/sh
# Times the cache that threads share beside that of the Rust crate. Usage: bench/threads/run.sh CRATE [RUNS]
# CRATE is the folder of quick_cache 0.7.0, with its Cargo.toml. RUNS is how often the two take turns, 7 if left out.
set -e
runs=${2:-7}
operations=${OPERATIONS:-2000000}
rounds=${ROUNDS:-3}
here=$(cd "$(dirname "$0")" && pwd)
program=$here/../../crates/bench_sync
(cd "$program" && rt run)
"$here/../driver.sh" "$here" "$1"
cd "$here/out"
rm -f times
for turn in $(seq "$runs"); do
    for items in ${ITEMS:-16384 262144}; do
        for threads in 1 2 4; do
            "$program/out/bench_sync" threads "$threads" "$operations" "$items" "$rounds" | sed "s/^/$turn $items $threads proved /" >> times
            target/release/driver "$threads" "$operations" "$items" "$rounds" | sed "s/^/$turn $items $threads rust /" >> times
        done
    done
done
# The least time of each, in nanoseconds an operation, and the median of the turns' ratios: of each turn the least times count.
awk -v operations="$operations" -v runs="$runs" '
    function least(kind, value) { if (!(kind in times) || value < times[kind]) times[kind] = value }
    function both(kind, turn, value) { least(kind, value); least(turn " " kind, value) }
    function median(kind,  turn, at, ratio, list) {
        for (turn = 1; turn <= runs; turn++) {
            ratio = times[turn " " kind "proved"] / times[turn " " kind "rust"]
            for (at = turn; at > 1 && list[at - 1] > ratio; at--) list[at] = list[at - 1]
            list[at] = ratio
        }
        return list[int((runs + 1) / 2)]
    }
    { both($2 " " $3 " get " $4, $1, $5); both($2 " " $3 " insert " $4, $1, $6); both($2 " " $3 " mixed " $4, $1, $7); sizes[$2] }
    END {
        print "| Operation | Items | Threads | Proved | Rust | Ratio |"
        print "|---|---|---|---|---|---|"
        split("get insert mixed", names)
        for (size in sizes) for (name = 1; name <= 3; name++) for (count = 1; count <= 4; count *= 2) {
            kind = size " " count " " names[name] " "
            proved = times[kind "proved"] / operations; rust = times[kind "rust"] / operations
            printf "| %s | %d | %d | %.1f ns | %.1f ns | %.2f |\n", names[name], size, count, proved, rust, median(kind)
        }
    }' times
