#!/bin/sh
# Times the longest insert while a cache for one thread grows, beside the Rust crate. Usage: bench/threads/growth.sh CRATE [ROUNDS]
# CRATE is the folder of quick_cache 0.7.0, with its Cargo.toml. ROUNDS is how often each grows, 15 if left out.
set -e
rounds=${2:-15}
here=$(cd "$(dirname "$0")" && pwd)
program=$here/../../crates/bench_sync
(cd "$program" && rt run)
"$here/../driver.sh" "$here" "$1"
median() { sort -n | awk '{ times[NR] = $1 } END { print times[int((NR + 1) / 2)] / 1000 }'; }
echo "| Items | Proved, us | Rust, us | Ratio |"
echo "|---|---|---|---|"
for items in 16384 131072 1048576; do
    proved=$("$program/out/bench_sync" growth "$items" "$rounds" | median)
    rust=$("$here/out/target/release/driver" growth "$items" "$rounds" | median)
    echo "$items $proved $rust" | awk '{ printf "| %d | %.0f | %.0f | %.2f |\n", $1, $2, $3, $2 / $3 }'
done
