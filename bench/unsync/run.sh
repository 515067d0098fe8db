#!/bin/sh
# Times the cache for one thread beside that of the Rust crate. Usage: bench/unsync/run.sh CRATE [ROUNDS [NAME]]
# CRATE is the folder of quick_cache 0.7.0, with its Cargo.toml. ROUNDS is how often the two take turns, 7 if left out. With a
# NAME it times the rows alone that have it in theirs.
# With COUNT=1 it counts instructions in place of time, by valgrind.
set -e
here=$(cd "$(dirname "$0")" && pwd)
library=$here/../../crates/bench_unsync
crate=$(cd "$1" && pwd)
kit=$(dirname "$(rt doc)")
(cd "$library" && rt lib)
mkdir -p "$here/out"
cd "$here/out"
ar x "$library/out/libbench_unsync.a"
# The library's code at two places in a line of 64 bytes.
rm -f libplaced.a
for place in 0 32; do
    echo "SECTIONS { .text : { . = . + $place; *(.text .text.*) } }" > place.ld
    ld -r -T place.ld bench_unsync.o -o "cache_$place.o"
    objcopy --redefine-sym "qcbench_trace=qcbench_trace_$place" --keep-global-symbol="qcbench_trace_$place" \
        --set-section-alignment .text=64 "cache_$place.o"
    ar rcs libplaced.a "cache_$place.o"
done
"$here/../driver.sh" "$here" "$crate" "-C link-arg=$here/out/libplaced.a -C link-arg=$kit/c/liblibc_c.a"
driver=$here/out/target/release/driver
if [ -z "$COUNT" ]; then
    awk -F ': ' '/^model name/ { print $2 "\n"; exit }' /proc/cpuinfo
    exec "$driver" "${2:-7}" "$3"
fi
# The rows of 10,000 entries: what 100,000 operations more cost, within each cache alone.
counted() {
    valgrind --tool=callgrind --toggle-collect="$1" --callgrind-out-file=/dev/null "$driver" "$2" "$3" "$4" 2>&1 |
        awk '/Collected/ { print $4 }'
}
each() {
    few=$(counted "$1" "$2" "$3" 50000)
    many=$(counted "$1" "$2" "$3" 150000)
    echo $(((many - few) / $4))
}
echo "| Operation | Instructions | Rust |"
echo "|---|---|---|"
for row in 14 15 16 17 18 20 21 22 23 24 25 26 27; do
    name=$("$driver" proved $row 10 | sed 's/ 10000 .*//')
    operations=100000
    [ $row = 22 ] && operations=50000
    echo "| $name | $(each qcbench_trace_0 proved $row $operations) | $(each '*rust_trace*' rust $row $operations) |"
done
