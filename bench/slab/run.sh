#!/bin/sh
# Builds the containers as a static library, links it into the driver and runs that. Usage: bench/slab/run.sh LINKED_SLAB_RS [RUNS]
# LINKED_SLAB_RS is the file src/linked_slab.rs of quick_cache 0.7.0, as cargo fetches it. RUNS is how often each list is run, 9 if left out.
set -e
rust_slab=$1
here=$(cd "$(dirname "$0")" && pwd)
library=$here/../../crates/bench_containers
kit=$(dirname "$(rt doc)")
(cd "$library" && rt lib)
mkdir -p "$here/out"
cp "$here/driver.rs" "$here/out/driver.rs"
cp "$rust_slab" "$here/out/rust_slab.rs"
cd "$here/out"
ar x "$library/out/libbench_containers.a"
rm -f libplaced.a
# A copy of the library's code at each of four places in a line of 64 bytes.
for place in 0 16 32 48; do
    echo "SECTIONS { .text.slab_run : { . = . + $place; *(.text.slab_run) } }" > place.ld
    ld -r -T place.ld bench_containers.o -o "slab_$place.o"
    objcopy --redefine-sym "slab_run=slab_run_$place" --keep-global-symbol="slab_run_$place" \
        --set-section-alignment .text.slab_run=64 "slab_$place.o"
    ar rcs libplaced.a "slab_$place.o"
done
rustc --edition 2024 -O -C target-cpu=x86-64-v2 -A warnings driver.rs -o driver \
    -C link-arg=libplaced.a -C link-arg="$kit/c/liblibc_c.a"
./driver "${2:-9}"
