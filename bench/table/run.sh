#!/bin/sh
# Builds the containers as a static library, links it into the driver and runs that.
# What it is given is passed on: numbers of pairs, 1000, 100000 and 1000000 if there are none.
set -e
here=$(cd "$(dirname "$0")" && pwd)
library=$here/../../crates/bench_containers
kit=$(dirname "$(rt doc)")
(cd "$library" && rt lib)
mkdir -p "$here/out"
# Each function begins at a line of the cache, so that it does not count where it happens to fall.
rustc -O --edition 2024 -C target-cpu=x86-64-v2 -C llvm-args=-align-all-functions=6 \
    "$here/driver.rs" -o "$here/out/driver" \
    -L "$library/out" -l static=bench_containers -L "$kit/c" -l static=libc_c
"$here/out/driver" "$@"
