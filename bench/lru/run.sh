#!/bin/sh
# Times two LRU caches in Rust, and std's map, as bench/unsync times the proved cache. Usage: bench/lru/run.sh [CRATES] [ROUNDS]
# CRATES is a folder with hashbrown, hashlink and lru, as Debian's packages of these lay them there: /usr/share/cargo/registry if left out.
# ROUNDS is how often each is timed, 7 if left out.
set -e
here=$(cd "$(dirname "$0")" && pwd)
crates=${1:-/usr/share/cargo/registry}
mkdir -p "$here/out/src" "$here/out/.cargo"
cp "$here/driver.rs" "$here/out/src/main.rs"
cp "$here/../common.rs" "$here/out/src/common.rs"
cd "$here/out"
cat > Cargo.toml <<END
[package]
name = "driver"
version = "0.1.0"
edition = "2024"
[dependencies]
hashlink = "0.8"
lru = "0.7"
[profile.release]
opt-level = 3
lto = "fat"
codegen-units = 1
[workspace]
END
cat > .cargo/config.toml <<END
[source.crates-io]
replace-with = "packages"
[source.packages]
directory = "$crates"
END
RUSTFLAGS="-C target-cpu=x86-64-v2" cargo build -q --release --offline
awk -F ': ' '/^model name/ { print $2 "\n"; exit }' /proc/cpuinfo
target/release/driver "${2:-7}"
