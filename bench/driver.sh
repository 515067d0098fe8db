#!/bin/sh
# Builds a driver over the Rust crate, as FOLDER/out/target/release/driver. Usage: bench/driver.sh FOLDER CRATE [FLAGS]
# FOLDER has driver.rs. CRATE is the folder of quick_cache 0.7.0. FLAGS go to rustc.
set -e
crate=$(cd "$2" && pwd)
here=$(cd "$(dirname "$0")" && pwd)
mkdir -p "$1/out/src"
cp "$1/driver.rs" "$1/out/src/main.rs"
cp "$here/common.rs" "$1/out/src/common.rs"
cat > "$1/out/Cargo.toml" <<END
[package]
name = "driver"
version = "0.1.0"
edition = "2024"
[dependencies]
quick_cache = { path = "$crate" }
[profile.release]
opt-level = 3
lto = "fat"
codegen-units = 1
[workspace]
END
cd "$1/out"
RUSTFLAGS="-C target-cpu=x86-64-v2 $3" cargo build -q --release
