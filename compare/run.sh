#!/usr/bin/env bash
# Builds the archive and the comparison, sees that the programs' lists are the Rust's answers, and compares. Arguments go on to
# `compare`.
set -eu
cd "$(dirname "$0")/.."
mkdir -p target/staticlib
(cd crates/threshgleam && rt lib) >target/staticlib.log 2>&1 || { tail -n 20 target/staticlib.log; exit 1; }
cp crates/threshgleam/out/libthreshgleam.a target/staticlib/
cargo build --manifest-path compare/Cargo.toml --target-dir target/cargo --release --offline
for area in ram config sets control; do
    mkdir -p "target/vectors/$area"
    target/cargo/release/compare vectors "$area" "target/vectors/$area"
    for side in stdin stdout; do
        cmp "target/vectors/$area/$side" "crates/${area}_vectors/$side"
    done
done
target/cargo/release/compare "$@"
