#!/bin/sh
# Builds the second program and tries it: its own tests, the examples, itself as
# another process, and the counts over random scripts. Writes under second/target only.
set -eu
cd "$(dirname "$0")/.."
programs=second/target/release
log=second/target/run-tests.log

cargo build --release --offline --quiet --manifest-path second/Cargo.toml
if ! cargo test --release --offline --quiet --manifest-path second/Cargo.toml >"$log" 2>&1; then
    cat "$log"
    exit 1
fi
try_programs() {
    "$programs/compare" --folder second/target/compare examples "$programs/second" &&
        "$programs/compare" --folder second/target/compare random 0 40 "$programs/second" &&
        "$programs/compare" --folder second/target/compare count 1000
}

if ! try_programs >"$log" 2>&1; then
    cat "$log"
    echo "second: failed"
    exit 1
fi
echo "second: tests, $(sed -n 1p "$log"), $(sed -n 3p "$log")"
