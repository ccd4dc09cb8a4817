#!/bin/sh
# Builds the proved library and the Rust, and prints the tables of docs/PERFORMANCE.md. Arguments go to the program: see bench/README.md.
set -e
cd "$(dirname "$0")/.."
(cd crates/sumopine && rt lib) >&2
cd oracle
cargo build --release --offline --quiet -p bench >&2
echo "$(date -u +%Y-%m-%d), $(sed -n 's/^model name[^:]*: *//p' /proc/cpuinfo | head -n 1), $(rustc --version)"
echo
exec cargo run --release --offline --quiet -p bench -- "$@"
