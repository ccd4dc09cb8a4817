#!/bin/sh
# The oracle's tests, and a short comparison of the proved library with the unchanged Rust: seconds, on the same inputs each time.
set -e
cd "$(dirname "$0")/.."
(cd crates/sumopine && rt lib)
cd oracle
cargo build --release --offline --quiet --workspace
cargo test --release --offline --quiet
cargo run --release --offline --quiet -p library --bin library -- 20000 200 1
cargo run --release --offline --quiet -p library --bin objects -- 50000 1
cargo run --release --offline --quiet -p library --bin announced -- 20000 20000 1
cargo run --release --offline --quiet -p library --bin lookups -- 20000 1
cargo run --release --offline --quiet -p library --bin sheets -- 2000 1
cargo run --release --offline --quiet -p library --bin hit_objects -- 20000 20000 1
echo "oracle: ok"
