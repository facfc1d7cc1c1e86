#!/usr/bin/env bash
# The benchmark: proves the engine's static library and the program time_shelf, then times print, try, up and down beside
# the Rust twin's on the same sheets, and judge from a shelf and put beside judge by value, as ratios.
set -euo pipefail
cd "$(dirname "${BASH_SOURCE[0]}")/.."
(cd crates/engine && rt lib)
(cd crates/time_shelf && rt run <stdin >/dev/null)
cargo run --offline --quiet --release --manifest-path host/Cargo.toml --bin bench
