#!/usr/bin/env bash
# Runs the wrong programs: with each must-fail edit of code (of the crates named, or of all) `drive` must answer a script wrongly.
set -euo pipefail
cd "$(dirname "${BASH_SOURCE[0]}")/.."
(cd crates/engine && rt lib)
cargo run --offline --quiet --release --manifest-path host/Cargo.toml --bin wrong -- "$@"
