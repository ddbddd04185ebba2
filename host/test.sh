#!/usr/bin/env bash
# host/test.sh: the tests of the safe wrapper, and the stored list of the Rust's answers through it. They need no oracle.
set -euo pipefail
here=$(cd "$(dirname "$0")" && pwd)
CARGO_TARGET_DIR=$here/../target/host cargo test --release --offline --manifest-path "$here/Cargo.toml" "$@"
