#!/usr/bin/env bash
# host/build.sh: lays out the oracle and builds the programs `beside`, `bench` and `drive` at target/host/release.
# Exit status: 0 built, 1 not, 77 where there is no oracle (the reason is printed).
set -euo pipefail
here=$(cd "$(dirname "$0")" && pwd)
"$here/oracle/layout.sh" || exit $?
CARGO_TARGET_DIR=$here/../target/host cargo build --release --offline --quiet --manifest-path "$here/beside/Cargo.toml" || exit 1
