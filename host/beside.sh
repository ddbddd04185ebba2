#!/usr/bin/env bash
# host/beside.sh [WORDS]: the port beside the Rust and the C++; `host/beside.sh help` lists the words.
# Exit status: 0 no difference that is not listed, 1 some (or it does not build), 2 bad usage, 77 skipped for want of the oracle.
set -euo pipefail
here=$(cd "$(dirname "$0")" && pwd)
"$here/build.sh" || exit $?
exec "$here/../target/host/release/beside" "$@"
