#!/usr/bin/env bash
# host/bench.sh [PROCESSES [PART]]: the benchmark in several processes (7), each with its addresses not randomised, and a table of
# medians and ratios; with a part of a name, the workloads that have it in theirs. What each process measured is left in
# target/host/bench.txt. Exit status: 77 skipped for want of the oracle.
set -euo pipefail
here=$(cd "$(dirname "$0")" && pwd)
"$here/build.sh" || exit $?
bench=$here/../target/host/release/bench
out=$here/../target/host/bench.txt
: >"$out"
for _ in $(seq "${1:-7}"); do
    setarch -R "$bench" run "${@:2:1}" >>"$out"
done
"$bench" summary <"$out"
