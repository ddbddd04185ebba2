#!/usr/bin/env bash
# host/callgrind.sh: instructions a byte at chunks of 64 KiB, for each variant, of the port and of the Rust, counted by callgrind.
# Two digests that differ in their number of chunks alone are counted; the difference is what the added chunks take.
# Exit status: 77 skipped for want of the oracle or of valgrind.
set -euo pipefail
here=$(cd "$(dirname "$0")" && pwd)
if ! command -v valgrind >/dev/null; then
    echo "SKIPPED: no valgrind (Debian's valgrind has it)"
    exit 77
fi
"$here/build.sh" || exit $?

count() { # count SIDE VARIANT CHUNKS: instructions of the whole process
    valgrind --tool=callgrind --callgrind-out-file=/dev/null "$here/../target/host/release/drive" "$@" 2>&1 |
        sed -n 's/.*Collected : *//p'
}
few=2 many=10
echo "| Variant | Port, instructions a byte | Rust | Port over Rust |"
echo "|---|---|---|---|"
for variant in 48 128 256; do
    line=$variant
    for side in port rust; do
        line+=" $(($(count $side $variant $many) - $(count $side $variant $few)))"
    done
    echo "$line" | awk -v bytes=$(((many - few) * 65536)) '{printf "| %s | %.2f | %.2f | %.2f |\n", $1, $2 / bytes, $3 / bytes, $2 / $3}'
done
