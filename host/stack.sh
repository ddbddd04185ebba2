#!/usr/bin/env bash
# host/stack.sh: how deep each entry point goes into the stack, for each variant and several lengths, by painting it (stack.c).
# It needs gcc and the static library (`tools/build saltcurtain`), and no oracle. Every symbol is bound at the start (`-z now`), so
# that the dynamic linker's own depth is not measured. Exit status: 1 it does not build or a call is refused, 77 there is no gcc.
set -euo pipefail
here=$(cd "$(dirname "$0")" && pwd)
root=$here/..
if ! command -v gcc >/dev/null; then
    echo "SKIPPED: there is no gcc"
    exit 77
fi
archive=$root/${SALTCURTAIN_LIB:-target/staticlib}/libsaltcurtain.a
case ${SALTCURTAIN_LIB:-} in /*) archive=$SALTCURTAIN_LIB/libsaltcurtain.a ;; esac
mkdir -p "$root/target/host"
gcc -std=c11 -O2 -Wall -Wextra -Werror -I"$root/include" "$here/stack.c" "$archive" -pthread -Wl,-z,now -o "$root/target/host/stack"
exec "$root/target/host/stack"
