#!/usr/bin/env bash
# Lays out the oracle: fast-tlsh at the commit that NOTICE names, as a crate that cargo builds with nothing from a registry.
#
#   host/oracle/layout.sh          lay it out at target/oracle, from the folder SALTCURTAIN_FAST_TLSH (it holds fast-tlsh/src);
#                                  where that is not set, from ../shared/docs/src beside the project
#
# Exit status: 0 laid out, 77 skipped because the folder is not there (the reason is printed), 1 the files are not the published ones.
#
# The published files are copied and not edited. One of them, compare/utils.rs, was published cut, right after a doc comment, which no
# compiler takes: a line that closes it is put after its last byte. Sums of all files are held to published.sha256 at the end.
# What the published files name and what was not published is filled in: see glue/ and `fill_in` below.
set -euo pipefail
export LC_ALL=C

here=$(cd "$(dirname "$0")" && pwd)
root=$(cd "$here/../.." && pwd)
source=${SALTCURTAIN_FAST_TLSH:-$root/../shared/docs/src}
final=$root/target/oracle
work=$root/target/oracle.new
cut=src/internals/compare/utils.rs

if [ ! -d "$source/fast-tlsh/src" ]; then
    echo "SKIPPED: no fast-tlsh/src in $source (SALTCURTAIN_FAST_TLSH names the folder that holds it), so there is no oracle"
    exit 77
fi

rm -rf "$work"
mkdir -p "$work"
cp -r "$here/glue/." "$work/"
crate=$work/fast-tlsh

# 1. The published files.
while read -r _ file; do
    [ -f "$source/fast-tlsh/$file" ] || { echo "layout: $source/fast-tlsh has no $file" >&2; exit 1; }
    [ ! -e "$crate/$file" ] || { echo "layout: glue stands in the place of $file" >&2; exit 1; }
    mkdir -p "$(dirname "$crate/$file")"
    cp "$source/fast-tlsh/$file" "$crate/$file"
done <"$here/published.sha256"
size=$(stat -c %s "$crate/$cut")
printf 'const _: () = ();\n' >>"$crate/$cut"

# 2. A file for each module that a published file names and that is not there. Where modules below it were published, it names them;
#    else it is empty: tests, documents, and vector code that is never compiled.
fill_in() { # fill_in FILE: the modules that FILE names
    local folder
    case $1 in
        */lib.rs | */mod.rs) folder=$(dirname "$1") ;;
        *) folder=${1%.rs} ;;
    esac
    sed -nE 's/^(pub(\([a-z]+\))? )?mod ([a-z0-9_]+);.*/\3/p' "$1" | while read -r name; do
        [ ! -e "$folder/$name.rs" ] && [ ! -e "$folder/$name/mod.rs" ] || continue
        mkdir -p "$folder"
        {
            echo "//! Filled in by layout.sh: this file was not published."
            for below in "$folder/$name"/*.rs; do
                [ ! -e "$below" ] || echo "pub(crate) mod $(basename "$below" .rs);"
            done
        } >"$folder/$name.rs"
    done
}
while read -r _ file; do fill_in "$crate/$file"; done <"$here/published.sha256"
for page in readme mod; do echo "Filled in by layout.sh: this page was not published." >"$crate/src/_docs/$page.md"; done

# 3. The published files again, now from the layout: each has its published sum, the cut one up to its published size.
while read -r sum file; do
    [ "$file" = "$cut" ] && bytes=$size || bytes=$(stat -c %s "$crate/$file")
    [ "$(head -c "$bytes" "$crate/$file" | sha256sum)" = "$sum  -" ] ||
        { echo "layout: $file is not the published file (its sum is not that of published.sha256)" >&2; exit 1; }
done <"$here/published.sha256"

# 4. Take it over; where nothing changed the old one stays, so that cargo does not build it again.
if diff -rq -x Cargo.lock "$work" "$final" >/dev/null 2>&1; then
    rm -rf "$work"
else
    rm -rf "$final"
    mv "$work" "$final"
fi
echo "oracle: $(wc -l <"$here/published.sha256") published files of fast-tlsh, sums as published, at target/oracle" >&2
