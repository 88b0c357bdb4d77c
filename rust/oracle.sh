#!/bin/sh
# Builds the crate indextree 4.9.2 from its text: rust/oracle.sh SRC OUT
# SRC is the folder of that text (arena.rs, error.rs, id.rs, lib.rs, node.rs, relations.rs, siblings_range.rs, traverse.rs); it is only
# read. OUT gets src/, a copy with what rust/oracle/ adds, and libindextree.rlib, for the same machine as rust/run builds for.
set -eu
[ $# -eq 2 ] || { echo "usage: rust/oracle.sh SRC OUT" >&2; exit 2; }
src=$1
out=$2
here=$(cd "$(dirname "$0")" && pwd -P)
. "$here/machine.sh"
for f in arena error id lib node relations siblings_range traverse; do
    [ -f "$src/$f.rs" ] || { echo "rust/oracle.sh: $src/$f.rs is missing; SRC is the folder with the text of indextree 4.9.2" >&2; exit 2; }
done
rm -rf "$out/src"
mkdir -p "$out/src"
for f in error lib node relations siblings_range traverse; do
    cp "$src/$f.rs" "$out/src/$f.rs"
done
# These two as they stand, and behind them a door to fields that are private to their modules.
for f in id arena; do
    cat "$src/$f.rs" "$here/oracle/${f}_words.rs" > "$out/src/$f.rs"
done
# What a load does to the free chain is there for serde only: built without it.
sed '/cfg(feature = "serde")/ { N; /fn unlink_exhausted_free_slots/ s/^[^\n]*\n//; }' "$out/src/arena.rs" > "$out/src/arena.new"
mv "$out/src/arena.new" "$out/src/arena.rs"
# A module that SRC leaves out: only its name is needed.
cp "$here/oracle/debug_pretty_print.rs" "$out/src/debug_pretty_print.rs"
chmod -R u+w "$out/src"
# shellcheck disable=SC2086
$rustc --crate-name indextree --crate-type rlib --edition 2024 -C opt-level=3 -C codegen-units=1 \
    --cfg 'feature="std"' --cap-lints allow -o "$out/libindextree.rlib" "$out/src/lib.rs"
