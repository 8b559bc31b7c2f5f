#!/usr/bin/env bash
# Prints the size of Bounds and the time of one change of the live requests, at 1, 4, 16, 64 and 256 of them: a whole
# Bounds::set, the envelope changed in place alone, and the plain walk alone.
# Wants rt on the path. An argument, if any, is how many changes are timed at once, about.
set -euo pipefail

. "$(dirname "$0")/../program.sh"

begin bounding_bench bounding_set rate_cert tmmbr_tuple arrayvec thiserror
# The copy of bounding_set shows two parts of it alone.
copy=$work/crates/bounding_set
cp "$here/in_place.rattle" "$copy/src/in_place.rt"
cp "$here/plain.rattle" "$copy/src/plain.rt"
printf '\npub mod in_place;\npub mod plain;\n' >> "$copy/src/lib.rt"
mkdir -p "$copy/proofs/plain/replace_row"
cp "$here/replace_row.answers" "$copy/proofs/plain/replace_row/Answers.antt"
build 1
"$program" "${1:-20000}"
