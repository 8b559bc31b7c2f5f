#!/usr/bin/env bash
# Times parse + rewrite of a 1,200-byte datagram, by rtp_packet and by plain.rs, and prints the ratio.
# Wants rt and rustc on the path. An argument, if any, is how many rounds a run has (two datagrams each).
set -euo pipefail

. "$(dirname "$0")/../program.sh"

rounds=${1:-1000000}
size=1200
runs=15

begin rtp_bench rtp_packet tmmbr_tuple byteorder thiserror
build 1 "$size"
rustc -O -o "$work/plain" "$here/plain.rs"

# The two take turns, so that what else the machine does falls on both; the least time of each counts.
for _ in $(seq "$runs"); do
    "$program" "$rounds" "$size" | sed 's/^/rattle /'
    "$work/plain" "$rounds" "$size" | sed 's/^/plain /'
done | awk -v rounds="$rounds" '
    NF != 3 || (NR > 1 && $3 != sum) { print "unlike results: " $0; bad = 1; exit 1 }
    { sum = $3; if (!($1 in least) || $2 < least[$1]) least[$1] = $2 }
    END {
        if (bad) exit 1
        rattle = least["rattle"] / (2 * rounds)
        plain = least["plain"] / (2 * rounds)
        printf "rtp_packet %.1f ns, plain Rust %.1f ns, ratio %.2f\n", rattle, plain, rattle / plain
    }'
