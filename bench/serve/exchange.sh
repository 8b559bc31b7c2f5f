#!/usr/bin/env bash
# Has two endpoints exchange packets through `sfu serve` over IPv4 and over IPv6, and compares all that comes. Wants the
# program built (./sfu) and rustc. An argument, if any, is how many packets are exchanged.
set -euo pipefail

here=$(cd "$(dirname "$0")" && pwd)
top=$(cd "$here/../.." && pwd)
packets=${1:-100000}

work=$(mktemp -d /tmp/bench_exchange.XXXXXX)
trap 'rm -rf "$work"' EXIT
rustc --edition 2021 -O -o "$work/exchange" "$here/exchange.rs"
for address in 127.0.0.1 ::1; do
    echo "over $address"
    TMPDIR=$work "$work/exchange" "$packets" "$address" "$top/sfu"
done
