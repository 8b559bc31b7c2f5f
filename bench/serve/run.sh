#!/usr/bin/env bash
# Measures `sfu serve`, or another program that takes the same words, beside a plain loop. Wants rustc, and the program built (./sfu).
#
#     run.sh [--runs N] [--rules FILE] [PART..] [PROGRAM]
#
# The parts are cost, paced, audio, rtcp, delay, workers, idle and memory; without one all are measured, in some eight minutes. With --rules the
# program has the rules of that file of settings.
set -euo pipefail

here=$(cd "$(dirname "$0")" && pwd)
top=$(cd "$here/../.." && pwd)

work=$(mktemp -d /tmp/bench_serve.XXXXXX)
trap 'rm -rf "$work"' EXIT
rustc --edition 2021 -O -o "$work/plain" "$here/plain.rs"
rustc --edition 2021 -O -o "$work/load" "$here/load/main.rs"
"$work/load" "$work/plain" "$top/sfu" "$@"
