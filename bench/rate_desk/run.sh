#!/usr/bin/env bash
# Prints the size of a Desk, and the times of a pulse of each publisher of a quiet house and of a request of four threads.
# Wants rt on the path. An argument, if any, is how many rounds and requests of each thread are timed at once.
set -euo pipefail

. "$(dirname "$0")/../program.sh"

begin desk_bench rate_desk tmmbr_tuple thiserror
mkdir -p "$bench/proofs/measure"
cp "$here/measure.invariants" "$bench/proofs/measure/Invariants.antt"
build 1
"$program" "${1:-2000}"
