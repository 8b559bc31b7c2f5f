#!/usr/bin/env bash
# Prints the time that a ring of 512 packets takes to look up all that a NACK of 64 KB names, and to keep a packet; then the
# time and the memory that the rings of the greatest room take.
# Wants rt on the path. An argument, if any, is how many NACKs are timed at once.
set -euo pipefail

. "$(dirname "$0")/../program.sh"

begin ring_bench resend_ring rewrite rtcp_feedback rtcp_compound tmmbr_tuple bumpalo byteorder arrayvec circular_buffer thiserror
build 1
"$program" "${1:-10}"
for capacity in 8 64 512; do
    "$program" rings "$capacity"
done
