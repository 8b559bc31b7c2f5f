#!/usr/bin/env bash
# Prints the processor time of `run` per packet that is sent on, by subscribers and by endpoints of the room.
# Wants rt on the path. An argument, if any, is how many packets go out in what is timed at once, about.
set -euo pipefail

. "$(dirname "$0")/../program.sh"

begin core_bench core_steps members thiserror
build 1
# The C library is told to keep what it has: giving memory back and asking for it again would be timed.
MALLOC_TRIM_THRESHOLD_=1073741824 MALLOC_MMAP_THRESHOLD_=1073741824 "$program" "${1:-1024}"
