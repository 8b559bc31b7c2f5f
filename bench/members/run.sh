#!/usr/bin/env bash
# Prints the times of the calls of a room of 256 endpoints and 4,096 legs.
# Wants rt on the path. An argument, if any, is how many calls are timed at once, about.
set -euo pipefail

. "$(dirname "$0")/../program.sh"

begin members_bench members tmmbr_tuple thiserror
build 1
"$program" "${1:-20000}"
