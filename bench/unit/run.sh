#!/usr/bin/env bash
# Prints the processor time of the unit per packet that is sent on, with sources and sinks in memory, beside a plain loop.
# Wants rt on the path. An argument, if any, is how many packets come in each run; with two more, subscribers and endpoints,
# only that room runs, once, under the command in PROFILER if there is one.
set -euo pipefail

. "$(dirname "$0")/../program.sh"

begin unit_bench workers members
build 1
if [ $# -eq 0 ]; then
    set -- 20000
fi
${PROFILER:-} "$program" "$@"
