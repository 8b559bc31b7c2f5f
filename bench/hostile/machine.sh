#!/usr/bin/env bash
# Prints what hostile datagrams cost the machine per byte, then has it hear a million by chance. Wants rt on the path.
# Arguments, if any: how many bytes of each kind are timed, how many datagrams are heard, and how often the times are taken.
set -euo pipefail

. "$(dirname "$0")/../program.sh"

begin machine_bench core_steps rate_cert rtcp_compound members
build play 1

# The least time of each kind over all runs, so that what else the machine does weighs on none of them alone.
for _ in $(seq "${3:-9}"); do
    "$program" cost "${1:-500000}"
done | awk '
    !/:/ { pace = $0; next }
    {
        name = $0; sub(/:.*/, "", name)
        line = $0; sub(/[^:]*: /, "", line); split(line, part, / /)
        key = pace SUBSEP name
        if (!(key in heard)) { order[++n] = key; given[key] = line; sub(/[^;]*; /, "", given[key]) }
        if (!(key in heard) || part[1] < heard[key]) heard[key] = part[1]
        if (!(key in moved) || part[6] < moved[key]) moved[key] = part[6]
    }
    END {
        for (i = 1; i <= n; i++) {
            split(order[i], kind, SUBSEP)
            if (kind[1] != last) { print kind[1]; report = heard[order[i]]; last = kind[1] }
            printf "%s: %.1f ns a byte, %.1f times a report; with what was sent %.1f, %.1f times; %s\n", kind[2], heard[order[i]] / 1000,
                heard[order[i]] / report, moved[order[i]] / 1000, moved[order[i]] / report, given[order[i]]
        }
    }'
/usr/bin/time -f "%e s, at most %M KB" "$program" play "${2:-1000000}"
