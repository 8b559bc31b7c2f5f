#!/usr/bin/env bash
# Prints the time per byte of datagrams that `sfu bound` takes for what a hostile sender may send, and how
# many times that of plain reports it is. Wants sfu built (./sfu). An argument, if any, is how many MB each input has.
set -euo pipefail

here=$(cd "$(dirname "$0")" && pwd)
top=$(cd "$here/../.." && pwd)
size=${1:-16}
runs=5

work=$(mktemp -d /tmp/bench_hostile.XXXXXX)
trap 'rm -rf "$work"' EXIT

# The same text so many times.
repeat() { printf "%0.s$2" $(seq "$1"); }

# A file of this line again and again, about so many MB.
input() {
    local line count
    line=$(cat)
    count=$(( size * 1000000 / (${#line} + 1) + 1 ))
    head -n "$count" < <(yes "$line") > "$work/$1"
}

# A receiver report of 17 with one block.
printf '81c9000700000011000000100000000000000008000000a8000a80000000147a' | input report
# A TMMBR of 17 with 8,000 entries: of another media sender, and of the one that is asked for.
{ printf '83cd3e82''00000011''00000000'; repeat 8000 '000000020007d028'; } | input tmmbr_of_others
{ printf '83cd3e82''00000011''00000000'; repeat 8000 '000000010007d028'; } | input tmmbr
# A source description of 65,000 bytes: one source with 32,494 items without text, and four bytes of zeros.
{ printf '81ca3f79''00000011'; repeat 32494 '0100'; printf '00000000'; } | input sdes
# 16,000 packets of four bytes, of no known type.
repeat 16000 '80cc0000' | input compound
# 8,000 goodbyes of one source.
repeat 8000 '81cb000100000012' | input goodbyes

for name in report tmmbr_of_others tmmbr sdes compound goodbyes; do
    for _ in $(seq "$runs"); do
        start=$(date +%s%N)
        "$top/sfu" bound --sender 1 < "$work/$name" > "$work/out"
        end=$(date +%s%N)
        echo "$name $(stat -c %s "$work/$name") $((end - start))"
    done
done | awk '
    { each = $3 / ($2 / 2); if (!($1 in least)) order[++n] = $1; if (!($1 in least) || each < least[$1]) least[$1] = each }
    END { for (i = 1; i <= n; i++) printf "%s: %.2f ns a byte, %.1f times a report\n", order[i], least[order[i]], least[order[i]] / least["report"] }'
