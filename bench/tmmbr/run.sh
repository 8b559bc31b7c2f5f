#!/usr/bin/env bash
# libtmmbr beside the heuristic of RFC 5104, section 3.5.4.2, on the same random sets; and many random sets through libtmmbr,
# bench/tmmbr_c's model and `sfu bound`. By hand; wants rt, gcc, g++ and python3, and for the last part the program that ./sfu makes,
# or another one that SFU names.
#
#     bench/tmmbr/run.sh [SETS [SEED [RUNS]]]
#
# So many sets go through the model, 20000 if nothing else is said, and the first RUNS of them through `sfu bound`, 1000 if nothing
# else is said: a run of the program for each, two at a time. 1000000 take a quarter hour in the model, and as long as runs.
set -euo pipefail
here=$(cd "$(dirname "$0")" && pwd)
top=$(cd "$here/../.." && pwd)
crate=$top/crates/tmmbr_c
sets=${1:-20000}
seed=${2:-1}
runs=${3:-1000}
at=$(mktemp -d)
trap 'rm -rf "$at"' EXIT

(cd "$crate" && rt lib) >"$at/log" 2>&1 || { cat "$at/log" >&2; exit 1; }
library=$at/libtmmbr.a
"$top/crates/sfu_c/pack" "$crate/out/libtmmbr_c.a" "$library"
g++ -std=c++17 -O2 -Wall -Wextra -Werror -I "$crate/include" -o "$at/compare" "$here/compare.cc" "$library"
"$at/compare" 10000 "$seed"

gcc -O2 -std=c99 -I "$crate/include" -o "$at/driver" "$top/bench/tmmbr_c/driver.c" "$library"
"$here/sets.py" make "$seed" "$sets" >"$at/sets"
"$at/driver" <"$at/sets" >"$at/out"
"$here/sets.py" model "$at/sets" "$at/out"
program=${SFU:-$top/crates/sfu_main/out/sfu_main}
if [ -x "$program" ]; then
    gcc -O2 -std=gnu99 -Wall -Wextra -Werror -I "$crate/include" -o "$at/bound" "$here/bound.c" "$library"
    "$at/bound" "$at/sets" "$program" "$runs" 2
    gcc -O2 -std=c99 -pedantic -Wall -Wextra -Werror -I "$crate/include" -o "$at/announcer" "$top/examples/c/announcer.c" "$library"
    "$here/announcer.py" "$at/announcer" "$program" 300 "$seed"
fi
