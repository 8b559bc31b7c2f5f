#!/usr/bin/env bash
# Builds libtmmbr, its examples and a driver, and compares what the library answers with docs/EXAMPLES.md and with model.py, which
# finds it by the definitions; then prints times. By hand; wants rt, gcc, g++ and python3 on the path, and takes valgrind and
# rustc if they are there.
#
#     bench/tmmbr_c/run.sh [CASES [SEED [STEPS]]]     so many random cases, 20000 if nothing else is said, and changes, 200000
set -euo pipefail
here=$(cd "$(dirname "$0")" && pwd)
top=$(cd "$here/../.." && pwd)
crate=$top/crates/tmmbr_c
cases=${1:-20000}
seed=${2:-1}
steps=${3:-200000}
at=$(mktemp -d)
trap 'rm -rf "$at"' EXIT

(cd "$crate" && rt lib) >"$at/log" 2>&1 || { cat "$at/log" >&2; exit 1; }
"$top/crates/sfu_c/pack" "$crate/out/libtmmbr_c.a" "$at/libtmmbr.a"
flags=(-O2 -Wall -Wextra -Werror -I "$crate/include")

# The library asks the C library for nothing but to move and to fill memory, and to allocate it.
nm "$at/libtmmbr.a" | awk 'NF == 3 { has[$3] = 1 } NF == 2 && $1 == "U" { wants[$2] = 1 } END {
    for (name in wants)
        if (!(name in has) && name !~ /^(mem(cpy|move|set)|malloc|realloc|free)$/) { print "the library wants " name; bad = 1 }
    exit bad }'

# Its numbers are those of the header.
awk '/pub const [A-Z_]+: (u32|usize) = [0-9]+;/ { sub(":", "", $3); sub(";", "", $6); print "TMMBR_" $3, $6 }' \
    "$crate/src/faults.rt" "$top/crates/rate_cert/src/certificate.rt" | sort >"$at/library"
awk '/^#define TMMBR_[A-Z_]+ [0-9]+$/ { print $2, $3 } /^    TMMBR_[A-Z_]+ = [0-9]+,?$/ { sub(",", "", $3); print $1, $3 }' \
    "$crate/include/tmmbr.h" | sort >"$at/header"
diff "$at/library" "$at/header"
echo "numbers: the header's $(grep -c . "$at/header") are the library's"

# As C, C++ and Rust have it, the example prints the same, and docs/EXAMPLES.md has each line of it.
gcc "${flags[@]}" -std=c99 -pedantic -Wconversion -o "$at/announced" "$top/examples/announced.c" "$at/libtmmbr.a"
g++ "${flags[@]}" -x c++ -o "$at/announced_cc" "$top/examples/announced.c" -x none "$at/libtmmbr.a"
"$at/announced" >"$at/printed"
"$at/announced_cc" | cmp - "$at/printed"
echo "c, c++: the same"
if command -v rustc >/dev/null; then
    rustc -O --edition 2021 -o "$at/announced_rs" "$top/examples/announced.rs" -L "$at" -l static=tmmbr
    "$at/announced_rs" | cmp - "$at/printed"
    echo "rust: the same"
fi
cat "$at/printed"
grep -v '^yes$' "$at/printed" | while read -r line; do
    grep -qF "\`$line\`" "$top/docs/EXAMPLES.md" || { echo "docs/EXAMPLES.md has no $line" >&2; exit 1; }
done
[ "$(grep -c . "$at/printed") $(tail -n 1 "$at/printed")" = "4 yes" ]
echo "as docs/EXAMPLES.md says"

gcc "${flags[@]}" -std=c99 -pedantic -o "$at/driver" "$here/driver.c" "$at/libtmmbr.a"
gcc "${flags[@]}" -std=c99 -g -fsanitize=address,undefined -o "$at/driver_asan" "$here/driver.c" "$at/libtmmbr.a"
"$here/model.py" cases "$seed" "$cases" >"$at/cases"
"$at/driver" <"$at/cases" >"$at/out"
"$here/model.py" compare "$at/cases" "$at/out"
"$at/driver_asan" <"$at/cases" | cmp - "$at/out"
echo "with the address sanitizer in the caller: the same"
if command -v valgrind >/dev/null; then
    head -n 1000 "$at/cases" >"$at/some"
    valgrind -q --error-exitcode=9 --leak-check=full "$at/driver" <"$at/some" | cmp - <(head -n 1000 "$at/out")
    valgrind -q --error-exitcode=9 --leak-check=full "$at/announced" | cmp - "$at/printed"
    echo "with valgrind: the same, and no error"
fi

# A state, changed step by step.
gcc "${flags[@]}" -std=c99 -pedantic -o "$at/standing" "$here/standing.c" "$at/libtmmbr.a"
gcc "${flags[@]}" -std=c99 -g -fsanitize=address,undefined -o "$at/standing_asan" "$here/standing.c" "$at/libtmmbr.a"
"$here/steps.py" steps "$seed" "$steps" >"$at/steps"
"$at/standing" <"$at/steps" >"$at/stood"
"$here/steps.py" compare "$at/steps" "$at/stood"
"$at/standing_asan" <"$at/steps" | cmp - "$at/stood"
echo "a state with the address sanitizer in the caller: the same"
if command -v valgrind >/dev/null; then
    head -n 2000 "$at/steps" >"$at/some"
    valgrind -q --error-exitcode=9 --leak-check=full "$at/standing" <"$at/some" >"$at/some_stood"
    head -n "$(grep -c . "$at/some_stood")" "$at/stood" | cmp - "$at/some_stood"
    echo "a state with valgrind: the same, no error, and all memory given back"
fi

gcc "${flags[@]}" -std=gnu99 -o "$at/changes" "$here/changes.c" "$at/libtmmbr.a"
"$at/changes"
gcc "${flags[@]}" -std=gnu99 -o "$at/times" "$here/times.c" "$at/libtmmbr.a" -lpthread
"$at/times"
