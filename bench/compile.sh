#!/usr/bin/env bash
# Whether the benchmarks that are programs in Rattle fit the crates as they are: each is compiled before any proof, and runs once, on little.
# One to three minutes each, and more on a busy machine. Wants rt on the path. The status is 0 if each did.
set -uo pipefail

cd "$(dirname "$0")"
failed=0
for script in $(grep -l 'program\.sh' */*.sh); do
    if ONLY_COMPILE=1 "$script" > /dev/null; then
        echo "compile: $script ok"
    else
        echo "compile: $script FAILED"
        failed=1
    fi
done
exit $failed
