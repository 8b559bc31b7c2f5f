# Sourced by the benchmarks that are programs in Rattle. Each has a repository of its own, under /tmp, so that the program is no
# crate of this one; what earlier checks kept in out/ comes with the copies. Wants rt on the path.
#
#     begin NAME DEP..    the repository: the program NAME, which is main.rattle beside the script, uses DEP..
#     build ARGUMENT..    proves it and builds it with LLVM, as the file $program; it runs once, with these arguments
#
# With ONLY_COMPILE set the script ends there: the program is compiled before any proof, and runs once (bench/compile.sh does that for each).
#
# Between the two, $work is the repository and $bench the program's crate.

here=$(cd "$(dirname "$0")" && pwd)
top=$(cd "$here/../.." && pwd)

# The crates of this repository that DEP.. are or use, in the order of crates.txt.
needed() {
    awk -F': *' -v deps="$*" '
        /^[a-z_]+:/ { crate[++n] = $1; uses[n] = $2 }
        END {
            for (i = split(deps, dep, " "); i > 0; i--) want[dep[i]]
            do {
                more = 0
                for (k = n; k > 0; k--)
                    if (crate[k] in want)
                        for (i = split(uses[k], dep, " "); i > 0; i--)
                            if (!(dep[i] in want)) { want[dep[i]]; more = 1 }
            } while (more)
            for (k = 1; k <= n; k++) if (crate[k] in want) print crate[k]
        }' "$top/crates.txt"
}

begin() {
    local name=$1 crate
    shift
    work=$(mktemp -d "/tmp/$name.XXXXXX")
    trap 'rm -rf "$work"' EXIT
    bench=$work/crates/$name
    program=$bench/out/$name
    mkdir -p "$bench/src"
    cp "$here/main.rattle" "$bench/src/main.rt"
    cp "$top/HANDLES" "$work/"
    for crate in $(needed "$@"); do
        cp -a "$top/crates/$crate" "$work/crates/"
        grep "^$crate:" "$top/crates.txt"
    done > "$work/crates.txt"
    echo "$name: $*" >> "$work/crates.txt"
}

build() {
    if [ -n "${ONLY_COMPILE:-}" ]; then
        (cd "$bench" && rt try --seconds 600 -- "$@") > "$work/log" 2>&1 && exit
        cat "$work/log" >&2
        exit 1
    fi
    (cd "$bench" && rt run -- "$@") > "$work/log" 2>&1 && return
    cat "$work/log" >&2
    exit 1
}
