#!/bin/sh
# run.sh [OLD.a] [FAMILY]: builds the archive, times the five calls on every family of tables, or on one, and prints the table of
# docs/BENCHMARK.md. Held against an older archive, each row has the times of both, and how many times as long the older took at 4n.
#
# The archive is for x86-64. On another machine: CC='x86_64-linux-gnu-gcc -static' RUN=qemu-x86_64 sh bench/run.sh
say() { echo "bench: $*" >&2; }

old=
case ${1:-} in
*.a)
    old=$(cd "$(dirname "$1")" && pwd)/$(basename "$1") || exit 1
    shift
    ;;
esac
cd "$(dirname "$0")/.." || exit 1
out=target/bench
mkdir -p "$out"

# compile PROGRAM ARCHIVE
compile() {
    say "compiling $out/$1 with $2"
    ${CC:-cc} -O2 -Iinclude bench/bench.c bench/calls.c bench/families.c "$2" -o "$out/$1"
}

say "building the archive, and proving what is not proved yet: a line for each crate"
sh tools/archive.sh >&2 || exit 1
compile now target/staticlib/liblhakvuni.a || exit 1
if [ -z "$old" ]; then
    say "timing"
    exec ${RUN:-} "$out/now" "$@"
fi

compile before "$old" || exit 1
say "timing $old"
${RUN:-} "$out/before" "$@" > "$out/before.md" || exit 1
say "timing target/staticlib/liblhakvuni.a"
${RUN:-} "$out/now" "$@" > "$out/now.md" || exit 1

# The columns of a row: 2 family, 3 call, 4 to 6 the times, 10 the value. The first two lines are the head.
awk -F ' *[|] *' '
    FNR == NR { for (i = 4; i <= 6; i++) before[$2, $3, i] = $i; next }
    FNR == 1 { print "| family | call | n: ms before | now | 2n: ms before | now | 4n: ms before | now | 4n: before / now | value at 4n |" }
    FNR == 2 { print "|---|---|---|---|---|---|---|---|---|---|" }
    FNR > 2 {
        row = "| " $2 " | " $3
        for (i = 4; i <= 6; i++) row = row " | " before[$2, $3, i] " | " $i
        ratio = ($6 > 0) ? sprintf("%.1f", before[$2, $3, 6] / $6) : "-"
        print row " | " ratio " | " $10 " |"
    }' "$out/before.md" "$out/now.md"
