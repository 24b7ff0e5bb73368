#!/bin/sh
# stack.sh [ARCHIVE.a]: builds the archive, or takes this one, measures the stack of the five calls, and prints a table. It ends with 1 where the
# LV_STACK figures of include/lhakvuni.h are below that, or more than one and a half times of it.
#
# The archive is for x86-64. On another machine: CC='x86_64-linux-gnu-gcc -static' RUN=qemu-x86_64 sh bench/stack.sh
say() { echo "stack: $*" >&2; }

archive=
[ $# -eq 0 ] || archive=$(cd "$(dirname "$1")" && pwd)/$(basename "$1") || exit 1
cd "$(dirname "$0")/.." || exit 1
mkdir -p target/bench
if [ -z "$archive" ]; then
    archive=target/staticlib/liblhakvuni.a
    say "building the archive, and proving what is not proved yet: a line for each crate"
    sh tools/archive.sh >&2 || exit 1
fi
say "compiling target/bench/stack with $archive"
${CC:-cc} -O2 -Iinclude bench/stack.c bench/calls.c bench/families.c "$archive" -o target/bench/stack || exit 1
say "measuring"
exec ${RUN:-} target/bench/stack
