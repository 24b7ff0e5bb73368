#!/bin/sh
# archive.sh: proves the calls and builds target/staticlib/liblhakvuni.a, the archive that C programs link with include/lhakvuni.h.
cd "$(dirname "$0")/.." || exit 1
(cd crates/lhakvuni_c && rt lib) || exit 1
mkdir -p target/staticlib && cp crates/lhakvuni_c/out/liblhakvuni_c.a target/staticlib/liblhakvuni.a
