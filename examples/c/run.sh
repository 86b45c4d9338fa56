#!/usr/bin/env bash
# run.sh: holds the header to C11 and C++17 with all warnings, builds the example over the proved static library, runs it, and
# compares what it writes with pallet.out. CC, CXX, CFLAGS and LDFLAGS are heeded.
set -eu
here=$(cd "$(dirname "$0")" && pwd)
root=$(cd "$here/../.." && pwd)
. "$root/tools/need.sh"
need_cc
if [ -z "$on" ]; then need "$cxx" g++; else need "$cxx" g++-x86-64-linux-gnu; fi
need_archive "$root"
out=$root/target/c
mkdir -p "$out"

warn="-Wall -Wextra -Wpedantic -Wconversion -Wshadow -Wundef -Werror -I $root/include"
$cc -std=c11 $warn -Wstrict-prototypes -fsyntax-only "$here/layout.c"
$cxx -x c++ -std=c++17 $warn -fsyntax-only "$here/layout.c"
echo "include/ashwoodrung.h: C11 and C++17, no warning"

$cc -std=c11 -O2 $warn ${CFLAGS:-} "$here/pallet.c" "$root/target/staticlib/libashwoodrung.a" ${LDFLAGS:-} -o "$out/pallet"
if $on "$out/pallet" | diff "$here/pallet.out" -; then
    echo "examples/c/pallet.c: wrote what pallet.out has"
else
    echo "examples/c/pallet.c: wrote something else than pallet.out" >&2
    exit 1
fi
