#!/bin/sh
# Builds the static library and tries it from C, C++ and Python: the layout of its structs, the rows of the formats, wrong
# structs, random payloads, with the sanitizers of the C side and under valgrind. Wants rt, gcc, clang, g++, valgrind, python3.
# The argument says how many random payloads are tried; 1,000,000 without one.
set -eu
top=$(cd "$(dirname "$0")/../.." && pwd)
here=$top/checks/c-library
payloads=${1:-1000000}
work=$(mktemp -d)
trap 'rm -rf "$work"' EXIT

(cd "$top/crates/adsc_c" && rt lib >"$work/lib.log" 2>&1) || { cat "$work/lib.log"; exit 1; }
library=$top/crates/adsc_c/out/libadsc_c.a
strict="-Wall -Wextra -Wpedantic -Werror -O2 -I $top/include -I $here"

for compiler in gcc clang; do
    $compiler -std=c11 $strict -o "$work/vectors_$compiler" "$here/vectors.c" "$library"
    "$work/vectors_$compiler" "$payloads"
done
g++ -std=c++17 $strict -x c++ -fsyntax-only "$here/layout.h"
clang++ -std=c++17 $strict -x c++ -fsyntax-only "$here/layout.h"

gcc -std=c11 $strict -fsanitize=address,undefined -fno-sanitize-recover=all -o "$work/sanitized" "$here/vectors.c" "$library"
"$work/sanitized" "$payloads"
valgrind -q --error-exitcode=9 "$work/vectors_gcc" 20000

gcc -std=c11 $strict -o "$work/timing" "$here/timing.c" "$library"
"$work/timing"

gcc -std=c11 $strict -o "$work/demand" "$top/examples/c/demand.c" "$library"
"$work/demand" | diff - "$top/examples/c/demand.output"

gcc -shared -o "$work/libadsc.so" -Wl,--whole-archive "$library" -Wl,--no-whole-archive -Wl,-z,defs
python3 "$top/examples/python/decode.py" "$work/libadsc.so" | diff - "$top/examples/python/decode.output"
echo "c-library: all hold"
