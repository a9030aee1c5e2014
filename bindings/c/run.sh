#!/usr/bin/env bash
# Builds and runs over the static library the C example and the measure of the stack, and, where there is a C++ compiler, the one with vectors.
# Wants `rt lib` to have been run in crates/masuvelior.
set -euo pipefail
cd "$(dirname "$0")"
library=../../crates/masuvelior/out/libmasuvelior.a
[ -f "$library" ] || { echo "run.sh: no $library: run rt lib in crates/masuvelior first" >&2; exit 1; }
out=../../target/bindings
mkdir -p "$out"
strict=(-pedantic -Wall -Wextra -Werror)
"${CC:-cc}" -std=c99 "${strict[@]}" example.c "$library" -o "$out/example"
"$out/example" expected.txt
# Bound on loading: the loader's own stack is not to be measured.
"${CC:-cc}" -std=c99 "${strict[@]}" -Wl,-z,now stack.c "$library" -o "$out/stack"
"$out/stack"
if command -v "${CXX:-c++}" >/dev/null; then
    for standard in c++11 c++17; do
        "${CXX:-c++}" -std=$standard "${strict[@]}" vectors.cpp "$library" -o "$out/vectors"
        "$out/vectors"
    done
fi
