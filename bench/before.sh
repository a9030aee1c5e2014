#!/bin/sh
# The library of another commit, its functions under other names: before.sh LIBRARY FOLDER writes before.a, and before.names with the names, old and new.
set -e
nm -g --defined-only "$1" | awk '$2 == "T" { print $3, "before_" $3 }' >"$2/before.names"
objcopy --redefine-syms="$2/before.names" "$1" "$2/before.a"
