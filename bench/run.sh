#!/bin/sh
# bench/run.sh [SECONDS [FILTER]]: builds the proved library and its peers, verifies them against the scan, and times all side by side.
# SECONDS: for each cell, all contenders together (2). FILTER: only cells with this in "data operation range k", as "skewed greedy".
# Prints our time and its ratio to each peer's, with the sizes, and draws the plots (without python3: the whole table alone).
# CXX: the compiler, clang++ where it is there. VERIFY_ONLY=1: no timing.
# BEFORE: the libmasuvelior.a of another commit, which then takes part as 'before'.
set -e
cd "$(dirname "$0")"
root=$(cd .. && pwd)
CXX=${CXX:-$(command -v clang++ || command -v g++)}
flags="-std=c++17 -O3 -DNDEBUG -Wall -Wextra -Wno-address"
mkdir -p build

(cd "$root/crates/masuvelior" && rt lib) >build/staticlib.log 2>&1 || { tail build/staticlib.log; exit 1; }
objects=
peer() { # NAME TIGHT FLAGS
  for part in peer weighted boolean rank_set rarest_first; do
    $CXX $flags -DPEER="$1" -DTIGHT="$2" $3 -c $part.cpp -o "build/$1_$part.o"
    objects="$objects build/$1_$part.o"
  done
}
ours() { # NAME CHECKED
  $CXX $flags -DOURS="$1" -DCHECKED="$2" -c ours.cpp -o "build/$1.o"
  objects="$objects build/$1.o"
}
ours opened 0
ours checked 1
peer tight_nopop 1
peer plain_nopop 0
peer tight 1 -mpopcnt
peer plain 0 -mpopcnt

before=
if [ -n "$BEFORE" ]; then
  ./before.sh "$BEFORE" build
  $CXX $flags -DOURS=before -DCHECKED=0 $(awk '{ print "-D" $1 "=" $2 }' build/before.names) -c ours.cpp -o build/before.o
  objects="$objects build/before.o build/before.a"
  # The questions that it lacks are not asked of it.
  lacks=
  for op in BOOLEAN RANK_SET RAREST_FIRST; do
    grep -qi "^masuvelior_$op " build/before.names || lacks="$lacks$op,"
  done
  before="-DBEFORE -DBEFORE_LACKS=$lacks"
fi

# sdsl, without and with the popcount instruction. The two share the names of templates: each becomes one object in which only its entry is seen.
sdsl=
library=$($CXX -print-file-name=libsdsl.a)
if [ -f "$library" ]; then
  sdsl=-DSDSL
  for way in plain popcnt; do
    object=build/sdsl_$way.o
    if [ ! "$object" -nt sdsl.cpp ] || [ ! "$object" -nt contender.h ] || [ ! "$object" -nt terms.h ] || [ ! "$object" -nt question.h ]; then
      suffix=" nopop"
      more=
      [ $way = popcnt ] && suffix="" && more=-msse4.2
      $CXX $flags -w -funroll-loops $more -DSDSL_ENTRY=sdsl_$way "-DSDSL_SUFFIX=\"$suffix\"" -c sdsl.cpp -o build/sdsl_$way.own.o
      ld -r --force-group-allocation -o build/sdsl_$way.all.o build/sdsl_$way.own.o "$library"
      objcopy --keep-global-symbol=sdsl_$way build/sdsl_$way.all.o "$object"
    fi
    objects="$objects $object"
  done
else
  echo "no libsdsl.a (package libsdsl-dev): sdsl is left out"
fi

$CXX $flags -c scan.cpp -o build/scan.o
$CXX $flags $sdsl $before run.cpp build/scan.o $objects "$root/crates/masuvelior/out/libmasuvelior.a" -o build/run
build/run verify
[ -z "$VERIFY_ONLY" ] || exit 0
build/run time "${1:-2}" build/results.csv build/openings.csv ${2:+"$2"} >build/results.md
if command -v python3 >/dev/null; then
  ./summary.py | tee build/summary.md
  ./plot.py
else
  cat build/results.md
fi
