#!/usr/bin/env bash
# Makes each allocation of the built programs fail: first alone, then together with all later ones. Each response must be the
# right one or 50001. A request with 50001 must have no effect. If a run ends early, it must end with `out of memory`. The
# script ends at the first wrong response, and prints how many allocations failed.
#
#   AVROREG=PROGRAM BENCH=PROGRAM trials/refuse_memory.sh [memory|new|old|lines|bench]..
#
# The arguments choose the tests. Without arguments all run:
#
#   memory   sessions in memory
#   new      sessions over a new file
#   old      sessions over a file with a registry
#   lines    command lines
#   bench    the benchmark of schemas, which BENCH names, by default as `rt run` builds it
#
# The folder refuse_memory has the sessions and the command lines. refuse_memory.py describes the comparison.
set -u
source "$(dirname "$0")/../examples/serving.sh"
need cc python3
bench=${BENCH:-$examples/../crates/bench_schemas/out/bench_schemas}
programs=("$avroreg")
# Only `bench` needs the benchmark.
[ $# != 0 ] && [[ " $* " != *" bench "* ]] || programs+=("$bench")
for program in "${programs[@]}"; do
  [ -x "$program" ] || fail "there is no program $program; build it, or name it in AVROREG or BENCH"
done
cc -O1 -shared -fPIC -o "$scratch/refuse.so" "$trials/refuse.c" || fail "refuse.c doesn't compile"
AVROREG=$avroreg BENCH=$bench REFUSER=$scratch/refuse.so python3 "$trials/refuse_memory.py" "$@"
