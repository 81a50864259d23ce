#!/usr/bin/env bash
# Migrates files of layout 1 to layout 2 with the built program. The last program of layout 1 made some of the files, and
# sqlite3 the others. Each row must stay, and each retry key must get its kept reply, byte for byte. The script ends at the
# first wrong response, and prints how many files it migrated.
#
#   AVROREG=PROGRAM trials/migrate.sh [old|many|lines|memory|stops]..
#   SEEDS=30 trials/migrate.sh stops     30 random losses for each kill, instead of 5
#
# The arguments choose the tests. Without arguments all run:
#
#   old      the files in old-files
#   many     a file with 3,000 keys
#   lines    each line that migrate prints
#   memory   each allocation fails in turn
#   stops    each disk call fails, or the program is killed in it; the file must have one layout or the other
#
# migrate.py describes the comparison.
set -u
source "$(dirname "$0")/../examples/serving.sh"
need cc python3
[ -x "$avroreg" ] || fail "there is no program $avroreg; build it, or name it in AVROREG"
for library in faults refuse; do
  cc -O1 -shared -fPIC -o "$scratch/$library.so" "$trials/$library.c" || fail "$library.c doesn't compile"
done
AVROREG=$avroreg FAULTS=$scratch/faults.so REFUSER=$scratch/refuse.so python3 "$trials/migrate.py" "$@"
