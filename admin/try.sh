#!/usr/bin/env bash
# Tests avroreg-admin:
#
#   parts       its modules, without processes
#   commands    its commands, with a child process that serves
#   copies      hot copies while a log begins anew, a checkpoint runs or the server is killed, and under load
#   kills       restore and lost-ids killed before some of their effects, then continued or undone
#   all-kills   the same before and after each effect; it takes half an hour
#   breaks      each module broken at some places: a test has to fail; it takes ten minutes
#
#   AVROREG=PROGRAM admin/try.sh [PART]..     default: the first four
#
# Needs Python 3.11 and the program; no root and no systemd. packaging/try.sh tries it under a booted systemd.
set -u
cd "$(dirname "$0")" || exit 2
export AVROREG=${AVROREG:-$PWD/../crates/avroreg/out/avroreg}
AVROREG=$(realpath "$AVROREG")
[ -x "$AVROREG" ] || { echo "admin/try.sh: there is no program $AVROREG; build it, or name it in AVROREG" >&2; exit 1; }
scratch=$(mktemp -d)
trap 'rm -rf "$scratch"' EXIT
status=0
for part in ${*:-parts commands copies kills}; do
  case $part in
    parts) python3 -m unittest discover -s tests || status=1 ;;
    commands) python3 -m unittest discover -s tests/commands || status=1 ;;
    copies)
      mkdir "$scratch/certain" "$scratch/load"
      python3 tests/copies/certain.py "$scratch/certain" && python3 tests/copies/trial.py 4 "$scratch/load" || status=1
      ;;
    kills) python3 tests/kills.py --every 9 || status=1 ;;
    all-kills) python3 tests/kills.py --after || status=1 ;;
    breaks) python3 tests/breaks.py || status=1 ;;
    *) echo "admin/try.sh: there is no part $part" >&2; status=1 ;;
  esac
done
exit $status
