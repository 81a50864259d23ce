#!/usr/bin/env bash
# Makes each disk call of the built program fail in turn: with an error once or permanently, or with a full disk in the middle
# of a write. Or it kills the program there, and loses a part of the unsynced writes.
#
# Each response must be the right one or 50001. Each acknowledged write must be found, and the same requests must then get the
# same responses. It ends at the first wrong response, and prints how many runs it tried.
#
#   AVROREG=PROGRAM trials/faults.sh [new|closed|log|long]..
#   SEEDS=5 trials/faults.sh     5 random losses for each kill, instead of 30
#   LIE=1 trials/faults.sh       over a disk that doesn't sync: the script must find a wrong response, and end with status 1
#
# The arguments choose the session's first state. Without arguments, all are tried:
#
#   new      no file
#   closed   a file with half of the session
#   log      the same with the log of a killed run
#   long     a file with a log so long that the session causes a checkpoint
#
# The session is in the folder faults. faults.py describes the comparison.
set -u
source "$(dirname "$0")/../examples/serving.sh"
need cc python3
[ -x "$avroreg" ] || fail "there is no program $avroreg; build it, or name it in AVROREG"
cc -O1 -shared -fPIC -o "$scratch/faults.so" "$trials/faults.c" || fail "faults.c doesn't compile"
AVROREG=$avroreg FAULTS=$scratch/faults.so python3 "$trials/faults.py" "$@"
