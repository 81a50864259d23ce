#!/usr/bin/env bash
# Runs each trial. It prints whether the trial passed, how long it took, and which Debian packages it needs. It installs
# missing packages. The status is 0 if all trials passed.
#
#   AVROREG=PROGRAM trials/all.sh [NAME]..     NAME is in the first column; default: all
#   WHOLE=1 trials/all.sh                      run each trial in full, instead of one session or a few seeds
#
# On a machine with other work, hold_the_line may find that a client waited too long.
set -u
source "$(dirname "$0")/../examples/serving.sh"
[ -x "$avroreg" ] || fail "there is no program $avroreg; build it, or name it in AVROREG"
export AVROREG=$avroreg
chosen=("$@")
cd "$trials" || exit 1

compiler="gcc libc6-dev python3"
if [ -n "${WHOLE:-}" ]; then
  try migrate "$compiler" ./migrate.sh
  try refuse_memory "$compiler" ./refuse_memory.sh memory new old lines
  try faults "$compiler" ./faults.sh
else
  try migrate "$compiler" ./migrate.sh old many lines
  try refuse_memory "$compiler" ./refuse_memory.sh memory
  try faults "$compiler" env SEEDS=1 ./faults.sh new
fi
try kill "python3" python3 kill.py "$avroreg"
try hold_the_line "curl python3-confluent-kafka python3-requests python3-avro" ./hold_the_line.sh
sum_up
