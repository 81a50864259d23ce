#!/usr/bin/env bash
# Runs three nodes in three network namespaces, eight clients, and faults: kills, pauses, partitions, full disks. Then it
# compares the acknowledged writes with the log, and the nodes' tables with two folds of the log. Needs root. Installs missing
# packages.
#
#   AVROREG=PROGRAM examples/replicas/trial.sh [SECONDS [RATE [SEED]]]     default: 60 seconds, 4 writes a second and client, seed 1
#   AVROREG=PROGRAM examples/replicas/trial.sh breaks [NAME]..             breaks the relay, and expects the trial to fail
#
# The status is 0 if there were no losses, duplicates or differences, or if each break was detected. All nodes are on one
# machine here, so no fault affects everything.
set -u
source "$(dirname "$0")/../serving.sh"
source "$examples/replicas/breaks.sh"
here=$examples/replicas
python=/usr/bin/python3
packages python3 python3-h11 etcd-server openssl curl iproute2 e2fsprogs
[ -x "$avroreg" ] || fail "there is no program $avroreg; build it, or name it in AVROREG"
[ "$(id -u)" = 0 ] || fail "network namespaces and mounts need root"
exec 9>/run/avroreg-trial.lock
flock -n 9 || fail "another trial runs on this machine"

if [ "${1:-}" = breaks ]; then
  shift
  try_breaks trial "$*" "$python" "$here/trial/trial.py" "$avroreg" --seconds 20
  exit
fi
"$python" "$here/trial/trial.py" "$avroreg" --seconds "${1:-60}" --rate "${2:-4}" --seed "${3:-1}"
