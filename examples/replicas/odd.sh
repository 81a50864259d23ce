#!/usr/bin/env bash
# Sends odd requests to one relay of three, and compares the nodes: no request may be applied past the log, and none may hide
# another one. Installs missing packages.
#
#   AVROREG=PROGRAM examples/replicas/odd.sh [COUNT [SEED]]    default: 2000 random requests, seed 1
#   AVROREG=PROGRAM examples/replicas/odd.sh breaks [NAME]..   breaks the relay, and expects the script to detect it
set -u
source "$(dirname "$0")/../serving.sh"
source "$examples/replicas/breaks.sh"
here=$examples/replicas
python=/usr/bin/python3
packages python3 python3-h11 etcd-server openssl curl
[ -x "$avroreg" ] || fail "there is no program $avroreg; build it, or name it in AVROREG"

if [ "${1:-}" = breaks ]; then
  shift
  try_breaks odd "$*" "$python" "$here/trial/odd.py" "$avroreg"
  exit
fi
"$python" "$here/trial/odd.py" "$avroreg" --count "${1:-2000}" --seed "${2:-1}"
