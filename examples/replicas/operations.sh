#!/usr/bin/env bash
# Tests each operation of README.md on three nodes of this machine's loopback. Installs missing packages.
#
#   AVROREG=PROGRAM examples/replicas/operations.sh [NAME]..
#   AVROREG=PROGRAM examples/replicas/operations.sh breaks [NAME]..   breaks the relay or nginx.conf, and expects the script to detect it
set -u
source "$(dirname "$0")/../serving.sh"
source "$examples/replicas/breaks.sh"
here=$examples/replicas
python=/usr/bin/python3
packages python3 python3-h11 etcd-server openssl curl nginx
[ -x "$avroreg" ] || fail "there is no program $avroreg; build it, or name it in AVROREG"

if [ "${1:-}" = breaks ]; then
  shift
  try_breaks clients "$*" "$python" "$here/trial/operations.py" "$avroreg" clients
  exit
fi
"$python" "$here/trial/operations.py" "$avroreg" "$@"
