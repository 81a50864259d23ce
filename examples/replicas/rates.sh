#!/usr/bin/env bash
# Measures writes and reads a second, of a single avroreg and of three nodes in turn. Installs missing packages.
#
#   AVROREG=PROGRAM examples/replicas/rates.sh [SECONDS [ROUNDS]]     default: 3 rounds of 2 seconds for each figure, five minutes in all
set -u
source "$(dirname "$0")/../serving.sh"
packages python3 python3-h11 etcd-server openssl curl nginx
[ -x "$avroreg" ] || fail "there is no program $avroreg; build it, or name it in AVROREG"
/usr/bin/python3 "$examples/replicas/trial/rates.py" "$avroreg" "$@"
