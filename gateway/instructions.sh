#!/usr/bin/env bash
# Counts the instructions of nginx for a request without and with the gateway, with 1, 8 and 64 clients and without limits. Other
# programs of a busy machine don't change the count, as they do with rates.sh, which explains the kinds. callgrind doesn't count the
# kernel's instructions. The system calls are the same on both sides, so with them the ratio is nearer to 1.
#
#   AVROREG=PROGRAM gateway/instructions.sh [KIND..]     default: all kinds
#
# Needs valgrind, wrk, nginx with njs, and curl. The status is 0 if nginx without the gateway needs at least 0.95 times the
# instructions, 0.8 for schemas by id.
set -u
source "$(dirname "$0")/../examples/serving.sh"
need valgrind wrk curl /usr/sbin/nginx
start_tries=6000 # nginx starts slowly under callgrind
kinds=("$@")
[ ${#kinds[@]} != 0 ] || kinds=(id latest list lookup parameters check known)
unlimited='s/rate=200r/rate=900000r/; s/burst=400/burst=900000/; s/avroreg_connections 50/avroreg_connections 500/'

# counted NAME EDIT: starts nginx as one process under callgrind. It formats the time once a second, and not once a millisecond.
declare -A address process
counted() {
  # shellcheck disable=SC2016
  runner=(sh -c 'exec valgrind --quiet --tool=callgrind --callgrind-out-file="$0" --instr-atstart=no "$@" -g "master_process off; timer_resolution 1s;"' "$scratch/$1.out")
  start_nginx "$1" "${url##*:}" "$2"
  address[$1]=http://127.0.0.1:$front
  process[$1]=$nginx
}
# requests NAME KIND CLIENTS: sends at least 300 requests, and prints how many nginx logged.
requests() {
  local before count=0 found
  before=$(wc -l <"$scratch/$1/access.log")
  while [ "$count" -lt 300 ]; do
    found=$(wrk -t 1 -c "$3" -d 1s --timeout 30s -s "$examples/nginx/requests.lua" "${address[$1]}" -- "$2" run | grep '^RATE ')
    [ "${found##* }" = 0 ] || fail "$2 of $1 with $3 clients: $found"
    count=$(($(wc -l <"$scratch/$1/access.log") - before))
  done
  echo "$count"
}
# instructions NAME KIND CLIENTS: prints the instructions for a request.
instructions() {
  local count
  callgrind_control -i on "${process[$1]}" >/dev/null
  count=$(requests "$@")
  callgrind_control -i off "${process[$1]}" >/dev/null
  callgrind_control -d "${process[$1]}" >/dev/null
  sed -n 's/^totals: //p' "$(ls -t "$scratch/$1.out".* | head -n 1)" | awk -v count="$count" '{ printf "%d\n", $1 / count }'
}

start_server "$scratch/registry.db"
wrk -t 1 -c 1 -d 1s -s "$examples/nginx/requests.lua" "$url" -- known first >/dev/null
counted plain "$unlimited"
counted gateway "s/#gateway //; $unlimited"
missed=0
for kind in "${kinds[@]}"; do
  bound=0.95
  [ "$kind" != id ] || bound=0.8
  [ "$kind" != id ] || for name in plain gateway; do requests "$name" id 1 >/dev/null; done # fills the cache
  for clients in 1 8 64; do
    plain=$(instructions plain "$kind" $clients)
    gateway=$(instructions gateway "$kind" $clients)
    ratio=$(awk -v a="$plain" -v b="$gateway" 'BEGIN { printf "%.3f", a / b }')
    echo "$kind, $clients clients: nginx $plain, gateway $gateway, ratio $ratio"
    awk -v a="$ratio" -v b="$bound" 'BEGIN { exit a < b }' || missed=$((missed + 1))
  done
done
[ $missed = 0 ] || fail "$missed ratios are below their bound"
