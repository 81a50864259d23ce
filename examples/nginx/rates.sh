#!/usr/bin/env bash
# Measures responses a second: of avroreg alone over one kept connection, and through nginx with 1, 8 and 64 clients. nginx
# has the configuration of this folder, without its limits. Each figure is the median of the rounds; all take turns.
#
#   AVROREG=PROGRAM examples/nginx/rates.sh [ROUNDS] [SECONDS]     7 rounds, 2 seconds each, by default
#
# Needs wrk, nginx and curl. The file is in a temporary folder (TMPDIR), so writes wait for that disk.
set -u
source "$(dirname "$0")/../serving.sh"
need wrk curl /usr/sbin/nginx
rounds=${1:-7}
seconds=${2:-2}
requests=$examples/nginx/requests.lua

start_server "$scratch/registry.db"
alone=$url
start_nginx rates "${url##*:}" 's/rate=200r/rate=900000r/; s/burst=400/burst=900000/; s/avroreg_connections 50/avroreg_connections 500/'
through=http://127.0.0.1:$front

runs=0
# measure KIND ADDRESS CLIENTS NAME: measures once, and appends the figure to the file KIND-NAME.
measure() {
  local found
  runs=$((runs + 1))
  found=$(wrk -t 1 -c "$3" -d "${seconds}s" --timeout 30s -s "$requests" "$2" -- "$1" "r$runs" | grep '^RATE ')
  [ "${found##* }" = 0 ] || fail "$1 at $2 with $3 clients: $found"
  found=${found#RATE }
  echo "${found% *}" >>"$scratch/$1-$4"
}
median() { sort -n "$1" | sed -n "$(((rounds + 1) / 2))p"; }

wrk -t 1 -c 1 -d 1s -s "$requests" "$alone" -- known first >/dev/null
echo "load: $(cut -d' ' -f1-3 /proc/loadavg)"
for _ in $(seq "$rounds"); do
  for kind in id latest lookup known new; do
    measure $kind "$alone" 1 alone
    for clients in 1 8 64; do measure $kind "$through" $clients $clients; done
  done
done
echo "load: $(cut -d' ' -f1-3 /proc/loadavg)"
echo "request, alone, through nginx with 1, 8 and 64 clients:"
for kind in id latest lookup known new; do
  echo "$kind $(median "$scratch/$kind-alone") $(median "$scratch/$kind-1") $(median "$scratch/$kind-8") $(median "$scratch/$kind-64")"
done
