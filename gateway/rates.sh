#!/usr/bin/env bash
# Measures responses a second through nginx with and without the gateway, in turns, with 1, 8 and 64 clients and without limits.
# Prints the medians of the rounds, the median of their ratios, and the processor time of nginx's worker for a request. That time
# depends less on other programs of a busy machine. `known` is a registration of a known schema; `parameters` is a lookup with
# parameters, as Java's client sends it.
#
#   AVROREG=PROGRAM gateway/rates.sh [ROUNDS [SECONDS [KIND..]]]     default: 15 rounds, 1 second each, all kinds
#
# Needs wrk, nginx with njs, and curl.
set -u
source "$(dirname "$0")/../examples/serving.sh"
need wrk curl /usr/sbin/nginx
rounds=${1:-15}
seconds=${2:-1}
kinds=("${@:3}")
[ ${#kinds[@]} != 0 ] || kinds=(id latest list lookup parameters check known)
requests=$examples/nginx/requests.lua
unlimited='s/rate=200r/rate=900000r/; s/burst=400/burst=900000/; s/avroreg_connections 50/avroreg_connections 500/'

start_server "$scratch/registry.db"
declare -A address worker
start_nginx plain "${url##*:}" "$unlimited"
address[plain]=http://127.0.0.1:$front
worker[plain]=$(pgrep -o -P "$nginx")
start_nginx gateway "${url##*:}" "s/#gateway //; $unlimited"
address[gateway]=http://127.0.0.1:$front
worker[gateway]=$(pgrep -o -P "$nginx")

time_of() { cut -d' ' -f1 "/proc/$1/schedstat"; } # in nanoseconds

# measure KIND NAME CLIENTS: measures once, and appends the rate and the worker's microseconds for a request to two files.
measure() {
  local found before
  before=$(time_of "${worker[$2]}")
  found=$(wrk -t 1 -c "$3" -d "${seconds}s" --timeout 30s -s "$requests" "${address[$2]}" -- "$1" run | grep '^RATE ')
  [ "${found##* }" = 0 ] || fail "$1 of $2 with $3 clients: $found"
  found=${found#RATE }
  echo "${found% *}" >>"$scratch/rate-$1-$2-$3"
  echo "$((($(time_of "${worker[$2]}") - before) / (${found% *} * seconds + 1)))" >>"$scratch/time-$1-$2-$3"
}
median() { sort -n "$1" | sed -n "$(((rounds + 1) / 2))p"; }
# ratio A B: the median of the ratios of the lines of two files.
ratio() { paste "$1" "$2" | awk '{ printf "%.3f\n", $1 / $2 }' >"$scratch/ratios"; median "$scratch/ratios"; }

wrk -t 1 -c 1 -d 1s -s "$requests" "$url" -- known first >/dev/null
echo "load: $(cut -d' ' -f1-3 /proc/loadavg); $rounds rounds of $seconds s"
for round in $(seq "$rounds"); do
  both=(plain gateway)
  [ $((round % 2)) = 1 ] || both=(gateway plain)
  for kind in "${kinds[@]}"; do
    for clients in 1 8 64; do
      for name in "${both[@]}"; do measure "$kind" "$name" $clients; done
    done
  done
done
echo "load: $(cut -d' ' -f1-3 /proc/loadavg)"
for kind in "${kinds[@]}"; do
  for clients in 1 8 64; do
    rates=("$scratch/rate-$kind-plain-$clients" "$scratch/rate-$kind-gateway-$clients")
    times=("$scratch/time-$kind-plain-$clients" "$scratch/time-$kind-gateway-$clients")
    echo "$kind, $clients clients: nginx $(median "${rates[0]}"), gateway $(median "${rates[1]}"), ratio $(ratio "${rates[1]}" "${rates[0]}");" \
      "worker's time: nginx $(median "${times[0]}") ns, gateway $(median "${times[1]}") ns, ratio $(ratio "${times[0]}" "${times[1]}")"
  done
done
