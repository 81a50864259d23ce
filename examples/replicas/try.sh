#!/usr/bin/env bash
# Starts three nodes on this machine's loopback, registers, kills a node, registers, brings the node back, and compares all
# three. Installs missing packages. The status is 0 if no node lacks an acknowledged write and the nodes are equal.
#
#   AVROREG=PROGRAM examples/replicas/try.sh
set -u
source "$(dirname "$0")/../serving.sh"
here=$examples/replicas
python=/usr/bin/python3
packages python3 python3-h11 etcd-server openssl curl
[ -x "$avroreg" ] || fail "there is no program $avroreg; build it, or name it in AVROREG"
cluster=$scratch/cluster
local_nodes() { "$python" "$here/trial/local.py" "$cluster" "$@" || fail "local.py $* failed"; }
stop_nodes() {
  [ ! -d "$cluster" ] || "$python" "$here/trial/local.py" "$cluster" kill
  clean
}
trap stop_nodes EXIT

# url NODE, admin NODE: print the addresses of a node's relay, for clients and for /health.
url() { sed -n 's,^listen = "\(.*\)",http://\1,p' "$cluster/$1/relay.toml"; }
admin() { sed -n 's,^admin = "\(.*\)",http://\1,p' "$cluster/$1/relay.toml"; }

# ask NODE METHOD TARGET [BODY]: prints the response; fails unless its status is 200. A write is retried with its key.
ask() {
  local key=try-$RANDOM$RANDOM status
  for _ in $(seq 20); do
    status=$(curl -s -m 30 -o "$scratch/response" -w '%{http_code}' -X "$2" ${4:+-d "$4"} -H "$key_field: $key" "$(url "$1")$3")
    [ "$status" != 503 ] && break
    sleep 0.5
  done
  [ "$status" = 200 ] || fail "$2 $3 at $1 got $status: $(cat "$scratch/response")"
  cat "$scratch/response"
}

# register NODE SUBJECT FIELDS: registers a record with FIELDS fields.
register() {
  local fields
  fields=$(for at in $(seq "$3"); do printf ',{\\"name\\":\\"f%d\\",\\"type\\":\\"long\\",\\"default\\":0}' "$at"; done)
  ask "$1" POST "/subjects/$2/versions" "{\"schema\":\"{\\\"type\\\":\\\"record\\\",\\\"name\\\":\\\"R\\\",\\\"fields\\\":[${fields#,}]}\"}"
}

# expect WANTED FOUND TEXT: fails if they differ.
expect() {
  [ "$1" = "$2" ] || fail "$3: $2 instead of $1"
  echo "$3: $2"
}

local_nodes new "$avroreg"
local_nodes start
echo "three nodes answer after $SECONDS s"

expect '{"id":1}' "$(register n1 orders 1)" "orders, version 1, registered at n1"
expect '{"id":2}' "$(register n2 orders 2)" "orders, version 2, registered at n2"
expect '[1,2]' "$(ask n3 GET /subjects/orders/versions)" "its versions, at n3"

local_nodes kill n1
echo "n1 is killed: its etcd, its avroreg, its relay"
expect '{"id":3}' "$(register n2 orders 3)" "orders, version 3, registered at n2"
expect '{"id":1}' "$(register n3 payments 1)" "payments, version 1, registered at n3, with the schema of orders' first version"
expect '[1,2,3]' "$(ask n3 GET /subjects/orders/versions)" "the versions of orders, at n3"

local_nodes start n1
expect '[1,2,3]' "$(curl -s -m 30 -H 'Cache-Control: no-cache' "$(url n1)/subjects/orders/versions")" "n1 is back; a fresh read there"

for node in n1 n2 n3; do
  "$here/avroreg-cluster" --config "$cluster/$node/relay.toml" fingerprint >"$scratch/$node" || fail "no fingerprint of $node"
done
cmp -s "$scratch/n1" "$scratch/n2" && cmp -s "$scratch/n1" "$scratch/n3" || fail "the nodes differ: $(cat "$scratch"/n[123])"
echo "the three nodes are equal: revision and fingerprint $(cat "$scratch/n1")"
for node in n1 n2 n3; do curl -s "$(admin "$node")/health" | sed 's/$/\n/'; done
local_nodes stop
echo "done in $SECONDS s"
