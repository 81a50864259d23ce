#!/usr/bin/env bash
# Tests what nginx rejects by itself: other names in Host, paging, writes with members that avroreg would ignore, and writes during
# a pause. It also checks that 1,500 connections with half a head delay nobody. Then it breaks the configuration in several ways,
# and checks that each break is detected.
#
#   AVROREG=PROGRAM examples/nginx/refusals.sh
set -u
source "$(dirname "$0")/../serving.sh"
packages nginx curl jq python3
here=$examples/nginx
int='{"schema":"\"int\""}'

# check STATUS METHOD PATH [BODY] [CURL'S OPTIONS]..: sends a request, and checks the status and that an error is JSON.
check() {
  local wanted=$1 method=$2 path=$3 body=${4:-} found
  shift $(($# < 4 ? $# : 4))
  found=$(curl -s -D "$scratch/head" -o "$scratch/got" -w '%{http_code}' -X "$method" ${body:+--data-binary "$body"} "$@" "http://127.0.0.1:$front$path")
  [ "$found" = "$wanted" ] || fail "$method $path $body $* got $found, not $wanted: $(cat "$scratch/got")"
  [ "$wanted" -lt 400 ] || jq -e '.error_code and .message' "$scratch/got" >/dev/null || fail "$method $path got no error in JSON"
}

# A name that resolves to this address (DNS rebinding) is in Host.
try_hosts() {
  local host
  for host in evil.example evil.example:$front 127.0.0.1.evil.example localhost.evil.example 127.0.0.2 x ''; do
    [ -z "$host" ] || check 421 GET /subjects '' -H "Host: $host"
    [ -z "$host" ] || check 421 PUT /config '{"compatibility":"NONE"}' -H "Host: $host" -H "Origin: http://$host"
  done
  for host in 127.0.0.1 127.0.0.1:$front localhost LOCALHOST:1 '[::1]' 127.0.0.1.; do check 200 GET /subjects '' -H "Host: $host"; done
  check 200 GET /subjects '' --http1.0 -H 'Host:'
  echo "hosts: names of others get 421"
}

try_paging() {
  local query path
  for path in /subjects /subjects/a/versions /schemas/ids/1/versions /config; do
    for query in offset=1 limit=1 'offset=0&limit=5' offset= limit 'LIMIT=2' 'offset=0&offset=3' 'deleted=true&Offset=10' %6cimit=1; do
      check 422 GET "$path?$query"
    done
  done
  for query in offset=0 limit=-1 limit=0 'offset=0&limit=-1' xlimit=4 'x=limit'; do check 200 GET "/subjects?$query"; done
  echo "paging: a page of a list gets 422"
}

try_bodies() {
  local body versions=/subjects/bodies/versions schema='"schema":"\"long\""'
  for body in '"ruleSet":{"domainRules":[{"name":"encrypt"}]}' '"metadata":{"properties":{"owner":"x"}}' '"metadata": {"tags":{}}' \
    '"ruleSet"   :   [1]' '"id":7' '"version":3' '"id": 7, "version": 3' '"id":"7"'; do
    check 422 POST "$versions" "{$schema,$body}"
    check 422 POST "$versions" "{$body,$schema}"
    check 422 POST "$versions" "{$body,$schema}" -H 'Transfer-Encoding: chunked'
  done
  for body in '"alias":"x"' '"compatibilityGroup":"g"' '"defaultRuleSet":{"domainRules":[]}' '"overrideMetadata":{"tags":{}}' '"validateFields":true'; do
    check 422 PUT /config "{\"compatibility\":\"FULL\",$body}"
    check 422 PUT /config/bodies "{$body,\"compatibility\":\"FULL\"}"
  done
  jq -e '.error_code == 422 and .message == "validateFields is not supported"' "$scratch/got" >/dev/null || fail "the message is another one"
  check 404 GET "$versions"
  check 404 GET /config/bodies
  for body in '"ruleSet":null' '"metadata" : null' '"ruleSet":{ }' '"id":-1' '"version":0' '"references":[]' '"schemaType":"AVRO"'; do
    check 200 POST "$versions" "{$schema,$body}"
  done
  for body in '"normalize":true' '"alias":null' '"alias":""' '"validateFields":false' '"defaultMetadata":{}'; do
    check 200 PUT /config/bodies "{\"compatibility\":\"FULL\",$body}"
  done
  check 422 POST "$versions" '{"schema":"\"int\"","references":[{"name":"x","subject":"y","version":1}]}'
  jq -e '.error_code == 42201' "$scratch/got" >/dev/null || fail "references got another code"
  check 200 POST /subjects/quoted/versions '{"schema":"{\"type\":\"enum\",\"name\":\"E\",\"symbols\":[],\"ruleSet\":{\"id\":7},\"metadata\":{\"version\":3}}"}'
  check 200 POST /subjects/bodies "{$schema,\"id\":7}"
  check 400 POST "$versions" '{'
  check 400 PUT /config ''
  head -c 1048000 /dev/zero | tr '\0' '"' >"$scratch/quotes"
  check 400 POST "$versions" "@$scratch/quotes" -H 'Expect:'
  echo "bodies: a member that avroreg would ignore gets 422, and nothing is written"
}

try_pause() {
  local folder file
  for folder in run run-admin; do
    mkdir -p "$1/$folder/default"
    file=$1/$folder/default/paused
    : >"$file"
    check 503 POST /subjects/paused/versions "$int"
    grep -qi '^retry-after: 30' "$scratch/head" || fail "503 has no Retry-After"
    check 503 PUT /config '{"compatibility":"FULL"}'
    check 503 PUT /mode '{"mode":"READONLY"}'
    check 503 DELETE /subjects/bodies
    check 200 GET /subjects
    check 200 POST /subjects/bodies '{"schema":"\"long\""}'
    check 200 POST /compatibility/subjects/bodies/versions/latest "$int"
    check 404 GET /unknown
    rm "$file"
    check 200 POST /subjects/paused/versions "$int"
  done
  echo "pause: writes get 503 and Retry-After; reads, lookups and checks go on"
}

try_heads() {
  python3 "$here/heads.py" "$front" 1500 || fail "connections with half a head delay others"
}

try_all() {
  start_nginx "$1" "${url##*:}" "${2:-}"
  try_hosts && try_paging && try_bodies && try_pause "$scratch/$1" && try_heads
}

# check_detected NAME EDIT: breaks the configuration with sed's EDIT, and checks that this script detects it.
check_detected() {
  curl -s -o /dev/null -X DELETE "$url/subjects/bodies"
  (trap 'kill "$nginx"' EXIT; try_all "$1" "$2" >"$scratch/$1.out" 2>&1) && fail "$1 wasn't detected"
  grep -q "refusals.sh: $3" "$scratch/$1.out" || fail "$1 failed in another way: $(tail -n 2 "$scratch/$1.out")"
}

start_server "$scratch/refusals.db"
try_all whole
worker_connections=512 start_nginx few "${url##*:}"
! python3 "$here/heads.py" "$front" 1500 >"$scratch/few.out" || fail "heads.py detected nothing with 512 connections"
check_detected every_host 's/default   1;$/default 0;/' 'GET /subjects'
check_detected hosts_begin_with_a_name 's/    127.0.0.1 0;/    "~^127.0.0.1" 0;/' 'GET /subjects'
check_detected offset_passes '/"~\*&offset/d' 'GET /subjects?offset=1'
check_detected limit_passes '/"~\*&limit/d' 'GET /subjects?limit=1'
check_detected rules_are_dropped 's/metadata|ruleSet|/metadata|/' 'POST /subjects/bodies/versions'
check_detected chosen_ids_are_dropped 's/id|version/identity/' 'POST /subjects/bodies/versions'
check_detected settings_are_dropped 's/    level    $level_fault;//' 'PUT /config'
check_detected quotes_of_schemas_count 's/"~\[{,\]\\s\*+\\"(?<member_name>/"~(?<member_name>/; s/version)\\"/version).?\\"/' 'POST /subjects/quoted/versions'
check_detected body_is_read_late 's/    mirror .*//' 'POST /subjects/bodies/versions'
check_detected no_pause 's/-f $pause_file/-d $pause_file/' 'POST /subjects/paused'
check_detected no_pause_of_the_command 's/-f $admin_pause_file/-d $admin_pause_file/' 'POST /subjects/paused'
check_detected reads_are_paused 's/"~ read\$"         0;//' 'POST /subjects/bodies'
echo "thirteen broken configurations were detected"
