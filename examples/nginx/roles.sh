#!/usr/bin/env bash
# Tests users and roles, rejected parameters, the cache, the limits, nginx's errors and its log, with a server. Tries to bypass
# the roles with bypass.py, and checks that bypass.py detects broken configurations.
#
#   AVROREG=PROGRAM examples/nginx/roles.sh [SHARE]     SHARE 3 sends each third message of bypass.py; default: all
set -u
source "$(dirname "$0")/../serving.sh"
packages nginx curl jq openssl procps python3
here=$examples/nginx

for user in admin:a ci:c viewer:v nobody:n Admin:y; do
  echo "${user%:*}:$(openssl passwd -apr1 "${user#*:}")"
done >"$scratch/avroreg.users"
users="s/#users //; s,/etc/nginx/avroreg.users,$scratch/avroreg.users,"

# bypass NAME EDIT OPTION..: runs bypass.py with a configuration that sed's EDIT changes first. Its output is $scratch/NAME.out.
bypass() {
  local name=$1 edit=$2 upstream
  shift 2
  upstream=$(free_port)
  start_nginx "$name" "$upstream" \
    "$users; s,200r/s,9000r/s,; s/burst=400/burst=9000/; s/connections 50/connections 500/; s/\(keepalive_timeout *\)75s/\1200ms/; $edit"
  python3 "$here/bypass.py" "$upstream" "$front" "$@" >"$scratch/$name.out" 2>&1
}

# check_detected NAME EDIT: breaks the configuration with sed's EDIT, and checks that bypass.py detects it.
check_detected() {
  bypass "$1" "$2" --first
  [ $? = 1 ] || fail "bypass.py didn't detect $1: $(cat "$scratch/$1.out")"
}

# check STATUS USER METHOD PATH [BODY] [CURL'S OPTIONS]..: sends a user's request, and checks the response. Its head is in
# $scratch/head, its body in $scratch/got.
check() {
  local wanted=$1 user=$2 method=$3 path=$4 body=${5:-} found
  shift $(($# < 5 ? $# : 5))
  found=$(curl -s -D "$scratch/head" -o "$scratch/got" -w '%{http_code}' ${user:+-u "$user"} -X "$method" ${body:+--data-binary "$body"} "$@" \
    "http://127.0.0.1:$front$path")
  [ "$found" = "$wanted" ] || fail "$user $method $path got $found, not $wanted: $(cat "$scratch/got")"
  grep -qi '^content-type: application/vnd.schemaregistry.v1+json' "$scratch/head" || fail "$method $path got another type"
  [ "$wanted" -lt 400 ] || jq -e '.error_code and .message' "$scratch/got" >/dev/null || fail "$method $path got no error in JSON"
}

# check_cache HIT|MISS|STALE|.. SCHEMA: checks the cache status of the last response, and the schema in it.
check_cache() {
  grep -qi "^x-cache-status: $1" "$scratch/head" || fail "the cache isn't $1: $(cat "$scratch/head")"
  [ "$(jq -r .schema "$scratch/got")" = "$2" ] || fail "the schema isn't $2: $(cat "$scratch/got")"
}

# reload: makes nginx read its changed configuration, and waits until the old workers have ended.
reload() {
  local old process _
  old=$(pgrep -P "$nginx")
  kill -HUP "$nginx"
  for process in $old; do
    for _ in $(seq 600); do
      kill -0 "$process" 2>/dev/null || continue 2
      sleep 0.1
    done
    fail "nginx keeps its old configuration"
  done
}

# check_raw STATUS REQUEST: sends the bytes of printf's REQUEST, and checks the error.
check_raw() {
  local reply wire
  exec {wire}<>"/dev/tcp/127.0.0.1/$front"
  # shellcheck disable=SC2059
  printf "$2" >"$scratch/request"
  cat "$scratch/request" >&"$wire"
  reply=$(timeout 20 tr -d '\0' <&"$wire")
  exec {wire}>&-
  [[ $reply == "HTTP/1.1 $1 "*"{\"error_code\":$1,"*"}" ]] || fail "${2:0:40} got no error $1 in JSON: $reply"
}

try_bypass() {
  bypass plain "" --share "$1" || fail "a message got past the roles: $(cat "$scratch/plain.out")"
  cat "$scratch/plain.out"
  check_detected roles_of_decoded_paths 's/registry_target" \$registry_action/uri" $registry_action/; s/registry_target" \$is_own_subject/uri" $is_own_subject/'
  check_detected any_subject_is_registered 's/"~^register:register:1\$"/"~^register:register:"/'
  check_detected the_prefix_is_looked_for_anywhere 's, /subjects/\\1", /subjects/[^/]*\\1",'
  check_detected unknown_requests_are_reads 's/default  *other;/default read;/'
  check_detected names_ignore_case 's/"~^admin\$"/admin/'
  check_detected passwords_are_forwarded 's/proxy_set_header  *Authorization "";//'
  echo "bypass.py: six broken configurations were detected"
}

int='{"schema":"\"int\""}'
string='{"schema":"\"string\""}'
level='{"compatibility":"FULL"}'

try_roles() {
  check 200 admin:a POST /subjects/other/versions "$int"
  check 200 ci:c POST /subjects/team-a.x/versions "$int" -H 'Registry-Retry-Key: secret-key'
  check 200 ci:c POST /subjects/team-a.x/versions "$int" -H 'Registry-Retry-Key: secret-key'
  check 200 ci:c POST /subjects/team-a.%2Fx/versions "$int" -H 'Registry-Retry-Key: other-key'
  check 403 ci:c POST /subjects/team-ab/versions "$int"
  check 403 ci:c POST /subjects/%74eam-a.x/versions "$int"
  check 403 ci:c DELETE /subjects/team-a.x
  check 403 ci:c PUT /config/team-a.x "$level"
  check 403 ci:c PUT /mode '{"mode":"READONLY"}'
  check 403 viewer:v POST /subjects/team-a.x/versions "$int"
  check 403 viewer:v DELETE /subjects/other/versions/1
  check 200 viewer:v GET /subjects
  check 200 viewer:v POST /subjects/other "$int"
  check 200 viewer:v POST /compatibility/subjects/other/versions/latest "$int"
  check 403 nobody:n GET /subjects
  check 403 Admin:y GET /subjects
  check 401 "" GET /subjects
  check 401 admin:wrong PUT /config "$level"
  check 200 admin:a PUT /config/other "$level"
  check 200 admin:a DELETE /subjects/team-a.%2Fx
  echo "roles: each user gets what it may"
}

try_prefix_of_all_subjects() {
  start_nginx all "${url##*:}" "$users; s/\"team-a\.\"/\"*\"/"
  check 200 ci:c POST /subjects/other/versions "$string"
  check 403 ci:c DELETE /subjects/other
}

# Each parameter on each path, in each spelling, alone and next to other parameters.
try_parameters() {
  local check=/compatibility/subjects/other/versions query
  for query in verbose=true verbose=TRUE verbose=1 verbose= verbose 'verbose&normalize=true' 'normalize=true&verbose=true' \
    'verbose=false&verbose=true' 'verbose=true&verbose=false' %76erbose=true verbos%65=true 'normalize=true&%56erbose=true' \
    verbose=%74rue 'verbose=false%20' '&verbose=true' 'verbose=true#x'; do
    check 422 viewer:v POST "$check/latest?$query" "$int" --request-target "$check/latest?$query"
    check 422 viewer:v POST "$check?$query" "$int" --request-target "$check?$query"
  done
  for query in deletedOnly=true deletedOnly=True deletedOnly=1 deletedOnly= deletedOnly 'deleted=true&deletedOnly=true' \
    'deletedOnly=false&deletedOnly=true' deleted%4fnly=true %64eletedOnly=true subjectPrefix=team subjectPrefix=%74eam \
    'subjectPrefix=&subjectPrefix=team' 'deleted=true&subjectPrefix=:*:' subject%50refix=team subject%70refix=team SubjectPrefix=x; do
    check 422 viewer:v GET "/subjects?$query" "" --request-target "/subjects?$query"
    check 422 viewer:v GET "/subjects/other/versions?$query"
  done
  jq -e '.error_code == 422 and (.message | startswith("subjectPrefix"))' "$scratch/got" >/dev/null || fail "the message is another one"
  check 422 admin:a POST "/subjects/other/versions?verbose=true" "$int"
  check 422 admin:a DELETE "/subjects/other?deletedOnly=true"
  for query in verbose=false 'normalize=true&verbose=FALSE' 'x=verbose=true' verbosely=true notverbose=true normalize=%74rue; do
    check 200 viewer:v POST "$check/latest?$query" "$int"
  done
  for query in 'subjectPrefix=&deletedOnly=false' subjectPrefix deleted=true 'x=deletedOnly' ''; do
    check 200 viewer:v GET "/subjects?$query"
  done
  echo "verbose=true, subjectPrefix and deletedOnly=true: 422 in each spelling"
}

# After a restore an id may have another schema: the cache keeps the old one until its key changes.
try_cache() {
  check 200 viewer:v GET /schemas/ids/1
  check_cache MISS '"int"'
  check 200 ci:c GET '/schemas/ids/1?fetchMaxId=false'
  check_cache HIT '"int"'
  check 401 "" GET /schemas/ids/1
  check 403 nobody:n GET /schemas/ids/1
  check 404 viewer:v GET /schemas/ids/999
  stop_server
  start_server "$scratch/restored.db" "${url##*:}"
  check 200 admin:a POST /subjects/other/versions "$string"
  check 200 viewer:v GET /schemas/ids/1
  check_cache HIT '"int"'
  sed -i '/map "" $registry_cache_key/,/}/s/default 1;/default 2;/' "$scratch/roles/avroreg.conf"
  reload
  check 200 viewer:v GET /schemas/ids/1
  check_cache MISS '"string"'
  check 200 viewer:v GET /schemas/ids/1
  check_cache HIT '"string"'
  echo "cache: an id is cached, and read again from avroreg after the key changed"
}

# An expired response is served while avroreg hangs or is down.
try_stale() {
  start_nginx stale "${url##*:}" "$users; s/200 365d/200 1s/; s/\(proxy_read_timeout *\)60s/\12s/"
  check 200 viewer:v GET /schemas/ids/1
  sleep 2
  kill -STOP "$server"
  check 200 viewer:v GET /schemas/ids/1
  check_cache STALE '"string"'
  check 504 viewer:v GET /schemas/ids/2
  stop_server KILL
  check 200 viewer:v GET /schemas/ids/1
  check_cache STALE '"string"'
  check 502 viewer:v GET /schemas/ids/2
  check 502 viewer:v GET /subjects
  echo "server killed: the cached schema is served, others get 502"
}

# Eleven requests are allowed here: one, and ten more at once.
try_limit_of_requests() {
  start_nginx requests "${url##*:}" "$users; s,200r/s,1r/m,; s/burst=400/burst=10/"
  for _ in $(seq 11); do check 200 viewer:v GET /subjects; done
  check 429 viewer:v GET /subjects
  check 200 ci:c GET /subjects
  check 429 viewer:v GET /subjects
  echo "requests: the twelfth of a user gets 429, another user doesn't"
}

try_limit_of_connections() {
  local wires=() wire
  start_nginx connections "${url##*:}" "$users; s/connections 50/connections 3/; s/\(client_body_timeout *\)10s/\160s/"
  for _ in 1 2 3; do
    exec {wire}<>"/dev/tcp/127.0.0.1/$front"
    printf 'POST /subjects/other HTTP/1.1\r\nHost: 127.0.0.1\r\nAuthorization: Basic %s\r\nContent-Length: 10\r\n\r\n' "$(printf viewer:v | base64)" >&"$wire"
    wires+=("$wire")
  done
  sleep 1
  check 429 viewer:v GET /subjects
  check 200 ci:c GET /subjects
  for wire in "${wires[@]}"; do exec {wire}>&-; done
  sleep 1
  check 200 viewer:v GET /subjects
  echo "connections: the fourth of a user gets 429, another user doesn't"
}

try_errors() {
  local close='Host: 127.0.0.1\r\nConnection: close\r\n\r\n' long
  long=$(head -c 9000 /dev/zero | tr '\0' x)
  check_raw 400 'hello\r\n\r\n'
  check_raw 400 'GET /config HTTP/1.1\r\nConnection: close\r\n\r\n'
  check_raw 400 "GET /../x HTTP/1.1\r\n$close"
  check_raw 400 "GET /config/%%00 HTTP/1.1\r\n$close"
  check_raw 400 "GET /config HTTP/1.1\r\nX: $long$long$long$long\r\n$close"
  check_raw 405 "TRACE /config HTTP/1.1\r\n$close"
  check_raw 414 "GET /$long HTTP/1.1\r\n$close"
  check_raw 501 "POST /subjects/a HTTP/1.1\r\nTransfer-Encoding: gzip\r\n$close"
  check_raw 505 "GET /config HTTP/9.9\r\n$close"
  check 404 admin:a GET /.error/400
  head -c 1048576 /dev/zero >"$scratch/largest"
  check 400 admin:a PUT /config "@$scratch/largest" -H 'Expect:'
  echo >>"$scratch/largest"
  check 413 admin:a PUT /config "@$scratch/largest" -H 'Expect:'
  check 413 ci:c POST /subjects/team-a.x/versions "@$scratch/largest" -H 'Expect:'
  echo "errors are JSON"
}

# A slow password hash, such as bcrypt, would need 27 seconds.
try_speed() {
  local began=$SECONDS
  for _ in $(seq 400); do printf 'url = "http://127.0.0.1:%s/schemas/ids/1"\noutput = /dev/null\n' "$front"; done >"$scratch/burst"
  [ "$(curl -s -u viewer:v -w '%{http_code}\n' -K "$scratch/burst" -Z --parallel-max 20 2>"$scratch/progress" | sort | uniq -c | tr -s ' ')" = ' 400 200' ] ||
    fail "a request failed"
  [ $((SECONDS - began)) -lt 20 ] || fail "400 passwords took $((SECONDS - began)) seconds"
  echo "400 requests with a password: $((SECONDS - began)) seconds"
}

try_log() {
  local log=$scratch/roles/avroreg.log
  jq -e -s 'all(.[]; (keys_unsorted == ["time","client","user","role","method","path","status","bytes","seconds","upstream_seconds",
    "upstream_status","cache","retry_key_hash","request"]) and (.status | type) == "number" and .seconds >= 0)' "$log" >/dev/null ||
    fail "a line of the log isn't as documented"
  jq -e -s '[.[] | select(.retry_key_hash != "")] | length == 3 and all(.[]; (.retry_key_hash | test("^[0-9]{8}$")) and .user == "ci" and
    .role == "register" and .method == "POST" and .status == 200) and .[0].path == "/subjects/team-a.x/versions" and
    .[0].retry_key_hash == .[1].retry_key_hash and .[0].retry_key_hash != .[2].retry_key_hash' "$log" >/dev/null ||
    fail "the log hasn't the three requests with retry keys: $(grep POST "$log" | head -n 5)"
  ! grep -q 'secret-key\|other-key' "$log" || fail "the log has a retry key"
  jq -e -s '[.[] | select(.status == 413)] | length == 2 and all(.[]; .upstream_status == "")' "$log" >/dev/null ||
    fail "a body that is too large reached avroreg"
  jq -e -s 'any(.[]; .cache == "HIT" and .upstream_status == "") and any(.[]; .user == "admin" and .role == "admin" and .status == 401)' \
    "$log" >/dev/null || fail "the log hasn't the cached response or the wrong password"
  echo "the log is JSON, without retry keys"
}

try_bypass "${1:-1}"
start_server "$scratch/roles.db"
start_nginx roles "${url##*:}" "$users"
try_roles
try_parameters
try_cache
try_errors
try_speed
try_log
try_limit_of_requests
try_limit_of_connections
try_prefix_of_all_subjects
try_stale
