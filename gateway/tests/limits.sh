# The parts `limits`, `large`, `down`, `faulty` and `roles` of gateway/try.sh. It sources this file.

# status CURL'S ARGUMENT..: prints the status of a response, whose body is in $scratch/got.
status() { curl -s -o "$scratch/got" -w '%{http_code} ' "$@"; }

# check_counts TEXT STATUSES: checks how often each status occurs.
check_counts() {
  local found
  found=$(tr ' ' '\n' <<<"$2" | grep . | sort | uniq -c | awk '{ printf "%s times %s; ", $1, $2 }')
  [ "$found" = "$1" ] || fail "wanted $1 found $found"
}

# Lists of schemas and checks with messages have limits of their own, which are lower here, so that a slow machine reaches them too.
try_limits() {
  local at codes int='{"schema":"\"int\""}' string='{"schema":"\"string\""}'
  start_server "$scratch/limits.db"
  start_gateway limits "${url##*:}" 's,rate=20r/s,rate=1r/m,; s/burst=40 /burst=4 /; s,rate=2r/s,rate=1r/m,; s/burst=10;/burst=2 nodelay;/'
  for at in $(seq 30); do status -d "$int" "http://127.0.0.1:$front/subjects/s$at/versions" >/dev/null; done
  codes=$(for at in $(seq 6); do status -d "$string" "http://127.0.0.1:$front/compatibility/subjects/s1/versions?verbose=true"; done)
  check_counts '5 times 200; 1 times 429; ' "$codes"
  codes=$(for at in $(seq 40); do status -d "$string" "http://127.0.0.1:$front/compatibility/subjects/s1/versions" & done; wait)
  check_counts '40 times 200; ' "$codes"
  codes=$(for at in $(seq 4); do status "http://127.0.0.1:$front/schemas"; done)
  check_counts '3 times 200; 1 times 429; ' "$codes"
  start_gateway writes "${url##*:}" 's,200r/s,1r/m,; s/burst=400/burst=10/'
  codes=$(for at in $(seq 12); do status -d "$int" "http://127.0.0.1:$front/subjects/a/versions"; done)
  check_counts '11 times 200; 1 times 429; ' "$codes"
  codes=$(for at in $(seq 3); do status "http://127.0.0.1:$front/"; done)
  check_counts '3 times 429; ' "$codes"
  echo "limits: lists of schemas and checks with messages have their own; a write counts once"
}

# check_list WANTED TARGET: checks the number of entries of a list, or its status.
check_list() {
  local found
  found=$(status "http://127.0.0.1:$front$2")
  [ "$found" != '200 ' ] || found=$(jq length "$scratch/got")
  [ "${found% }" = "$1" ] || fail "$2 gets ${found% }, not $1"
}

# A list of schemas has at most 1,000 entries. Lists that need too many reads or bytes get 422, and not a shorter list.
try_large() {
  local at
  for at in $(seq 1100); do
    printf 'POST /subjects/s%04d/versions HTTP/1.1\r\nContent-Length: 20\r\n\r\n{"schema":"\\"int\\""}' "$at"
  done | "$avroreg" run --db "$scratch/large.db" >"$scratch/large.out"
  start_server "$scratch/large.db"
  start_gateway large "${url##*:}" "$unlimited"
  check_list 1000 /schemas
  check_list 1000 '/schemas?limit=5000'
  check_list 100 '/schemas?offset=1000'
  check_list 0 '/schemas?offset=1100'
  check_list 1000 '/schemas?latestOnly=true'
  check_list 100 '/schemas?subjectPrefix=s10&limit=200'
  check_list 1100 '/subjects?offset=0&limit=2000'
  start_gateway reads "${url##*:}" "$unlimited; s/MOST_READS = 5000/MOST_READS = 500/"
  check_list 200 '/schemas?limit=200'
  check_list 422 '/schemas?limit=300'
  check_list 422 '/schemas?offset=600&limit=1'
  start_gateway bytes "${url##*:}" "$unlimited; s/MOST_BYTES = .*;/MOST_BYTES = 10000;/"
  check_list 100 '/schemas?limit=100'
  check_list 422 '/schemas?limit=500'
  echo "large: 1,000 entries of a list; too many reads or bytes get 422"
}

# try_down NAME [EDIT]: while the server is down, nothing but the cache is served, and nothing gets a verdict. sed's EDIT changes the
# gateway first.
try_down() {
  local path int='{"schema":"\"int\""}' check='/compatibility/subjects/s1/versions?verbose=true'
  start_server "$scratch/$1.db"
  start_gateway "$1" "${url##*:}" "${2:-}"
  status -d "$int" "http://127.0.0.1:$front/subjects/s1/versions" >/dev/null
  status "http://127.0.0.1:$front/schemas/ids/1/schema" >/dev/null
  stop_server KILL
  [ "$(status "http://127.0.0.1:$front/schemas/ids/1/schema")$(cat "$scratch/got")" = '200 "int"' ] || fail "/schemas/ids/1/schema gets no cached text"
  for path in / /schemas '/subjects?limit=1' /schemas/ids/1/subjects /subjects/s1/versions/1/referencedby; do
    [ "$(status "http://127.0.0.1:$front$path")" = '502 ' ] || fail "$path gets $(cat "$scratch/got")"
  done
  [ "$(status -d "$int" "http://127.0.0.1:$front$check")" = '502 ' ] || fail "a check gets $(cat "$scratch/got")"
  echo "down: the text of an id comes from the cache; all else is 502"
}

# A fault of the gateway is 502, and no verdict.
try_faulty() {
  start_server "$scratch/faulty.db"
  start_gateway faulty "${url##*:}" 's/const compatible = await reads.check(r, target.path);/const compatible = undefined_name;/'
  [ "$(status -d '{"schema":"\"int\""}' "http://127.0.0.1:$front/compatibility/subjects/a/versions?verbose=true")" = '502 ' ] ||
    fail "a check of a faulty gateway gets $(cat "$scratch/got")"
  jq -e '.error_code == 502 and (has("is_compatible") | not)' "$scratch/got" >/dev/null || fail "a faulty gateway gives a verdict"
  echo "faulty: a fault of the gateway is 502, and no verdict"
}

# as STATUS USER METHOD PATH [BODY]: sends a user's request, and checks the status.
as() {
  local found
  found=$(curl -s -o "$scratch/got" -w '%{http_code}' ${2:+-u "$2"} -X "$3" ${5:+-d "$5"} "http://127.0.0.1:$front$4")
  [ "$found" = "$1" ] || fail "$2 $3 $4 gets $found, not $1: $(cat "$scratch/got")"
}

# Roles are those of the target that avroreg gets.
try_roles() {
  local path int='{"schema":"\"int\""}' check=/compatibility/subjects/other/versions
  start_server "$scratch/roles.db"
  start_gateway roles "${url##*:}" "$users"
  as 200 admin:a POST /subjects/other/versions "$int"
  for path in / /contexts /schemas /schemas/ids/1/schema /schemas/ids/1/subjects /subjects/other/versions/1/referencedby '/subjects?subjectPrefix=o' \
    '/subjects/other/versions?limit=1' '/schemas/ids/1/versions?offset=0' /subjects/other/versions/-1 /subjects/; do
    as 200 viewer:v GET "$path"
    as 200 ci:c GET "$path"
    as 403 nobody:n GET "$path"
    as 403 Admin:y GET "$path"
    as 401 "" GET "$path"
    as 401 viewer:wrong GET "$path"
  done
  as 200 viewer:v POST "$check?verbose=true" "$int"
  as 401 "" POST "$check?verbose=true" "$int"
  as 401 viewer:wrong POST "$check/?verbose=true" "$int"
  as 403 nobody:n POST "$check?verbose=true" "$int"
  as 403 ci:c POST /subjects/other/versions/ "$int"
  as 403 viewer:v POST /subjects/team-a.x/versions/ "$int"
  as 403 ci:c PUT /config/ '{"compatibility":"FULL"}'
  as 403 ci:c DELETE /subjects/team-a.x/versions/-1
  as 200 ci:c POST /subjects/team-a.x/versions/ "$int"
  as 401 ci:wrong POST /subjects/team-a.x/versions "$int"
  jq -e -s 'all(.[]; (keys_unsorted == ["time","client","user","role","method","path","status","bytes","seconds","upstream_seconds",
    "upstream_status","cache","retry_key_hash","gateway","reads","request"])) and any(.[]; .gateway == "check" and .reads == 1) and
    any(.[]; .gateway == "schemas" and .reads > 2)' "$scratch/roles/avroreg.log" >/dev/null || fail "a line of the log isn't as documented"
  echo "roles: each user gets what it may; the log has the route and the number of reads"
}
