#!/usr/bin/env bash
# Copies a stand-in for Confluent's registry (standin.py) into avroreg with from-confluent.py, which is killed five times on the
# way, and compares all responses of both. Further cases: a registry that is busy, or lists no schemas; ids that begin late; a
# terminal; versions that avroreg doesn't accept; lost ids, and two ids of one schema; https and a password; a copy of an
# avroreg; broken registries (malformed.py). The status is 0 if no response differs.
#
#   AVROREG=PROGRAM examples/from-confluent/try.sh [VERSIONS] [SUBJECTS]     default: 2,000 and 300
set -u
source "$(dirname "$0")/../serving.sh"
need curl python3 openssl script
here=$examples/from-confluent
size=(--versions "${1:-2000}" --subjects "${2:-300}")
mkfifo "$scratch/lines"

# start_stand_in [OPTION]..: starts a registry to read from, at $source.
start_stand_in() {
  local port
  port=$(free_port)
  python3 "$here/standin.py" "$port" "${size[@]}" "$@" &
  started+=("$!")
  source=http://127.0.0.1:$port
  wait_for_port "$port" || fail "the stand-in doesn't answer"
}

# move STATUS [OPTION].. FROM TO: runs the mover, and checks its status. Its output is in $scratch/moved.
move() {
  local wanted=$1 found
  shift
  python3 "$examples/from-confluent.py" "$@" >"$scratch/moved" 2>&1
  found=$?
  [ "$found" = "$wanted" ] || fail "the mover ended with $found, not with $wanted: $(tail -n 5 "$scratch/moved")"
}

# move_killed COUNT FROM TO: runs the mover, and kills it after it reports COUNT writes.
move_killed() {
  local mover line
  python3 "$examples/from-confluent.py" "$2" "$3" >"$scratch/lines" &
  mover=$!
  exec 4<"$scratch/lines"
  while read -r line <&4 && [[ $line != "written $1 of "* ]]; do :; done
  kill -KILL "$mover"
  wait "$mover" 2>/dev/null
  [ $? = 137 ] || fail "the mover ended before it was killed: $line"
  exec 4<&-
  echo "killed after: $line"
}

compare() {
  python3 "$here/compare.py" "$@" || fail "the responses differ"
}

# check_new URL: checks that the registry is new: nothing was set or registered.
check_new() {
  [ "$(curl -s "$1/subjects?deleted=true" "$1/config" "$1/mode")" = '[]{"compatibilityLevel":"BACKWARD"}{"mode":"READWRITE"}' ] ||
    fail "$1 was written to"
}

# request_count KIND: prints the number of the stand-in's requests of this kind. KIND is a key of its /requests.
request_count() {
  curl -s "$source/requests" | python3 -c 'import json, sys; print(json.load(sys.stdin).get(sys.argv[1], 0))' "$1"
}

# check_output TEXT [FILE]: checks that the mover's output contains this text.
check_output() {
  grep -qF -- "$1" "${2:-$scratch/moved}" || fail "the mover's output has no \"$1\": $(tail -n 5 "${2:-$scratch/moved}")"
}

python3 "$here/identities.py" || fail "an identity text differs"
start_server "$scratch/killed.db"
first=$url

echo "A registry without troubles, and a mover that is killed five times"
start_stand_in --modes
move 0 --dry-run "$source" "$url"
cat "$scratch/moved"
check_new "$url"
writes=$(sed -n 's/.* in \([0-9]*\) writes$/\1/p' "$scratch/moved")
for sixth in 1 2 3 4 5; do
  move_killed $((writes * sixth / 600 * 100)) "$source" "$url"
done
for again in 1 2; do
  move 0 "$source" "$url"
done
tail -n 1 "$scratch/moved"
move 1 --run another "$source" "$url"
tail -n 1 "$scratch/moved"
compare "$source" "$url" "$avroreg"

printf '\nA registry that is busy: each seventh request fails\n'
small=(--versions 200 --subjects 40)
all=("${size[@]}")
size=("${small[@]}")
start_stand_in
rest=$source
start_stand_in --busy 7 --page 70
start_server "$scratch/busy.db"
move 0 "$source" "$url"
check_output 'status 503, again in 0:'
echo "requests for pages of versions: $(request_count /schemas), for one version: $(request_count '/subjects/([^/]+)/versions/([^/]+)')," \
  "before Retry-After: $(request_count 'too soon')"
[ "$(request_count /schemas)" -le 24 ] || fail "the pages are read too often"
[ "$(request_count '/subjects/([^/]+)/versions/([^/]+)')" = 0 ] || fail "versions are read one by one"
[ "$(request_count 'too soon')" = 0 ] || fail "Retry-After wasn't waited for"
! grep -q $'\r' "$scratch/moved" || fail "there is a bar, but no terminal"
compare "$rest" "$url" "$avroreg"
start_stand_in --busy 1
move 2 --patience 2 "$source" "$url"
check_output '/subjects?deleted=true: 50'

printf '\nRegistries that list no schemas, or ignore the offset\n'
for kind in --no-list "--ignore-offset --page 70"; do
  # shellcheck disable=SC2086
  start_stand_in $kind
  start_server "$scratch/${kind%% *}.db"
  move 0 "$source" "$url"
  [ "$(request_count '/subjects/([^/]+)/versions/([^/]+)')" = 400 ] || fail "two readings of 200 versions take 400 requests"
  compare "$source" "$url" "$avroreg"
done

printf '\nIds from 20,001 on, and a terminal\n'
start_stand_in --first-id 20001
start_server "$scratch/late.db"
move 1 "$source" "$url"
check_output '--fill-ids takes 20,000 writes for the ids before 20001.'
move 0 --dry-run --fill-ids "$source" "$url"
check_output ', 20,000 of them for ids that'
check_new "$url"
move 3 --used-ids 20000 "$source" "$url"
check_output 'expected 200 {"id": 20001}, got 200 {"id": 1}'
python3 -c 'import sys
sys.path.insert(0, sys.argv[1])
from avroreg_admin import copying
copying.use_up(sys.argv[2], sys.argv[3], 20000)' "$examples/../admin" "$avroreg" "$scratch/used.db" || fail "the ids aren't used up"
start_server "$scratch/used.db"
move 64 --used-ids 20000 --new-ids "$source" "$url"
move 1 --used-ids 20001 "$source" "$url"
check_output 'has the id 20001, which --used-ids 20001 uses up'
check_new "$url"
TERM=xterm script -qec "stty cols 100; python3 $examples/from-confluent.py --used-ids 20000 $source $url" "$scratch/typed" >/dev/null ||
  fail "the mover failed in a terminal: $(tail -n 3 "$scratch/typed")"
tr '\r' '\n' <"$scratch/typed" | grep -E '#\.+\] written .* left' | tail -n 1 | sed 's/^[^[]*\[K//'
grep -qE '\[#+\.+\] written [0-9]+ of [0-9]+ writes, [0-9]+:[0-9]{2} left' "$scratch/typed" || fail "the terminal shows no bar"
check_output ', as expected' "$scratch/typed"
writes=$(sed -n 's/.* in \([0-9]*\) writes.*/\1/p' "$scratch/typed")
[ "$writes" -lt 400 ] || fail "$writes writes for 200 versions"
compare "$source" "$url" "$avroreg"
size=("${all[@]}")

printf '\nWith versions that avroreg does not accept, and ids that are lost or come late\n'
start_server "$scratch/foreign.db"
start_stand_in --lost-ids
rest=$source
start_stand_in --lost-ids --foreign
move 1 "$source" "$url"
grep -v -e '^Ids\? ' -e ' comes after id ' "$scratch/moved"
echo "and $(grep -c -e '^Ids\? ' -e ' comes after id ' "$scratch/moved") lines on ids"
check_new "$url"
move 1 --skip --without-modes "$source" "$url"
move 1 --fill-ids --without-modes "$source" "$url"
move 1 --skip --fill-ids "$source" "$url"
check_new "$url"
move 0 --skip --fill-ids --without-modes "$source" "$url"
tail -n 1 "$scratch/moved"
compare "$rest" "$url" "$avroreg"

printf '\nWith two ids of one schema, and new ids\n'
start_server "$scratch/new.db"
start_stand_in --lost-ids --twins
move 1 --fill-ids "$source" "$url"
check_new "$url"
move 0 --new-ids "$source" "$url"
tail -n 1 "$scratch/moved"
compare "$source" "$url" "$avroreg" "$scratch/moved"

printf '\nFrom https, with a user\n'
openssl req -x509 -newkey rsa:2048 -nodes -days 1 -subj /CN=127.0.0.1 -addext subjectAltName=IP:127.0.0.1 \
  -keyout "$scratch/key" -out "$scratch/certificate" 2>/dev/null || fail "openssl made no certificate"
cat "$scratch/key" "$scratch/certificate" >"$scratch/both"
size=(--versions 60 --subjects 12)
start_stand_in
rest=$source
start_stand_in --certificate "$scratch/both" --password 'reader:s3 cret'
source=https${source#http}
start_server "$scratch/tls.db"
move 2 "$source" "$url"
tail -n 1 "$scratch/moved"
move 2 --from-ca "$scratch/certificate" "$source" "$url"
tail -n 1 "$scratch/moved"
FROM_PASSWORD='s3 cret' move 0 --from-ca "$scratch/certificate" --from-user reader "$source" "$url"
tail -n 1 "$scratch/moved"
compare "$rest" "$url" "$avroreg"

printf '\nA copy of a running avroreg with lost versions, which is read-only\n'
# write STATUS METHOD URL [BODY]: sends a write, and checks its status.
write() {
  local found
  found=$(curl -s -o /dev/null -w '%{http_code}' -X "$2" "$3" ${4:+-d "$4"})
  [ "$found" = "$1" ] || fail "$2 $3 got $found"
}
write 422 DELETE "$first/subjects/topic-12-value"
write 200 PUT "$first/mode" '{"mode":"READWRITE"}'
write 200 DELETE "$first/subjects/topic-12-value"
write 200 DELETE "$first/subjects/topic-12-value?permanent=true"
write 200 PUT "$first/config/topic-13-value" '{"compatibility":"NONE"}'
write 200 POST "$first/subjects/topic-13-value/versions" '{"schema":"{\"type\":\"fixed\",\"name\":\"Late\",\"size\":1}"}'
write 200 DELETE "$first/subjects/topic-13-value/versions/latest"
write 200 DELETE "$first/subjects/topic-13-value/versions/latest?permanent=true"
write 200 POST "$first/subjects/topic-14-value%2Fnew/versions" '{"schema":"{\"type\":\"fixed\",\"name\":\"Later\",\"size\":1}"}'
write 200 PUT "$first/mode/topic-15-value" '{"mode":"READONLY"}'
write 200 PUT "$first/mode" '{"mode":"READONLY"}'
start_server "$scratch/copy.db"
write 200 PUT "$url/mode" '{"mode":"READONLY"}'
move 1 --fill-ids "$first" "$url"
tail -n 1 "$scratch/moved"
write 200 PUT "$url/mode" '{"mode":"READWRITE"}'
move 1 "$first" "$url"
check_new "$url"
move 0 --fill-ids "$first" "$url"
tail -n 1 "$scratch/moved"
compare "$first" "$url" "$avroreg"

printf '\nBroken registries: malformed responses, endless lists, gaps of a million\n'
start_server "$scratch/broken.db"
python3 "$here/malformed.py" "$url" || fail "a broken registry isn't handled"
check_new "$url"

printf '\nNo response differs.\n'
