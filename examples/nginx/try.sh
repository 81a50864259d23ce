#!/usr/bin/env bash
# Compares avroreg alone with avroreg behind nginx, on new files and free ports. Sends writes like web pages of this origin and
# of other origins. Then runs the clients of examples/clients eight at once, and eight clients at a steady rate. Installs
# missing packages. The status is 0 if no request was lost and each response was right. roles.sh tests users, roles, cache and
# limits.
#
#   AVROREG=PROGRAM examples/nginx/try.sh [SECONDS] [RATE]     of the steady run; default: 20 seconds, 20 requests a second and client
set -u
source "$(dirname "$0")/../serving.sh"
packages nginx curl python3-confluent-kafka python3-requests python3-avro golang-go golang-github-lensesio-schema-registry-dev
build_go_client
here=$examples/nginx
python=/usr/bin/python3

start_server "$scratch/alone.db"
alone=${url##*:}
start_server "$scratch/behind.db"
unlimited='s/200r/9000r/; s/burst=400/burst=9000/' # these clients are faster than a user may be
start_nginx same "${url##*:}" "$unlimited"
"$python" "$here/same.py" "$alone" "$front" || fail "a response behind nginx differed"

# page STATUS ORIGIN METHOD PATH [BODY]: sends the request of a page of this origin, and checks the response. The content type
# is one that a page may send without a preflight request.
page() {
  local found
  found=$(curl -s -o "$scratch/page" -w '%{http_code}' -H "Origin: $2" -H 'Content-Type: text/plain' -X "$3" ${5:+-d "$5"} \
    "http://127.0.0.1:$front$4")
  [ "$found" = "$1" ] || fail "$3 $4 of a page of $2 got $found"
  [ "$1" != 403 ] || [ "$(cat "$scratch/page")" = '{"error_code":403,"message":"Origin is another one"}' ] ||
    fail "a page of $2 got $(cat "$scratch/page")"
}

own=http://127.0.0.1:$front
schema='{"schema":"\"int\""}'
for origin in http://example.org "${own/http/https}" "$own.example.org" "${own/:$front/:8081}" null; do
  page 403 "$origin" POST /subjects/pages/versions "$schema"
  page 403 "$origin" POST /subjects/pages "$schema"
  page 403 "$origin" PUT /config '{"compatibility":"NONE"}'
  page 403 "$origin" PUT /mode '{"mode":"READONLY"}'
  page 403 "$origin" DELETE /subjects/pages
  page 200 "$origin" GET /config
  page 404 "$origin" GET /subjects/pages/versions
done
page 200 "$own" POST /subjects/pages/versions "$schema"
page 200 "$own" PUT /config/pages '{"compatibility":"FULL"}'
page 200 "$own" PUT /mode/pages '{"mode":"READWRITE"}'
page 200 "$own" GET /subjects/pages/versions
page 200 "$own" DELETE /subjects/pages
echo "writes of pages of five other origins: 403; of its own: 200"

for at in 1 2 3 4 5 6 7 8; do
  "$python" "$examples/clients/confluent.py" "http://127.0.0.1:$front" "client$at." >"$scratch/client$at" 2>&1 &
  clients[at]=$!
  "$scratch/go-client" "http://127.0.0.1:$front" "client$at." >>"$scratch/go-client$at" 2>&1 &
  go_clients[at]=$!
done
for at in 1 2 3 4 5 6 7 8; do
  wait "${clients[at]}" || fail "Confluent's Python client $at found a difference: $(tail -n 1 "$scratch/client$at")"
  wait "${go_clients[at]}" || fail "the Go client $at found a difference: $(cat "$scratch/go-client$at")"
done
echo "eight of Confluent's Python client and eight of the Go client at once: each got the right responses"

start_server "$scratch/steady.db"
start_nginx steady "${url##*:}" "$unlimited"
"$python" "$here/eight.py" "$front" "${1:-20}" "${2:-20}" >"$scratch/eight" || fail "the steady run found a difference"
cat "$scratch/eight"

# Compares with nginx's log: it must have as many requests as the clients sent, without the GET /config of start_nginx. None may
# have failed in nginx or been aborted by its client.
grep -v ' GET /config$' "$scratch/steady/access.log" >"$scratch/log"
wanted=$(sed -n 's/^requests: //p' "$scratch/eight")
found=$(grep -c -E '^(200|409) ' "$scratch/log")
[ "$wanted" = "$found" ] && [ "$found" = "$(wc -l <"$scratch/log")" ] ||
  fail "nginx answered $found of $wanted requests with 200 or 409, and $(wc -l <"$scratch/log") in all"
echo "nginx's log has all $found of them, each with status 200 or 409"
