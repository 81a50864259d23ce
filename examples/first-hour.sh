#!/usr/bin/env bash
# A new user's first hour: a level, versions, a rejection, retries with a retry key, a kill, a read-only subject, a listing,
# SQL, a layout, an audit. It prints each request and its response. The status is 0 if each response is the expected one. The
# script ends at the first other one.
#
#   AVROREG=PROGRAM examples/first-hour.sh
#   LEVEL=NONE AVROREG=PROGRAM examples/first-hour.sh      shows the report of a difference: NONE rejects nothing
set -u
source "$(dirname "$0")/serving.sh"
need curl sqlite3
file=$scratch/first-hour.db
level=${LEVEL:-FULL}
step=0

# The schemas of a topic of orders: the first one, one with a new field with a default, one with a new field without.
first='{"schema":"{\"type\":\"record\",\"name\":\"Order\",\"fields\":[{\"name\":\"id\",\"type\":\"long\"}]}"}'
second='{"schema":"{\"type\":\"record\",\"name\":\"Order\",\"fields\":[{\"name\":\"id\",\"type\":\"long\"},{\"name\":\"note\",\"type\":\"string\",\"default\":\"\"}]}"}'
third='{"schema":"{\"type\":\"record\",\"name\":\"Order\",\"fields\":[{\"name\":\"id\",\"type\":\"long\"},{\"name\":\"total\",\"type\":\"double\"}]}"}'

title() {
  step=$((step + 1))
  printf '\n%d. %s\n' "$step" "$1"
}

# same WANTED FOUND: ends the script if they differ.
same() {
  [ "$1" = "$2" ] || fail "step $step differs. Expected: $1. Found: $2"
}

# request KEY METHOD PATH BODY STATUS RESPONSE: sends a request, prints it and its response, and compares.
request() {
  local arguments=(-sS -X "$2" -w '\n%{http_code}' "$url$3") found
  printf '   %s %s\n' "$2" "$3"
  if [ -n "$1" ]; then
    arguments+=(-H "$key_field: $1")
    printf '   %s: %s\n' "$key_field" "$1"
  fi
  if [ -n "$4" ]; then
    arguments+=(-d "$4")
    printf '   %s\n' "$4"
  fi
  found=$(curl "${arguments[@]}") || fail "step $step got no response"
  found="${found##*$'\n'} ${found%$'\n'*}"
  printf '   -> %s\n' "$found"
  same "$5 $6" "$found"
}

# ending STATUS WANTED COMMAND..: runs a command, prints it and its output, and compares its status and output.
ending() {
  local status=$1 wanted=$2 found
  shift 2
  printf '   %s\n' "${*/#$avroreg/avroreg}"
  found=$("$@")
  same "$status" $?
  [ -z "$found" ] || printf '%s\n' "$found" | sed 's/^/   -> /'
  same "$wanted" "$found"
}

# output WANTED COMMAND..: the same, with status 0.
output() {
  ending 0 "$@"
}

title "The server creates a new file"
start_server "$file"
printf '   avroreg serve --db %s --port %s\n' "$file" "${url##*:}"
request '' GET /subjects '' 200 '[]'

title "A subject gets the level $level"
request '' PUT /config/orders-value "{\"compatibility\":\"$level\"}" 200 "{\"compatibility\":\"$level\"}"

title "A schema is registered, and becomes version 1"
request '' POST /subjects/orders-value/versions "$first" 200 '{"id":1}'

title "A second one, with a retry key, becomes version 2"
request orders-2 POST /subjects/orders-value/versions "$second" 200 '{"id":2}'

title "A third one is rejected: its new field has no default, and no existing order has the field"
request '' POST /subjects/orders-value/versions "$third" 409 \
  '{"error_code":409,"message":"Schema is incompatible with an earlier version"}'

title "Version 2 is deleted, softly"
request '' DELETE /subjects/orders-value/versions/2 '' 200 2

title "The request of step 4 is retried: it gets its first response, and isn't applied a second time"
request orders-2 POST /subjects/orders-value/versions "$second" 200 '{"id":2}'
request '' GET /subjects/orders-value/versions '' 200 '[1]'

title "The same key with another request is rejected"
request orders-2 POST /subjects/orders-value/versions "$first" 422 \
  '{"error_code":42290,"message":"Retry key was used for another request"}'

title "The server is killed with -9 and started again: the retry still isn't applied a second time"
stop_server KILL
start_server "$file"
request orders-2 POST /subjects/orders-value/versions "$second" 200 '{"id":2}'
request '' GET /subjects/orders-value/versions '' 200 '[1]'

title "Without the key it is a new request: the schema keeps its id and becomes version 3"
request '' POST /subjects/orders-value/versions "$second" 200 '{"id":2}'
request '' GET /subjects/orders-value/versions '' 200 '[1,3]'

title "The subject becomes read-only: a write to it is rejected, and its key keeps this response"
request '' PUT /mode/orders-value '{"mode":"READONLY"}' 200 '{"mode":"READONLY"}'
request readonly-1 PUT /config/orders-value "{\"compatibility\":\"$level\"}" 422 \
  '{"error_code":42205,"message":"Operation not permitted"}'

title "The subject becomes writable: the key still gets its first response; without the key the write is applied"
request '' PUT /mode/orders-value '{"mode":"READWRITE"}' 200 '{"mode":"READWRITE"}'
request readonly-1 PUT /config/orders-value "{\"compatibility\":\"$level\"}" 422 \
  '{"error_code":42205,"message":"Operation not permitted"}'
request '' PUT /config/orders-value "{\"compatibility\":\"$level\"}" 200 "{\"compatibility\":\"$level\"}"

title "The server is stopped, and the versions are listed as CSV"
stop_server
output 'subject,version,id,deleted
orders-value,1,1,false
orders-value,2,2,true
orders-value,3,2,false' "$avroreg" list --db "$file" versions

title "The file is a SQLite database"
output "orders-value|$level" sqlite3 "$file" 'SELECT subject, level FROM levels'
output 'orders-2|200|{"id":2}
readonly-1|422|{"error_code":42205,"message":"Operation not permitted"}' sqlite3 "$file" 'SELECT key, status, body FROM kept ORDER BY rowid'
output 'ok' sqlite3 "$file" 'PRAGMA integrity_check'

title "It has this program's layout; migrate would migrate the file of an earlier program"
output 'layout 2: nothing to do' "$avroreg" migrate --db "$file"

title "Each version has the evidence of its acceptance: the level, and the ids that it was compared with"
start_server "$file"
request '' PUT /config/counts-value '{"compatibility":"BACKWARD"}' 200 '{"compatibility":"BACKWARD"}'
request '' POST /subjects/counts-value/versions '{"schema":"\"int\""}' 200 '{"id":3}'
request '' POST /subjects/counts-value/versions '{"schema":"\"long\""}' 200 '{"id":4}'
stop_server
output "orders-value|1|$level|
orders-value|2|$level|1
orders-value|3|$level|1
counts-value|1|BACKWARD|
counts-value|2|BACKWARD|3" sqlite3 "$file" 'SELECT e.subject, e.version, e.level, a.id FROM evidence AS e LEFT JOIN against AS a USING (subject, version) ORDER BY e.rowid'

title "An audit checks each stored pair again. It detects evidence that another program made false"
output 'evidence holds' "$avroreg" audit --db "$file"
output '' sqlite3 "$file" "UPDATE evidence SET level = 'FORWARD' WHERE subject = 'counts-value' AND version = 2"
ending 1 'evidence does not hold' "$avroreg" audit --db "$file"

printf '\nAll %d steps passed.\n' "$step"
