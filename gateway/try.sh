#!/usr/bin/env bash
# Tests the gateway with a server: each row of README.md, users and roles, all messages of bypass.py, 20,000 odd messages for its own
# routes, its limits, and its behaviour while the server is down. Then it breaks the gateway in several ways, and checks that a test
# detects each break. README.md lists the parts.
#
#   AVROREG=PROGRAM gateway/try.sh [rows|roles|bypass|fuzz|limits|large|down|faulty|hostile|breaks]..     default: all
set -u
source "$(dirname "$0")/../examples/serving.sh"
packages nginx libnginx-mod-http-js curl jq openssl procps python3
here=$(cd "$(dirname "${BASH_SOURCE[0]}")" && pwd)
unlimited='s/200r/9000r/; s/burst=400/burst=9000/; s/rate=2r/rate=9000r/; s/rate=20r/rate=9000r/; s/burst=10;/burst=9000;/; s/burst=40 /burst=9000 /
  s/avroreg_list 1;/avroreg_list 100;/'

# start_gateway NAME PORT [EDIT]: starts nginx with the gateway.
start_gateway() { start_nginx "$1" "$2" "s/#gateway //; ${3:-}"; }

# run_rows NAME [EDIT [MODULE]..]: runs the rows with a gateway that sed's EDIT changes.
run_rows() {
  start_server "$scratch/$1.db"
  start_gateway "$1" "${url##*:}" "$unlimited; ${2:-}"
  python3 "$here/tests/rows.py" "http://127.0.0.1:$front" "$url" "${@:3}"
}

try_rows() { run_rows rows || fail "a row differs: $(tail -n 3 "$scratch/rows/error.log")"; }

for user in admin:a ci:c viewer:v nobody:n Admin:y; do
  echo "${user%:*}:$(openssl passwd -apr1 "${user#*:}")"
done >"$scratch/avroreg.users"
users="s/#users //; s,/etc/nginx/avroreg.users,$scratch/avroreg.users,"

# run_fuzz NAME COUNT [EDIT]: sends odd messages. fuzz.py listens instead of avroreg.
run_fuzz() {
  local upstream
  upstream=$(free_port)
  start_gateway "$1" "$upstream" "$users; $unlimited; s/connections 50/connections 500/; s/\(keepalive_timeout *\)75s/\1200ms/; ${3:-}"
  PYTHONPATH=$examples/nginx python3 "$here/tests/fuzz.py" "$upstream" "$front" "$2"
}

try_fuzz() { run_fuzz fuzz "${MESSAGES:-20000}" || fail "a message was wrong"; }

# All messages of bypass.py, which tries to get past the roles.
try_bypass() {
  local upstream
  upstream=$(free_port)
  start_gateway bypass "$upstream" "$users; $unlimited; s/connections 50/connections 500/; s/\(keepalive_timeout *\)75s/\1200ms/"
  python3 "$examples/nginx/bypass.py" "$upstream" "$front" --share "${SHARE:-1}" || fail "a message got past the roles"
}

source "$here/tests/limits.sh"
source "$here/tests/breaks.sh"

try_hostile() {
  start_server "$scratch/hostile.db"
  start_gateway hostile "${url##*:}" "$unlimited"
  python3 "$here/tests/hostile.py" "http://127.0.0.1:$front" "$(pgrep -o -P "$nginx")" || fail "a hostile schema delays others"
}

for part in ${*:-rows roles bypass fuzz limits large down faulty hostile breaks}; do "try_$part" "$part"; done
