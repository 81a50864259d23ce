#!/usr/bin/env bash
# Measures many connections to a server, directly and through nginx, and compares it with another program: an older one, say.
# Both are measured in turn. The script prints each figure, and then each bound with `holds` or `FAILS`. The status is 0 if all
# bounds hold.
#
#   OLD=PROGRAM AVROREG=PROGRAM trials/bench_connections.sh [rates|nginx|probes|memory|slow|large]..
#   SECONDS_EACH   the time of one measurement; by default 3
#   REQUESTS       the requests of `memory`, 100 on each connection; by default 1,000,000
#
#   rates    requests a second of 1, 2, 8, 64 and 256 clients: reads and lookups
#   nginx    the same through nginx with the configuration of examples/nginx, without its limits. The old program gets a
#            connection for each request, as nginx opened them before it kept them
#   probes   how long a client waits that asks every 10 ms: alone, and next to others
#   memory   memory and descriptors before and after many connections
#   slow     a client that reads 0.8 MB of many large responses a second
#   large    256 clients that read responses of 1 MB
#
# Compile both programs in the same way. A busy machine changes the figures, so the load is printed with each. Needs Debian's
# packages wrk, nginx, curl and python3.
set -u
source "$(dirname "$0")/../examples/serving.sh"
need wrk curl python3 /usr/sbin/nginx
[ -x "${OLD:-}" ] || fail "name the program to compare with in OLD"
ulimit -n "$(ulimit -Hn)"
unlimited='s/rate=200r/rate=900000r/; s/burst=400/burst=900000/; s/avroreg_connections 50/avroreg_connections 500/'
close='/^ *keepalive  *[0-9]/d; s/proxy_set_header  *Connection  *"";/proxy_set_header Connection close;/'

programs=()
for name in old new; do
  new=$avroreg
  [ $name = new ] || avroreg=$OLD
  start_server "$scratch/$name.db"
  avroreg=$new
  edit=$unlimited
  [ $name = new ] || edit="$unlimited; $close"
  start_nginx "$name" "${url##*:}" "$edit"
  programs+=("$server" "${url##*:}" "$front")
done
python3 "$trials/bench_connections.py" "${programs[@]}" "$@"
