#!/usr/bin/env bash
# Clients of a server without nginx, and how long they wait:
#
#   turns     two clients that keep their connections send requests in turn
#   uploads   a client sends a body that is too large, without waiting for "100 Continue"
#
# The status is 0 if no client waited too long and each upload got its 413. Cases of tests/command_lines/connections have other
# clients next to them, and bench_connections.sh measures many.
#
#   AVROREG=PROGRAM trials/hold_the_line.sh [turns|uploads]..
#   TIMES    requests of each of the two clients, and uploads of a large body; by default 100
#
# The arguments choose the parts. Without arguments all run. The two clients of `turns` are Debian's package of Confluent's Python
# client. If it isn't installed, they use Python's http.client and reconnect.
set -u
source "$(dirname "$0")/../examples/serving.sh"
need curl python3
python=python3
/usr/bin/python3 -c 'import confluent_kafka' 2>/dev/null && python=/usr/bin/python3
start_server "$scratch/line.db"
"$python" "$trials/hold_the_line.py" "${url##*:}" "$@"
