#!/usr/bin/env bash
# Installs Debian's packages of Confluent's Python client and of a Go client, and runs both with a server that it starts. The
# status is 0 if both got the right responses.
#
#   AVROREG=PROGRAM examples/clients/run.sh
set -u
source "$(dirname "$0")/../serving.sh"
packages curl python3-confluent-kafka python3-requests python3-avro golang-go golang-github-lensesio-schema-registry-dev
build_go_client

start_server "$scratch/clients.db"
/usr/bin/python3 "$examples/clients/confluent.py" "$url" || fail "Confluent's Python client found a difference"
"$scratch/go-client" "$url" '' alone || fail "the Go client found a difference"
