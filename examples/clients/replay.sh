#!/usr/bin/env bash
# Sends the calls of clients for Java, JavaScript and Rust, in these languages, to avroreg alone, through nginx and through the
# gateway. There it also sends the calls of tools, and runs Confluent's Python client and a Go client. Each of them has to detect a
# broken gateway. It checks the facts of docs/clients.md about requests. It starts the servers, and installs missing packages. The
# status is 0 if each response is right.
#
#   AVROREG=PROGRAM examples/clients/replay.sh
set -u
source "$(dirname "$0")/../serving.sh"
wanted=(nginx libnginx-mod-http-js curl python3 libavro-java libjackson-json-java libslf4j-java python3-confluent-kafka python3-requests
  python3-avro golang-go golang-github-lensesio-schema-registry-dev)
command -v javac >/dev/null || wanted+=(default-jdk-headless)
command -v node >/dev/null || wanted+=(nodejs)
command -v rustc >/dev/null || wanted+=(rustc)
packages "${wanted[@]}"
here=$examples/clients
jars=/usr/share/java
classes=$jars/avro.jar:$jars/jackson-core-asl.jar:$jars/jackson-mapper-asl.jar:$jars/slf4j-api.jar:$jars/slf4j-nop.jar

rustc --edition 2021 -o "$scratch/converter" "$here/rust/converter.rs" || fail "the Rust program doesn't compile"
javac -d "$scratch/java" -cp "$classes" "$here/java/Confluent.java" 2>"$scratch/java.log" || fail "Java: $(cat "$scratch/java.log")"

# replay ADDRESS [nginx|gateway]: sends the calls of each client.
replay() {
  java -cp "$classes:$scratch/java" Confluent "http://$1" java_ ${2:+"$2"} 2>"$scratch/java.log" || fail "Java: $(tail -n 5 "$scratch/java.log")"
  node "$here/node/kafkajs.mjs" "http://$1" node_ || fail "JavaScript: a response differs"
  "$scratch/converter" "$1" rust_ || fail "Rust: a response differs"
}

start_server "$scratch/facts.db"
python3 "$here/facts.py" "$url" || fail "docs/clients.md is wrong"
stop_server
start_server "$scratch/alone.db"
replay "${url#http://}"
stop_server
start_server "$scratch/behind.db"
start_nginx front "${url##*:}"
echo "Behind nginx:"
replay "127.0.0.1:$front" nginx
stop_server
build_go_client
start_server "$scratch/gateway.db"
start_nginx gateway "${url##*:}" 's/#gateway //'
echo "Behind the gateway:"
/usr/bin/python3 "$here/confluent.py" "http://127.0.0.1:$front" python_ gateway || fail "Confluent's Python client found a difference"
"$scratch/go-client" "http://127.0.0.1:$front" go_ || fail "the Go client found a difference"
replay "127.0.0.1:$front" gateway
python3 "$here/tools.py" "http://127.0.0.1:$front" || fail "the calls of a tool differ"
stop_server

# check_detected NAME EDIT COMMAND..: breaks the gateway with sed's EDIT, and checks that this client's command, which passed above,
# fails. ADDRESS in the command becomes the gateway's address.
check_detected() {
  local name=broken_$1
  start_server "$scratch/$name.db"
  start_nginx "$name" "${url##*:}" "s/#gateway //; $2"
  ! (shift 2; "${@//ADDRESS/127.0.0.1:$front}") >"$scratch/$name.out" 2>&1 || fail "$1 doesn't detect its broken gateway"
  kill "$nginx"
  stop_server
}
# tool NAME EDIT TOOL: the same for a tool of tools.py.
tool() { check_detected "$1" "$2" python3 "$here/tools.py" http://ADDRESS "$3"; }

check_detected python 's/versions\/)-1(?/versions\/)-7(?/' /usr/bin/python3 "$here/confluent.py" http://ADDRESS python_ gateway
check_detected go 's/$write_upstream$registry_target/$write_upstream$uri/' "$scratch/go-client" http://ADDRESS go_
check_detected java 's/if (compatible) {/if (true) {/' java -cp "$classes:$scratch/java" Confluent http://ADDRESS java_ gateway
check_detected javascript 's/$write_upstream$registry_target/$write_upstream$uri/' node "$here/node/kafkajs.mjs" http://ADDRESS node_
check_detected rust 's/HEAD GET;/GET HEAD;/' "$scratch/converter" ADDRESS rust_
tool balancer '/ root;$/d' 'load balancers'
tool maven '/ check;$/d' 'Maven plugin'
tool akhq '/ subjects_of_id;$/d' AKHQ
tool console '/ referenced_by;$/d' 'Redpanda Console'
tool ui 's/HEAD GET;/GET HEAD;/' kafka-ui
tool terraform '/ text_of_id;$/d' 'Terraform providers'
tool cli '/ schemas;$/d' 'Confluent CLI'
echo "each of these twelve detects a broken gateway"
