#!/usr/bin/env bash
# Runs the tests of the examples, but of replicas/ only trial.sh. It prints whether each test passed, how long it took, and
# which Debian packages it needs. It installs missing packages. The status is 0 if all tests passed.
#
#   AVROREG=PROGRAM examples/all.sh [NAME]..     NAME is in the first column; default: all
#
# The page's script needs a line for localhost in /etc/hosts, which debootstrap doesn't write. The trial of replicas needs root.
set -u
source "$(dirname "$0")/serving.sh"
[ -x "$avroreg" ] || fail "there is no program $avroreg; build it, or name it in AVROREG"
export AVROREG=$avroreg
chosen=("$@")
cd "$examples" || exit 1

python="curl python3-confluent-kafka python3-requests python3-avro"
go="golang-go golang-github-lensesio-schema-registry-dev"
try first-hour "curl sqlite3" ./first-hour.sh
try check-schemas "curl jq python3-avro python3-yaml" check-schemas/try.sh
try clients "$python $go" clients/run.sh
try replay "nginx libnginx-mod-http-js libavro-java libjackson-json-java libslf4j-java $python $go" clients/replay.sh
try from-confluent "curl python3 openssl" from-confluent/try.sh
try nginx "nginx $python $go" nginx/try.sh
try nginx-roles "nginx curl jq openssl procps python3" nginx/roles.sh
try nginx-tls "nginx openssl $python" nginx/tls.sh
try nginx-refusals "nginx curl jq python3" nginx/refusals.sh
try gateway "nginx libnginx-mod-http-js curl jq openssl procps python3" ../gateway/try.sh rows roles fuzz limits large down faulty hostile
try replicas "python3 python3-h11 etcd-server openssl curl iproute2 e2fsprogs" replicas/trial.sh 60
try page "nginx curl jq openssl chromium chromium-driver python3-selenium" page/try.sh
sum_up
