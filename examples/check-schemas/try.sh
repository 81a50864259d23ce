#!/usr/bin/env bash
# Runs check-schemas.sh on the schemas next to this script, with a server whose subjects have earlier versions of them. Compares
# the output and the status. Then registers folders with register-schemas, gives both folders with files that can't be used, and
# runs the commands of the CI workflow.
#
#   AVROREG=PROGRAM examples/check-schemas/try.sh
set -u
source "$(dirname "$0")/../serving.sh"
packages curl jq python3-avro python3-yaml
schemas=$examples/check-schemas/schemas

# send METHOD PATH BODY: sends a write, which must be accepted.
send() {
  local found
  found=$(curl -s -o /dev/null -w '%{http_code}' -X "$1" -d "$3" "$url$2")
  [ "$found" = 200 ] || fail "$1 $2 got $found"
}

# version SUBJECT SCHEMA: registers a schema.
version() {
  send POST "/subjects/$1/versions" "$(jq -nc --arg schema "$2" '{schema: $schema}')"
}

# record NAME FIELD..: prints the schema of a record. Each FIELD is NAME:TYPE.
record() {
  local name=$1
  shift
  jq -nc --arg name "$name" '{type: "record", $name, fields: [$ARGS.positional[] / ":" | {name: .[0], type: .[1]}]}' --args "$@"
}

# check STATUS TEXT ARGUMENT..: checks the status and the output of check-schemas.sh with these arguments.
check() {
  local status=$1 wanted=$2 found
  shift 2
  found=$("$examples/check-schemas.sh" "$@" 2>"$scratch/errors")
  [ $? = "$status" ] || fail "wrong status for $*: $found $(cat "$scratch/errors")"
  [ "$found" = "$wanted" ] || fail "it printed for $*: $found"
  printf '%s\n   -> status %d %s\n' "${found:-nothing}" "$status" "$(cat "$scratch/errors")"
}

start_server "$scratch/check.db"
version orders-value "$(record shop.Order id:long)"
send PUT /config/payments-value '{"compatibility":"BACKWARD_TRANSITIVE"}'
version payments-value "$(record shop.Payment id:long total:int)"
version payments-value "$(record shop.Payment id:long)"
send PUT /config/payments-value '{"compatibility":"NONE"}'
version payments-value "$(record shop.Payment id:string)"
version payments-value "$(record shop.Payment total:long id:long)"
send PUT /config/payments-value '{"compatibility":"BACKWARD_TRANSITIVE"}'
version shop%2Fcarts '{"type":"array","items":"string"}'
version refunds-value "$(record shop.Refund id:long)"
version refunds-value "$(record shop.Refund)"
send PUT /config/refunds-value '{"compatibility":"FORWARD"}'

check 1 'orders-value.avsc: compatible with orders-value, by BACKWARD
payments-value.avsc: incompatible with version 2 of payments-value, by BACKWARD_TRANSITIVE
    second opinion, the new schema reads version 2: at $.total: reader "long", writer missing: the reader'"'"'s field has no default
payments-value.avsc: incompatible with version 3 of payments-value, by BACKWARD_TRANSITIVE
    second opinion, the new schema reads version 3: at $.id: reader "long", writer "string": type mismatch (reader type: long not compatible with writer type: string)
    second opinion, the new schema reads version 3: at $.total: reader "long", writer missing: the reader'"'"'s field has no default
prices-value.avsc: not a schema that the registry accepts
refunds-value.avsc: compatible with refunds-value, by FORWARD
returns-value.avsc: the first version of returns-value
shop%2Fcarts.avsc: already version 1 of shop/carts' "$schemas" "$url"

mkdir "$scratch/good" "$scratch/none"
cp "$schemas"/{orders,refunds,returns}-value.avsc "$scratch/good"
check 0 'orders-value.avsc: compatible with orders-value, by BACKWARD
refunds-value.avsc: compatible with refunds-value, by FORWARD
returns-value.avsc: the first version of returns-value' "$scratch/good" "$url/"
[ "$(curl -s "$url/subjects")" = '["orders-value","payments-value","refunds-value","shop/carts"]' ] ||
  fail "something was registered"
check 2 '' "$scratch/none" "$url"
check 2 '' "$schemas" "$url/nowhere"
check 64 '' "$schemas"

# Both directions; another namespace; a checker that calls all schemas compatible; a machine without python3-avro.
mkdir -p "$scratch/both" "$scratch/moved" "$scratch/agreeing" "$scratch/without/avro"
version both-value '"string"'
send PUT /config/both-value '{"compatibility":"FULL"}'
echo '"int"' >"$scratch/both/both-value.avsc"
check 1 'both-value.avsc: incompatible with version 1 of both-value, by FULL
    second opinion, the new schema reads version 1: at $: reader "int", writer "string": type mismatch (reader type: int not compatible with writer type: string)
    second opinion, version 1 reads the new schema: at $: reader "string", writer "int": type mismatch (reader type: string not compatible with writer type: int)' "$scratch/both" "$url"
version moved-value "$(record old.Order)"
echo '{"type":"record","name":"Order","namespace":"new","fields":[{"name":"tag","type":{"type":"enum","name":"Tag","symbols":["A"]}}]}' \
  >"$scratch/moved/moved-value.avsc"
check 1 "moved-value.avsc: incompatible with version 1 of moved-value, by BACKWARD
    second opinion, the new schema reads version 1: at \$.tag: reader enum new.Tag, writer missing: the reader's field has no default" "$scratch/moved" "$url"
cat >"$scratch/agreeing/sitecustomize.py" <<'PYTHON'
from avro import compatibility as avro
verdict = avro.SchemaCompatibilityResult(avro.SchemaCompatibilityType.compatible)
avro.ReaderWriterCompatibilityChecker.get_compatibility = lambda *_: verdict
PYTHON
PYTHONPATH=$scratch/agreeing check 1 "moved-value.avsc: incompatible with version 1 of moved-value, by BACKWARD
    second opinion: python3-avro calls them compatible. avroreg's verdict counts" "$scratch/moved" "$url"
echo 'raise ImportError' >"$scratch/without/avro/__init__.py"
PYTHONPATH=$scratch/without check 1 'moved-value.avsc: incompatible with version 1 of moved-value, by BACKWARD
    no second opinion: install python3-avro for reasons' "$scratch/moved" "$url"

# register STATUS ARGUMENT..: runs register-schemas, and checks its status. Its output is in $scratch/table.
register() {
  local wanted=$1
  shift
  "$examples/register-schemas" "$@" >"$scratch/table" 2>"$scratch/errors"
  [ $? = "$wanted" ] || fail "register-schemas ended with another status than $wanted: $(cat "$scratch/table" "$scratch/errors")"
}

# check_versions SUBJECT TEXT: checks the versions of a subject.
check_versions() {
  local found
  found=$(curl -s "$url/subjects/$1/versions")
  [ "$found" = "$2" ] || fail "the versions of $1 are $found, not $2"
}

# A repeated job gets its first responses. So it doesn't register a deleted version again, but the job of another commit does.
register 0 "$scratch/good" "$url" --commit abc123
cp "$scratch/table" "$scratch/first"
check_versions orders-value '[1,2]'
send DELETE /subjects/orders-value/versions/2 ''
register 0 "$scratch/good" "$url" --commit abc123
cmp -s "$scratch/table" "$scratch/first" || fail "the repeated job printed another table"
check_versions orders-value '[1]'
register 0 "$scratch/good" "$url" --commit abc124
check_versions orders-value '[1,3]'

# Only %2F and %25 are escapes, as in check-schemas.sh.
mkdir "$scratch/escaped"
echo '"int"' >"$scratch/escaped/a%20b%2Fc%25.avsc"
register 0 "$scratch/escaped" "$url" --commit abc123
check_versions a%2520b%2Fc%25 '[1]'

# After a rejection it registers nothing.
mkdir "$scratch/mixed"
cp "$schemas"/{orders,payments}-value.avsc "$scratch/mixed"
echo '"int"' >"$scratch/mixed/zones-value.avsc"
register 1 "$scratch/mixed" "$url" --commit def456
grep -q '^payments-value.avsc *payments-value *refused *409' "$scratch/table" || fail "the rejection isn't in the table: $(cat "$scratch/table")"
grep -q '^zones-value.avsc *zones-value *not tried' "$scratch/table" || fail "it continued after a rejection"
check_versions zones-value '{"error_code":40401,"message":"Subject not found"}'
register 1 "$scratch/mixed" "$url" --commit def456 --keep-going
check_versions zones-value '[1]'
cat "$scratch/table"

# unusable TEXT [FILE]: checks that both stop at the folder $scratch/odd with this reason, and that nothing is registered. Then
# makes the folder anew, with one good schema.
unusable() {
  local tool
  for tool in check-schemas.sh register-schemas; do
    arguments=("$scratch/odd" "$url")
    [ $tool = check-schemas.sh ] || arguments+=(--commit "odd")
    timeout 20 "$examples/$tool" "${arguments[@]}" >"$scratch/table" 2>"$scratch/errors"
    [ $? = 2 ] || fail "$tool: another status than 2, not \"$1\": $(cat "$scratch/table" "$scratch/errors")"
    [ "$(cat "$scratch/errors")" = "$tool: $1" ] || fail "$tool doesn't say \"$1\": $(cat "$scratch/errors")"
    [ ! -s "$scratch/table" ] || fail "$tool printed: $(cat "$scratch/table")"
  done
  cmp -s <(curl -s "$url/subjects?deleted=true") "$scratch/subjects" || fail "something was registered: $1"
  make_odd
}

make_odd() {
  rm -rf "$scratch/odd"
  mkdir -p "$scratch/odd/sub.folder"
  echo '"int"' >"$scratch/odd/aaa.avsc"
}

# Both read the same files, and stop at one that can't be used.
curl -s "$url/subjects?deleted=true" >"$scratch/subjects"
echo '"int"' >"$scratch/outside.avsc"
make_odd
echo '"long"' >"$scratch/odd/.hidden.avsc"
unusable '.hidden.avsc is hidden'
printf '{"type":"string","doc":"\xff"}' >"$scratch/odd/latin.avsc"
unusable "latin.avsc isn't UTF-8"
echo '"int"' >"$scratch/odd/"$'b\xff.avsc'
unusable "b\\udcff.avsc has a name that isn't UTF-8"
echo '"int"' >"$scratch/odd/"$'orders\n.avsc'
unusable 'orders\n.avsc has a control character in its name'
echo '"int"' >"$scratch/odd/"$'\e[2J.avsc'
unusable '\x1b[2J.avsc has a control character in its name'
ln -s ../outside.avsc "$scratch/odd/out.avsc"
unusable 'out.avsc is a link out of the folder'
ln -s /dev/zero "$scratch/odd/zero.avsc"
unusable 'zero.avsc is a link out of the folder'
ln -s nowhere.avsc "$scratch/odd/dangling.avsc"
unusable "dangling.avsc can't be read: No such file or directory"
mkfifo "$scratch/odd/pipe.avsc"
unusable "pipe.avsc isn't a regular file"
mkdir "$scratch/odd/folder.avsc"
unusable "folder.avsc isn't a regular file"
truncate -s 1G "$scratch/odd/large.avsc"
unusable 'large.avsc has more than 1,048,576 bytes'
echo '"int"' | tee "$scratch/odd/a%.avsc" >"$scratch/odd/a%25.avsc"
unusable 'a%25.avsc has the subject of a%.avsc'
rm "$scratch/odd/aaa.avsc"
unusable "no .avsc in $scratch/odd"
if [ "$(id -u)" = 0 ]; then # only root makes a device
  mknod "$scratch/odd/device.avsc" c 1 5
  unusable "device.avsc isn't a regular file"
fi

# A link inside the folder, lines of a Windows editor, and a request that is too large: both read the same.
ln -s aaa.avsc "$scratch/odd/linked.avsc"
printf '{"type":"fixed",\r\n"name":"Windows","size":1}\r\n' >"$scratch/odd/windows.avsc"
register 0 "$scratch/odd" "$url" --commit abc123
check 0 'aaa.avsc: already version 1 of aaa
linked.avsc: already version 1 of linked
windows.avsc: already version 1 of windows' "$scratch/odd" "$url"
head -c 1040000 /dev/zero | tr '\0' '\n' >"$scratch/odd/zz.avsc" # escaped, it is a request of 2 MB
check 1 'aaa.avsc: already version 1 of aaa
linked.avsc: already version 1 of linked
windows.avsc: already version 1 of windows
zz.avsc: too large for the registry' "$scratch/odd" "$url"
register 1 "$scratch/odd" "$url" --commit abc124

# A key has something that only the job knows. So nobody else can use it up. A repeated job uses the same keys.
export HOME=$scratch/home
mkdir "$HOME"
(umask 077 && echo 'machine 127.0.0.1 login job password secret' >"$HOME/.netrc")
key=$(printf 'abc125\n%s' "$scratch/good/orders-value.avsc" | sha256sum | cut -d ' ' -f 1)
curl -s -o /dev/null -H "$key_field: $key" -X PUT -d '{"compatibility":"NONE"}' "$url/config/burnt"
send DELETE /subjects/orders-value/versions/3 ''
register 0 "$scratch/good" "$url" --commit abc125
check_versions orders-value '[1,4]'
send DELETE /subjects/orders-value/versions/4 ''
register 0 "$scratch/good" "$url" --commit abc125
check_versions orders-value '[1]'
(umask 077 && echo 'machine 127.0.0.1 login job password another' >"$HOME/.netrc")
register 0 "$scratch/good" "$url" --commit abc125
check_versions orders-value '[1,5]'
chmod 644 "$HOME/.netrc"
register 2 "$scratch/good" "$url" --commit abc126
grep -q 'too permissive' "$scratch/errors" || fail "a password that all can read: $(cat "$scratch/errors")"
rm "$HOME/.netrc"

# A repeated request prints one body.
port=$(free_port)
python3 "$examples/check-schemas/busy.py" "$port" &
started+=("$!")
wait_for_port "$port" || fail "busy.py doesn't answer"
rm -rf "$scratch/odd"/{linked,windows,zz}.avsc
register 0 "$scratch/odd" "http://127.0.0.1:$port" --commit abc123
[ "$(cat "$scratch/table")" = "$(printf '%-30s %-30s registered  {"id":7,"more":"\\x1b[2J"}' aaa.avsc aaa)" ] ||
  fail "after a repeated request: $(cat "$scratch/table")"

# The workflow: a pull request gets another secret than the registration, which has an environment. Its commands.
workflow=$examples/ci/schemas.yml
[ "$(wc -l <"$workflow")" -le 30 ] || fail "the workflow is longer than 30 lines"
/usr/bin/python3 - "$workflow" <<'PYTHON' || fail "the workflow's secrets are wrong"
import re, sys, yaml
jobs = yaml.safe_load(open(sys.argv[1]))["jobs"]
secrets = {name: set(re.findall(r"secrets\.(\w+)", str(job))) for name, job in jobs.items()}
assert secrets == {"check": {"NETRC_READ"}, "register": {"NETRC_REGISTER"}}, secrets
assert "environment" in jobs["register"] and "environment" not in jobs["check"]
assert jobs["check"]["if"] == "github.event_name == 'pull_request'" and jobs["register"]["if"] == "github.event_name == 'push'"
PYTHON
mkdir "$scratch/job"
ln -s "$scratch/good" "$scratch/job/schemas"
ln -s "$examples" "$scratch/job/tools"
sed -n "s/^ *- run: \(tools.*\)/\1/p" "$workflow" | sed "s,\\\${{ vars.REGISTRY_URL }},$url," >"$scratch/job/commands"
[ "$(wc -l <"$scratch/job/commands")" = 2 ] || fail "the workflow hasn't two commands"
(cd "$scratch/job" && GITHUB_SHA=fed789 bash -e commands) || fail "a command of the workflow failed"

stop_server
check 2 '' "$scratch/good" "$url"
register 2 "$scratch/good" "$url" --commit abc123
echo "Each check passed."
