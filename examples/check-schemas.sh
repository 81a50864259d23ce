#!/usr/bin/env bash
# For a pull request: asks a registry whether it would accept each schema of a folder. If not, it prints the file, the version
# of the subject, the direction, and the reason. It registers nothing.
#
#   examples/check-schemas.sh DIR URL
#
# A file's name without `.avsc` is its subject: orders-value.avsc is for orders-value. Write %2F for a slash and %25 for a
# percent sign. schema_files.py says which files it reads, and which make it stop; register-schemas reads the same.
#
# A schema that a live version of its subject has is accepted. Any other is compared with the versions that the subject's
# level names: all live ones for a TRANSITIVE level, none for NONE, else the latest.
#
# The lines `second opinion` are python3-avro's reasons, if it is installed. Only avroreg's verdict counts. If python3-avro calls
# the schemas compatible, a line reports this.
#
# Status 0 if each schema would be accepted, 1 if one wouldn't. Status 2 if the registry doesn't respond, returns another error
# (such as 401), a file can't be used, or there is no schema. Status 64 for wrong arguments. The script ignores modes: a read-only
# subject rejects new schemas that pass here. curl reads the user and the password from ~/.netrc, and its own environment
# (CURL_CA_BUNDLE, https_proxy). Needs curl, jq and python3.
set -u
here=$(cd "$(dirname "$0")" && pwd)
scratch=$(mktemp -d)
trap 'rm -rf "$scratch"' EXIT

# stop TEXT: exits without a verdict.
stop() {
  echo "check-schemas.sh: $*" >&2
  exit 2
}

# ask METHOD PATH [BODY]: sends a request. It sets $status, $code and $answer to the response's.
ask() {
  answer=$(curl -sS --netrc-optional --max-time 60 -X "$1" -w '\n%{http_code}' -H 'Expect:' \
    -H 'Content-Type: application/vnd.schemaregistry.v1+json' ${3:+--data-binary @-} "$url$2" <<<"${3:-}") ||
    stop "$url doesn't respond"
  status=${answer##*$'\n'}
  answer=${answer%$'\n'*}
  code=$(jq -r '.error_code? // empty' <<<"$answer" 2>/dev/null)
}

# get MEMBER METHOD PATH [BODY]: the same, and exits if the status isn't 200. It sets $found to a member of the response.
get() {
  ask "${@:2}"
  [ "$status" = 200 ] || stop "$url$3 answers $status: $answer"
  found=$(jq -r "$1" <<<"$answer") || stop "$url$3 answers no JSON: $answer"
}

# opinion READER WRITER DIRECTION: prints python3-avro's reasons for two files, with a mark. Status 1 if it has none.
opinion() {
  local lines status
  lines=$(timeout 20 /usr/bin/python3 "$here/why.py" "$scratch/$1" "$scratch/$2" 2>&1)
  status=$?
  [ $status != 1 ] || return 1
  [ $status != 124 ] || lines="python3-avro took over 20 seconds"
  sed "s/^/    second opinion, $3: /" <<<"$lines"
}

# explain VERSION: prints the second opinion on a version and the schema in $path, in the directions of $level.
explain() {
  local silent=1
  /usr/bin/python3 -c 'import avro.compatibility' 2>/dev/null || {
    echo "    no second opinion: install python3-avro for reasons"
    return
  }
  jq -j .text <<<"$schema" >"$scratch/new"
  get .schema GET "/subjects/$quoted/versions/$1"
  printf '%s' "$found" >"$scratch/old"
  case $level in BACKWARD* | FULL*) opinion new old "the new schema reads version $1" && silent=0 ;; esac
  case $level in FORWARD* | FULL*) opinion old new "version $1 reads the new schema" && silent=0 ;; esac
  [ $silent = 0 ] || echo "    second opinion: python3-avro calls them compatible. avroreg's verdict counts"
}

# compare: compares the schema in $body with the versions of $subject that its level names.
compare() {
  local level versions version against=0
  get '.[]' GET "/subjects/$quoted/versions"
  versions=$found
  get .compatibilityLevel GET "/config/$quoted?defaultToGlobal=true"
  level=$found
  case $level in
  NONE) versions= ;;
  *_TRANSITIVE) ;;
  *) versions=$(tail -n 1 <<<"$versions") ;;
  esac
  for version in $versions; do
    get .is_compatible POST "/compatibility/subjects/$quoted/versions/$version" "$body"
    [ "$found" = true ] && continue
    echo "$file: incompatible with version $version of $subject, by $level"
    explain "$version"
    against=1
  done
  [ "$against" = 0 ] && echo "$file: compatible with $subject, by $level"
  return "$against"
}

# check SCHEMA: checks whether the registry would accept a schema, which is a line of schema_files.py.
check() {
  local schema=$1 file subject quoted body
  file=$(jq -r .name <<<"$schema")
  subject=$(jq -r .subject <<<"$schema")
  quoted=$(jq -r '.subject | @uri' <<<"$schema")
  body=$(jq -c '{schema: .text}' <<<"$schema")
  ask POST "/subjects/$quoted" "$body"
  case $status/$code in
  200/*) echo "$file: already version $(jq .version <<<"$answer") of $subject" ;;
  404/40401) echo "$file: the first version of $subject" ;;
  404/40403) compare ;;
  422/42201)
    echo "$file: not a schema that the registry accepts"
    return 1
    ;;
  413/*)
    echo "$file: too large for the registry"
    return 1
    ;;
  *) stop "$url/subjects/$quoted answers $status: $answer" ;;
  esac
}

[ $# = 2 ] || {
  echo "usage: check-schemas.sh DIR URL" >&2
  exit 64
}
for command in curl jq python3; do
  command -v "$command" >/dev/null || stop "there is no $command here"
done
url=${2%/}
schemas=$("$here/schema_files.py" "$1" 2>"$scratch/refused") || stop "$(cat "$scratch/refused")"
rejected=0
while read -r line <&3; do
  check "$line" || rejected=1
done 3<<<"$schemas"
exit "$rejected"
