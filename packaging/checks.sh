# Functions for the trials of packaging/. A check is a command that must succeed. Source this file; don't run it.

passes=0
failures=0

# fail_check NAME: prints a failed check, and counts it.
fail_check() {
  echo "FAILED $*"
  failures=$((failures + 1))
}

# skip_check TEXT: prints a skipped check and the reason. It counts neither as passed nor as failed.
skip_check() { echo "skipped $*"; }

# check NAME COMMAND..: runs the command, and counts whether it succeeds. If it fails, prints its output.
check() {
  local name=$1 output
  shift
  output=$(mktemp)
  if "$@" >"$output" 2>&1; then
    echo "ok     $name"
    passes=$((passes + 1))
    rm "$output"
    return 0
  fi
  fail_check "$name"
  sed 's/^/       /' "$output" | tail -n 12
  rm "$output"
  return 1
}

print_counts() { echo "$passes passed, $failures failed"; }

# add_counts FILE: adds the counts in the last line of another trial's output. Without such a line, that trial failed.
add_counts() {
  local line
  line=$(tail -n 1 "$1")
  if [[ $line =~ ^([0-9]+)\ passed,\ ([0-9]+)\ failed$ ]]; then
    passes=$((passes + BASH_REMATCH[1]))
    failures=$((failures + BASH_REMATCH[2]))
  else
    fail_check "the trial ended early"
  fi
}

# answers STATUS TEXT CURL'S ARGUMENT..: whether curl gets a response with this status and with this text in its body.
answers() {
  local status=$1 text=$2 response
  shift 2
  response=$(curl -s -m 60 -w '\n%{http_code}' "$@")
  echo "$response"
  [[ $response == *"$text"* && ${response##*$'\n'} == "$status" ]]
}

# eventually SECONDS COMMAND..: repeats the command until it succeeds.
eventually() {
  local end=$((SECONDS + $1))
  shift
  until "$@"; do
    [ "$SECONDS" -lt "$end" ] || return 1
    sleep 0.1
  done
}

# block PAGE HEADING: prints the first block of shell commands after this line of a page.
block() {
  awk -v heading="$2" 'index($0, heading) == 1 { on = 1 } on && /^```$/ { exit } inside { print } on && /^```sh$/ { inside = 1 }' "$1" |
    grep . || echo "echo 'no commands under $2 in $1'; exit 1"
}
