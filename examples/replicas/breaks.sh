# A function for trial.sh, odd.sh and operations.sh: it breaks the relay or nginx.conf, and runs a script that must detect it.
# Source this file; don't run it.

# try_breaks KIND "NAME.." COMMAND..: for each break of the kind, or each named one, runs the command with --relay BROKEN. The
# command must end with status 1 and the report of the break. Returns 1 if a break wasn't detected.
try_breaks() {
  local kind=$1 names=$2 name report found outcome tried=0 undetected=0
  shift 2
  while read -r name report; do
    [ -z "$names" ] || [[ " $names " == *" $name "* ]] || continue
    tried=$((tried + 1))
    "$python" "$here/trial/breaks.py" "$kind" "$name" "$scratch/$name" || fail "the break $name can't be made"
    "$@" --relay "$scratch/$name/avroreg-relay" </dev/null >"$scratch/$name.log" 2>&1
    outcome=$?
    if [ $outcome = 1 ] && found=$(grep -E -m1 "^WRONG:? ($report)" "$scratch/$name.log"); then
      echo "$name: detected: ${found:0:200}"
    else
      echo "$name: NOT DETECTED, status $outcome: $(grep -m1 '^WRONG' "$scratch/$name.log"); $(tail -n 1 "$scratch/$name.log")"
      undetected=$((undetected + 1))
    fi
  done < <("$python" "$here/trial/breaks.py" "$kind")
  [ $tried != 0 ] || fail "there is no break $names"
  return $((undetected != 0))
}
