#!/usr/bin/env bash
# The part of packaging/try.sh that fills the registry's disk inside a booted Debian, with nobody there. The units' timer runs
# `watch` each minute. A configuration of nginx tells watch that nginx keeps writes out; admin/try.sh has the trial with nginx.
set -u
source /root/checks.sh
url=http://127.0.0.1:8081
folder=/var/lib/avroreg
number=0

# register SIZE: registers a new schema, and notes its subject in /root/acknowledged. It returns 1 if the write isn't acknowledged.
register() {
  local doc status
  number=$((number + 1))
  doc=$(head -c "$1" /dev/zero | tr '\0' x)
  status=$(curl -s -o /root/reply -w '%{http_code}' -m 60 -d @- "$url/subjects/s$number/versions" \
    <<<"{\"schema\":\"{\\\"type\\\":\\\"enum\\\",\\\"name\\\":\\\"n$number\\\",\\\"symbols\\\":[],\\\"doc\\\":\\\"$doc\\\"}\"}")
  [ "$status" = 200 ] && echo "s$number" >>/root/acknowledged
}
serves_all() {
  [ -z "$(comm -23 <(sort /root/acknowledged) <(curl -s -f -m 60 "$url/subjects" | tr -d '[]"' | tr , '\n' | sort))" ]
}
fails() { ! register 200000 && grep 50001 /root/reply; }
reads() { answers 200 BACKWARD "$url/config" && serves_all; }
# within SECONDS COMMAND..: repeats the command until it succeeds, and prints how long that took.
within() {
  local begin=$SECONDS
  eventually "$@" || return 1
  echo "       after $((SECONDS - begin)) s" >/root/took
}
fill() { cat /dev/zero >$folder/filler 2>/dev/null || true; }
restarts() { [ "$(sed -n 's/^avroreg_restarts //p' /var/lib/avroreg-metrics/avroreg.prom)" = "$1" ]; }

mkdir -p $folder /etc/nginx/conf.d
dpkg -i /root/avroreg.deb >/dev/null 2>&1
mount -t tmpfs -o size=200M,mode=700,uid="$(id -u avroreg)",gid="$(id -g avroreg)" disk $folder
check "a registry is made on a disk of its own" avroreg-admin init
for _ in 1 2 3 4 5; do register 1000; done
check "five writes are acknowledged" test "$(wc -l </root/acknowledged)" = 5

fill
check "without nginx, a write on the full disk fails the store" fails
check "everything gets 50001 then" answers 500 50001 "$url/config"
rm $folder/filler
check "reads and writes are back within 120 s after there is space" within 120 register 1000
cat /root/took
check "every acknowledged write is there" serves_all

echo '1 /run/avroreg/default/paused;' >/etc/nginx/conf.d/avroreg.conf
fill
check "behind nginx, a write on the full disk fails the store" fails
check "reads are back within 120 s" within 120 reads
cat /root/took
check "nginx would keep writes out" test -s /run/avroreg/default/paused
check "nginx's user can see that" runuser -u nobody -- test -e /run/avroreg/default/paused
check "doctor names the problem" bash -c "avroreg-admin doctor | grep -E '^PROBLEM +disk-full'"
check "the metrics say so" eventually 70 grep -x 'avroreg_writes_paused{reason="disk-full"} 1' /var/lib/avroreg-metrics/avroreg.prom
rm $folder/filler
check "writes resume within 120 s after there is space" within 120 test ! -e /run/avroreg/default/paused
cat /root/took
check "a write is acknowledged" register 1000
check "every acknowledged write is there" serves_all
check "watch restarted the server twice" eventually 70 restarts 2
check "doctor finds no problem of the disk" bash -c "! avroreg-admin doctor | grep -E '^PROBLEM +(disk-full|store-failed)'"

head -c 150M /dev/zero >$folder/filler
check "below the floor, writes are paused before the store fails" eventually 70 test -e /run/avroreg/default/paused
check "the server goes on" answers 200 BACKWARD "$url/config"
rm $folder/filler
check "and resume" eventually 70 test ! -e /run/avroreg/default/paused

check "doctor runs without root" bash -c "runuser -u nobody -- avroreg-admin doctor; [ \$? -le 1 ]"
check "so does status" bash -c "runuser -u nobody -- avroreg-admin status | grep 'answers in'"

# A server that a killed command left suspended goes on.
kill -STOP "$(systemctl show -P MainPID avroreg)"
check "a suspended server goes on" eventually 200 answers 200 BACKWARD -m 5 "$url/config"
check "every acknowledged write is there" serves_all
journalctl -u avroreg-watch -o cat | grep '^avroreg-admin' | sed 's/^/       /'
print_counts
