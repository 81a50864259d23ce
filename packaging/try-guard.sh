#!/usr/bin/env bash
# The part of packaging/try.sh that tries the guard inside a booted Debian: a real fault for each of its rules. The start is refused,
# the journal has the finding, and the command that the guard names leads back to service, with every acknowledged write. Without
# the rule, the guard lets the fault through. The registry's folder is on a disk of its own, of 100 MB.
set -u
source /root/checks.sh
url=http://127.0.0.1:8081
folder=/var/lib/avroreg
file=$folder/registry.db
rules=/usr/share/avroreg/avroreg_admin/guard.py
number=0

# write COUNT: registers new schemas, and notes them in /root/acknowledged. Then `watch` sees the greatest id.
write() {
  local _ id
  for _ in $(seq "$1"); do
    number=$((number + 1))
    id=$(curl -s -f -m 60 -d "{\"schema\":\"{\\\"type\\\":\\\"fixed\\\",\\\"name\\\":\\\"n$number\\\",\\\"size\\\":$number}\"}" "$url/subjects/s$number/versions" | tr -dc 0-9)
    [ -z "$id" ] || echo "s$number" >>/root/acknowledged
  done
  systemctl start avroreg-watch
}
# missing: the subjects that were acknowledged and aren't served.
missing() { comm -23 <(sort /root/acknowledged) <(curl -s -f -m 60 "$url/subjects" | tr -d '[]"' | tr , '\n' | sort); }
serves_all() { curl -s -f -m 60 "$url/config" && [ -z "$(missing)" ]; }
# serves_but COUNT: serves all acknowledged writes but the newest ones.
serves_but() { curl -s -f -m 60 "$url/config" && [ "$(missing | wc -l)" -le "$1" ] && missing >/root/lost && sed -i -f <(sed 's,.*,/^&$/d,' /root/lost) /root/acknowledged; }
stop() { systemctl stop avroreg; }
# finding ID: whether a start is refused, and the journal of it has this finding.
finding() {
  local since
  systemctl stop avroreg
  systemctl reset-failed avroreg
  since=$(date +%s.%N)
  ! systemctl start avroreg && systemctl stop avroreg && journalctl --sync &&
    journalctl -u avroreg --since "@$since" -o cat >/root/journal && cat /root/journal && grep -q "^guard: $1: " /root/journal
}
# named PATTERN: runs the command in the guard's message that has this text.
named() {
  local command
  command=$(grep -m1 -oE "(systemctl|avroreg-admin) [^:]*$1.*" /root/journal) || { cat /root/journal; return 1; }
  command=${command/TEXT/trial}
  [[ $command == systemctl* ]] || command+=" --yes"
  echo "$command"
  $command
}
# passes_without RULE: whether the guard lets the fault through if it lacks the rule.
passes_without() {
  local output
  cp "$rules" /root/guard.py
  sed -i "/^RULES = /s/\b$1, //" "$rules"
  output=$(runuser -u avroreg -- avroreg-admin guard 2>&1)
  cp /root/guard.py "$rules"
  echo "$output"
  ! grep -q "^guard: $2: " <<<"$output"
}
# doctor ID: whether doctor names the finding and the guard's first command.
doctor() {
  local command
  command=$(sed -n 's/^guard: next: //p' /root/journal | head -n 1)
  avroreg-admin doctor | tee /dev/stderr | grep -A 20 "^PROBLEM *$1 " | grep -F -e "${command%%TEXT*}" >/dev/null
}
# fault RULE ID TEXT: the checks before the way back.
fault() {
  check "$3: the start is refused, with $2" finding "$2"
  check "doctor says so, and names the same command" doctor "$2"
  check "without $1 it isn't" passes_without "$1" "$2"
}

mkdir -p /srv/disk $folder
mount -t tmpfs -o size=100M,mode=700 disk /srv/disk
dpkg -i /root/avroreg.deb >/dev/null 2>&1
chown avroreg:avroreg /srv/disk
mount --bind /srv/disk $folder
check "a registry is made on a disk of its own" avroreg-admin init
write 20
check "a backup is made" avroreg-admin backup
write 20
check "it restarts with all writes" bash -c 'systemctl restart avroreg'
check "all are served" serves_all

avroreg-admin restore --yes >/dev/null 2>&1 &
until [ -e /var/lib/avroreg-admin/default/job.json ]; do :; done
kill -9 $!
wait 2>/dev/null
fault check_job unfinished "a restore was killed"
check "continue leads back" named continue
check "all are served" serves_but 40

write 5
stop
mv /var/lib/avroreg-admin/default/registry.json /root/
fault check_registry no-registry "root's note is lost"
check "accept leads back" named accept
check "all are served" serves_all

stop
umount $folder
fault check_mark disk-not-mounted "the disk isn't mounted"
mount --bind /srv/disk $folder
check "a start after the mount leads back" named "start avroreg"
check "all are served" serves_all

check "a backup is made" avroreg-admin backup
stop
mkdir /root/away && mv $file $file-wal /root/away/
fault check_file file-missing "the file is gone"
check "restore leads back" named "restore"
check "all are served" serves_all

stop
cp -a $file $file.other && mv $file.other $file
fault check_inode file-replaced "another file is in its place"
check "accept leads back" named "accept"
check "all are served" serves_all

stop
ln $file $folder/second
fault check_access cannot-open "the file has a second hard link"
check "repair leads back" named repair
check "all are served" serves_all

write 5
systemctl kill -s KILL --kill-who=main avroreg
rm -f $file-wal
fault check_log log-missing "the log was removed after a kill"
check "accept leads back" named accept
check "all but the newest are served" serves_but 5

write 20
stop
python3 - $file-wal <<'END'
import sys
with open(sys.argv[1], "r+b") as log:
    size = log.seek(0, 2)
    log.seek(size // 3)
    byte = log.read(1)[0]
    log.seek(size // 3)
    log.write(bytes([byte ^ 4]))
END
fault check_chain log-damaged "one bit in the middle of the log is flipped"
check "restore leads back" named restore
check "all but the newest are served" serves_but 25

head -c 60M /dev/zero >$folder/filler
stop
since=$(date +%s.%N)
check "with little space it starts" systemctl start avroreg
check "with a warning" bash -c "journalctl --sync; journalctl -u avroreg --since @$since -o cat | grep -q '^guard: warning: disk-full'"
rm $folder/filler
check "all are served" serves_all

write 5
rm -f $file $file-wal
write 5
check "the files are removed while it serves, and it restarts: refused" finding file-missing
check "rescue puts back the copy that was saved" named rescue
check "all are served, also those after the removal" serves_all
write 5
mv $file-wal /root/wal
check "the log is renamed while it serves: refused" finding log-missing
check "rescue puts back the copy that was saved" named rescue
check "all are served" serves_all

stop
check "a user's list on the stopped file removes the log" bash -c "runuser -u avroreg -- avroreg list --db $file versions && test ! -e $file-wal"
check "it starts all the same" systemctl start avroreg
check "all are served" serves_all

write 5
mkdir -p /etc/systemd/system/avroreg.service.d
printf '[Service]\nExecStop=\n' >/etc/systemd/system/avroreg.service.d/no-rescue.conf
systemctl daemon-reload
rm -f $file $file-wal
check "without before-stop, a removed file is refused too" finding file-missing
check "but nothing was saved" bash -c '! grep rescue /root/journal'
print_counts
