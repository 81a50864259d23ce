#!/usr/bin/env bash
# The part of packaging/try.sh that upgrades, inside a booted Debian with two registries: avroreg-admin upgrade and rollback, killed and
# continued or undone, and plain dpkg. /root/newer.deb is the same package with a higher version.
set -u
source /root/checks.sh
url=http://127.0.0.1:8081
orders=http://127.0.0.1:8082
export DEBIAN_FRONTEND=noninteractive
number=0

# write: one acknowledged registration in each registry.
write() {
  number=$((number + 1))
  for at in "$url" "$orders"; do
    curl -s -f -m 60 -d "{\"schema\":\"{\\\"type\\\":\\\"fixed\\\",\\\"name\\\":\\\"n$number\\\",\\\"size\\\":$number}\"}" "$at/subjects/s$number/versions" || return 1
  done
}
serves_all() {
  for at in "$url" "$orders"; do
    [ "$(curl -s -f -m 60 "$at/subjects" | grep -o '"s[0-9]*"' | wc -l)" = "$number" ] || return 1
  done
}
is_version() { [ "$(dpkg-query -W -f '${Version} ${db:Status-Status}' avroreg)" = "$1 installed" ]; }
is_over() { ! ls /var/lib/avroreg-admin/*/job.json && ! ls /run/avroreg-admin/*/paused; }
pinned() { grep -ql "before $1" /var/lib/avroreg-backup/*.json && grep -ql "before $1" /var/lib/avroreg-backup-orders/*.json; }
admin() { avroreg-admin "$@" --registry default --yes; }

dpkg -i /root/avroreg.deb >/dev/null 2>&1
old=$(dpkg-query -W -f '${Version}' avroreg)
avroreg-admin init >/dev/null 2>&1
avroreg-admin init --registry orders --port 8082 >/dev/null 2>&1
for _ in 1 2 3; do write >/dev/null; done
check "both registries serve" serves_all
check "the same version is refused" bash -c '! avroreg-admin upgrade /root/avroreg.deb --registry default --yes'
check "a dry run changes nothing" bash -c 'avroreg-admin upgrade /root/newer.deb --old /root/avroreg.deb --registry default --dry-run && test ! -e /var/lib/avroreg-admin/packages'
check "an upgrade" admin upgrade /root/newer.deb --old /root/avroreg.deb
check "the new version is installed" is_version 9.9.9
check "both serve what they had" serves_all
check "both were backed up, and the backups are pinned" pinned 9.9.9
check "nothing is left unfinished or paused" is_over
check "a write after it" write
check "a rollback" admin rollback
check "the old version is installed" is_version "$old"
check "both serve every write, also the one after the upgrade" serves_all
check "nothing is left unfinished or paused" is_over
check "a second rollback is refused" bash -c '! avroreg-admin rollback --registry default --yes'

for seconds in 0.5 2 4 7; do
  avroreg-admin upgrade /root/newer.deb --registry default --yes >/root/killed.log 2>&1 &
  killed=$!
  sleep "$seconds"
  kill -9 $killed
  wait $killed 2>/dev/null
  while pgrep -x "apt-get|dpkg" >/dev/null; do sleep 0.2; done
  dpkg --configure -a >/dev/null 2>&1
  [ ! -e /var/lib/avroreg-admin/default/job.json ] || check "killed after $seconds s ($(grep -c '/6 ' /root/killed.log) steps): continue" admin continue
  is_version 9.9.9 || check "nothing had begun: again" admin upgrade /root/newer.deb
  check "the new version is installed" is_version 9.9.9
  check "both serve every write" serves_all
  check "nothing is left unfinished or paused" is_over
  check "a rollback" admin rollback
done
avroreg-admin upgrade /root/newer.deb --registry default --yes >/root/killed.log 2>&1 &
killed=$!
eventually 60 grep -q '2/6' /root/killed.log
kill -9 $killed
wait $killed 2>/dev/null
while pgrep -x "apt-get|dpkg" >/dev/null; do sleep 0.2; done
check "killed after the stop: undo" admin undo
check "the old version is installed" is_version "$old"
check "both serve every write" serves_all
check "nothing is left unfinished or paused" is_over

check "plain dpkg" dpkg -i /root/newer.deb
check "both serve every write" serves_all
check "and back" dpkg -i /root/avroreg.deb
check "both serve every write" serves_all
systemctl stop avroreg@orders
cp /var/lib/avroreg-orders/registry.db /root/orders.db
head -c 5000 /dev/urandom >/var/lib/avroreg-orders/registry.db
check "if a backup fails its audit, dpkg ends" bash -c '! dpkg -i /root/newer.deb'
check "with nothing changed" is_version "$old"
check "the other registry serves" bash -c "curl -s -f $url/config"
cat /root/orders.db >/var/lib/avroreg-orders/registry.db
systemctl start avroreg@orders
check "both serve every write" serves_all
check "while a command runs, dpkg ends too" bash -c 'flock /var/lib/avroreg-admin/orders/lock sleep 20 & sleep 1; ! dpkg -i /root/newer.deb; result=$?; kill %1; exit $result'
print_counts
