#!/usr/bin/env bash
# The part of packaging/try.sh that runs inside a booted Debian. It installs /root/avroreg.deb, and later /root/program with the
# script install of /root/sources.
set -u
source /root/checks.sh
url=http://127.0.0.1:8081
write() { answers 200 '{"id":1}' -H "Registry-Retry-Key: $1" -d '{"schema":"\"string\""}' "${3:-$url}/subjects/$2/versions"; }
pid() { systemctl show -P MainPID "$1"; }
property() { [ "$(systemctl show -P "$2" "$1")" = "$3" ] || { systemctl show "$1" -p "$2"; return 1; }; }

check "the package is installed" dpkg -i /root/avroreg.deb
check "it starts nothing" bash -c '! systemctl is-active avroreg && ! systemctl is-enabled avroreg'
check "it makes no registry" test ! -e /var/lib/avroreg/registry.db
check "a start without a registry is refused" bash -c '! systemctl start avroreg'
check "the guard names init" bash -c "journalctl -u avroreg -o cat | grep -qx 'guard: next: avroreg-admin init'"
check "init makes a registry, and starts it" avroreg-admin init
check "the service is active" systemctl is-active avroreg
check "a boot starts it and its timers" systemctl is-enabled avroreg avroreg-backup.timer avroreg-watch.timer
check "a second init is refused" bash -c '! avroreg-admin init'
check "it answers" answers 200 BACKWARD "$url/config"
check "a write is acknowledged" write k1 orders
check "it runs as its own user" test "$(ps -o user= -p "$(pid avroreg)")" = avroreg
check "it has no capabilities" grep -qE '^CapBnd:\s0+$' "/proc/$(pid avroreg)/status"
check "its system calls are filtered" grep -qE '^Seccomp:\s2$' "/proc/$(pid avroreg)/status"
check "only its user reads the registry" test "$(stat -c '%a %U' /var/lib/avroreg)" = "700 avroreg"
check "a restart is over when it answers" bash -c "systemctl restart avroreg && curl -s -f $url/config"
before=$(pid avroreg)
systemctl kill -s KILL --kill-who=main avroreg
begin=$(date +%s%N)
check "killed with -9, it answers again" eventually 60 answers 200 BACKWARD "$url/config"
echo "       after $((($(date +%s%N) - begin) / 1000000)) ms"
check "systemd started it again" test "$(pid avroreg)" != "$before"
check "the acknowledged write is kept" answers 200 '[1]' "$url/subjects/orders/versions"
check "its retry gets the first reply" write k1 orders
check "it stops" systemctl stop avroreg
check "the mark says so" grep -q '"state": "stopped"' /var/lib/avroreg/registry.mark
check "stopped, the file is readable" runuser -u avroreg -- avroreg list --db /var/lib/avroreg/registry.db versions
check "it starts again" systemctl start avroreg
check "the service answers at once" answers 200 '["orders"]' "$url/subjects"

check "a taken port is refused" bash -c '! avroreg-admin init --registry payments --port 8081'
check "a second registry starts" avroreg-admin init --registry payments --port 8082
check "it accepts a write" write k1 payments http://127.0.0.1:8082
check "it has its own file" test -s /var/lib/avroreg-payments/registry.db
check "the first registry doesn't have its subject" answers 200 '["orders"]' "$url/subjects"

check "a backup is made while the server runs" systemctl start avroreg-backup
check "the backup passed its audit" test -s /var/lib/avroreg-backup/last-good.json
mkdir -p /root/far
echo "AVROREG_AFTER_BACKUP='cp \"\$AVROREG_BACKUP\" \"\$AVROREG_RECORD\" \"\$AVROREG_SETTINGS\" /root/far/'" >>/etc/default/avroreg
check "root copies the next backup elsewhere" bash -c 'systemctl start avroreg-backup && test -s /root/far/registry-*.db && test -s /root/far/registry-*.json'
check "with the settings" bash -c 'tar -tf /root/far/settings-*.tar | grep -qx etc/default/avroreg'
sed -i /AVROREG_AFTER_BACKUP/d /etc/default/avroreg
check "a write after the backup is acknowledged" answers 200 '{"id":2}' -d '{"schema":"\"int\""}' "$url/subjects/later/versions"
check "the backup is restored" avroreg-admin restore --registry default --yes
check "the registry is that of the backup" answers 200 '["orders"]' "$url/subjects"
check "its user owns the restored file" test "$(stat -c '%a %U %G' /var/lib/avroreg/registry.db)" = "600 avroreg avroreg"
check "the old files are kept" bash -c 'test -s /var/lib/avroreg/jobs/*/old/registry.db-wal'
check "the lost id stays used up" answers 200 '{"id":3}' -d '{"schema":"\"long\""}' "$url/subjects/third/versions"
check "metrics are written" systemctl start avroreg-watch
check "the metrics report that the server is up" grep -qx 'avroreg_up 1' /var/lib/avroreg-metrics/avroreg.prom
check "the timers start" systemctl start avroreg-backup.timer avroreg-watch.timer
check "a backup of the second registry is made" systemctl start avroreg-backup@payments
check "the backup has the second registry's subject" grep -q '"subjects": 1' /var/lib/avroreg-backup-payments/last-good.json
check "metrics of the second registry are written" systemctl start avroreg-watch@payments
check "these metrics have the second registry's name" grep -qx 'avroreg_up{registry="payments"} 1' /var/lib/avroreg-metrics/avroreg-payments.prom
check "the metrics of its backup have the name too" grep -qE '^avroreg_backup_schemas\{registry="payments"\} 1$' /var/lib/avroreg-metrics/avroreg-payments.prom
check "the second registry's timers start" systemctl start avroreg-backup@payments.timer avroreg-watch@payments.timer

check "another port" avroreg-admin port 8091 --registry payments --yes
check "the second registry is there" answers 200 '["payments"]' http://127.0.0.1:8091/subjects
check "and back" avroreg-admin port 8082 --registry payments --yes
check "logs show its starts" grep -q 'Started avroreg@payments' <(avroreg-admin logs --registry payments)
mkdir /srv/new
mount -t tmpfs -o mode=755 new /srv/new
mount --bind /srv/new /mnt
check "a move to a larger disk stops halfway" bash -c 'avroreg-admin move /mnt --registry payments --yes; [ $? = 3 ]'
check "meanwhile nothing starts" bash -c '! systemctl start avroreg@payments'
check "it doesn't go on without the mount" bash -c 'avroreg-admin continue --registry payments; [ $? = 3 ]'
umount /mnt
mount --bind /srv/new /var/lib/avroreg-payments
check "after the mount it goes on" avroreg-admin continue --registry payments
check "the registry is served from the new disk" answers 200 '["payments"]' http://127.0.0.1:8082/subjects
check "the old files are kept" bash -c 'test -s /var/lib/avroreg-payments-before-*/registry.db'
check "the unit needs its disk" grep -q /var/lib/avroreg-payments <(systemctl show -P RequiresMountsFor avroreg@payments)
mount --bind /srv/new /mnt
check "a move to the disk that it is on is refused" bash -c '! avroreg-admin move /mnt --registry payments --yes'
umount /mnt
check "a move to a folder is refused" bash -c '! avroreg-admin move /srv --registry payments --yes'

cp /etc/default/avroreg /root/default
sed -i 's/^AVROREG_PORT=.*/AVROREG_PORT=none/' /etc/default/avroreg
systemctl reset-failed avroreg
check "wrong arguments are a failure" bash -c '! systemctl restart avroreg'
check "the service's exit status is 64" property avroreg ExecMainStatus 64
sleep 3
check "systemd doesn't start it again with them" property avroreg NRestarts 0
cp /root/default /etc/default/avroreg
systemctl reset-failed avroreg
systemctl stop avroreg
cp -a /var/lib/avroreg /root/kept
head -c 5000 /dev/urandom >/var/lib/avroreg/registry.db
# The limit is five starts in a minute. On a busy machine five failures take longer, so here they may take an hour.
mkdir -p /run/systemd/system/avroreg.service.d
printf '[Unit]\nStartLimitIntervalSec=1h\n' >/run/systemd/system/avroreg.service.d/slow.conf
systemctl daemon-reload
systemctl start avroreg 2>/dev/null
check "a damaged file is a failure" eventually 1200 property avroreg ActiveState failed
check "systemd starts it only five more times" property avroreg NRestarts 5
rm /run/systemd/system/avroreg.service.d/slow.conf
systemctl daemon-reload
check "the unit's limit is a minute" property avroreg StartLimitIntervalUSec 1min
check "the journal names the file" bash -c "journalctl -u avroreg -o cat | grep -q 'avroreg: .*registry.db'"
cp -a /root/kept/. /var/lib/avroreg/
systemctl reset-failed avroreg
check "with the file restored, it starts" systemctl start avroreg
check "the versions are there" answers 200 '[1]' "$url/subjects/orders/versions"
check "an upgrade restarts it" bash -c "dpkg -i /root/avroreg.deb && curl -s -f $url/config"

# as an earlier release left it, which had no avroreg-admin
systemctl stop avroreg avroreg@payments
rm -r /var/lib/avroreg-admin /var/lib/avroreg*/registry.mark
mv /var/lib/avroreg/registry.db /var/lib/avroreg/moved.db
mv /var/lib/avroreg/registry.db-wal /var/lib/avroreg/moved.db-wal
echo AVROREG_DB=/var/lib/avroreg/moved.db >>/etc/default/avroreg
check "an upgrade adopts both registries" dpkg -i /root/avroreg.deb
check "the first one is served, and its file is registry.db" answers 200 '[1]' "$url/subjects/orders/versions"
check "the second one is served" answers 200 '[1]' http://127.0.0.1:8082/subjects/payments/versions
check "the settings name no other file" bash -c '! grep -q ^AVROREG_DB /etc/default/avroreg'
check "the adopted registry is backed up" systemctl start avroreg-backup
check "a removal stops both registries" bash -c "dpkg -r avroreg && ! curl -s $url/config && ! curl -s http://127.0.0.1:8082/config"
check "a removal stops the timers of both" bash -c "! systemctl is-active avroreg-backup.timer && ! systemctl is-active avroreg-watch@payments.timer"
check "the package is purged" dpkg -P avroreg

check "the sources install it without a package" env AVROREG=/root/program /root/sources/packaging/install
check "the program is the one that its record names" sha256sum -c /usr/share/avroreg/program
check "the registry of before starts" systemctl enable --now avroreg
check "it serves the registry" answers 200 '[1]' "$url/subjects/orders/versions"
check "the template starts the second registry" bash -c "echo AVROREG_PORT=8082 >/etc/default/avroreg-payments && systemctl start avroreg@payments"
check "a registry of another name is made" avroreg-admin init --registry later --port 8084
check "a backup is made without the package" systemctl start avroreg-backup
echo AVROREG_PORT=8083 >>/etc/default/avroreg
check "installed again, it keeps the settings" bash -c "AVROREG=/root/program /root/sources/packaging/install && grep -qx AVROREG_PORT=8083 /etc/default/avroreg"
print_counts
