#!/usr/bin/env bash
# The part of packaging/try.sh that runs the same commands for the service, for a further registry and for a container, inside a
# booted Debian with podman. Their outputs have to be equal, with names, ports, times and sizes masked.
set -u
source /root/checks.sh
dpkg -i /root/avroreg.deb >/dev/null 2>&1
podman load -q -i /root/avroreg.tar >/dev/null
image=$(podman images --format '{{.Repository}}:{{.Tag}}' | head -n 1)

# write PORT NAME: registers a schema.
write() { curl -s -f -m 60 -d "{\"schema\":\"{\\\"type\\\":\\\"fixed\\\",\\\"name\\\":\\\"$2\\\",\\\"size\\\":1}\"}" "http://127.0.0.1:$1/subjects/$2/versions"; }
# mask: makes the outputs of registries comparable. What depends on how far `watch` came is left out.
mask() {
  sed -E 's/avroreg-container@[a-z]+|avroreg@[a-z]+/avroreg/g; s/ --registry [a-z]+//g; s,/var/lib/(avroreg|avroreg-backup)-(orders|box),/var/lib/\1,g
    s,/avroreg-(orders|box)\b,/avroreg,g; s/^(default|orders|box) +/NAME  /; s/\b(default|orders|box)\b/NAME/g
    s/[0-9]{8}T[0-9]{6}Z/ID/g; s/[0-9]{4}-[0-9-]*[ T][0-9:]+(\+00:00)?/TIME/g; s/[0-9][0-9,.]* ([KMG]?B|ms|s|seconds?|minutes?)\b/N \1/g; s/[0-9][0-9,]*/N/g; s/ +/ /g
    /^ *(lost ids|nginx)/d; /^warn ids may have/d'
}
# commands PORT NAME: what an operator does with a registry. Each line is printed before its output.
commands() {
  local port=$1 name=$2 line
  while read -r line; do
    echo "\$ $line"
    case $line in
      write*) write "$port" "${line#* }" ;;
      crash) systemctl kill -s KILL "$(unit "$name")" && sleep 1 && eventually 60 curl -s -f -o /dev/null "http://127.0.0.1:$port/config" ;;
      stop) systemctl stop "$(unit "$name")" ;;
      start) systemctl start "$(unit "$name")" ;;
      lose*) rm "$(folder "$name")/registry.db" ;;
      swap) cp -a "$(folder "$name")/registry.db" "$(folder "$name")/x" && mv "$(folder "$name")/x" "$(folder "$name")/registry.db" ;;
      watch) systemctl start "avroreg-watch$([ "$name" = default ] || echo "@$name")" ;;
      nightly) systemctl start "avroreg-backup$([ "$name" = default ] || echo "@$name")" ;;
      *) eval "avroreg-admin ${line//PORT/$((port + 100))} --registry $name --yes" ;;
    esac 2>&1
    echo "status $?"
  done <<'LINES'
write a
write b
watch
status
doctor --quick
backup
drill
write c
watch
backups
crash
read-only on
write d
read-only off
port PORT
port PORT
restore --dry-run
stop
lose the file
start
doctor --quick
restore
watch
stop
swap
start
accept --reason trial
rescue
repair
nightly
backups
backup --keep 3
undo
continue
lost-ids --count 3
status
LINES
}
unit() {
  case $1 in
    default) echo avroreg ;;
    orders) echo avroreg@orders ;;
    box) echo avroreg-container@box ;;
  esac
}
folder() { [ "$1" = default ] && echo /var/lib/avroreg || echo "/var/lib/avroreg-$1"; }

check "a service" avroreg-admin init
check "a further registry" avroreg-admin init --registry orders --port 8082
check "a container" avroreg-admin init --registry box --port 8083 --image "$image"
check "its server is in the container" grep -q libpod <(podman ps --format '{{.Names}} libpod {{.Status}}' --filter name=avroreg-box)
check "an unknown image is refused" bash -c '! avroreg-admin init --registry other --port 8085 --image localhost/none'
port=8081
for name in default orders box; do
  commands "$port" "$name" >"/root/$name.raw"
  mask <"/root/$name.raw" >"/root/$name.out"
  port=$((port + 1))
done
cat /root/default.raw >&2
diff /root/default.out /root/orders.out >&2
check "the further registry gives the output of the service" diff /root/default.out /root/orders.out
check "the container gives the output of the service" diff /root/default.out /root/box.out
check "no command failed unexpectedly" bash -c '! grep -E "Traceback|^status (2|64|70)$" /root/default.raw'
check "the container's user can't reach the host" grep -qE '^CapEff:\s0+$' "/proc/$(podman inspect -f '{{.State.Pid}}' avroreg-box)/status"
check "killed by its own user, as watch does, it starts again with the guard" bash -c 'runuser -u avroreg -- kill -9 "$(podman inspect -f "{{.State.Pid}}" avroreg-box)"; sleep 1; for _ in $(seq 60); do systemctl -q is-active avroreg-container@box && exit; sleep 1; done; exit 1'
podman tag "$image" localhost/avroreg:new
check "another image" avroreg-admin upgrade --image localhost/avroreg:new --registry box --yes
check "it is in use" grep -qx localhost/avroreg:new <(podman ps --format '{{.Image}}' --filter name=avroreg-box)
check "and back" avroreg-admin rollback --registry box --yes
check "the image of before is in use" grep -qx "AVROREG_IMAGE=$image" /etc/default/avroreg-box
check "nothing is lost" diff <(curl -s http://127.0.0.1:8181/subjects) <(curl -s http://127.0.0.1:8183/subjects)
write 8183 last >/dev/null
systemctl stop avroreg-container@box
rm -f /var/lib/avroreg-box/registry.db-wal
check "without its log, it doesn't start" bash -c '! systemctl start avroreg-container@box'
print_counts
