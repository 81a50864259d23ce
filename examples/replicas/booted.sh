#!/usr/bin/env bash
# Boots three trees of Debian 12 under systemd, and sets them up with the commands of docs/install.md and README.md. Tests the
# units and the operations on them. Prints a line for each check. The last line is 'N passed, M failed'.
#
#   AVROREG=PROGRAM examples/replicas/booted.sh
#   BASE      a tree of Debian 12 with these packages to copy; by default debootstrap makes one, which needs the network
#
# Needs root, and Debian's debootstrap, systemd-container, iproute2 and openssl.
set -u
source "$(dirname "$0")/../serving.sh"
top=$(realpath "$examples/..")
source "$top/packaging/checks.sh"
source "$top/packaging/boot.sh"
[ -x "$avroreg" ] || fail "there is no program $avroreg; build it, or name it in AVROREG"
[ "$(id -u)" = 0 ] || fail "namespaces and mounts need root"
program=$(realpath "$avroreg")
exec 9>/run/avroreg-booted.lock
flock -n 9 || fail "this script runs already on this machine"
rmdir "$scratch"
scratch=$(mktemp -d /var/tmp/avroreg-booted.XXXXXX)
bridge=avrboot
packages=systemd,systemd-sysv,dbus,curl,procps,iproute2,python3,python3-h11,etcd-server,openssl,nginx-light
declare -A leaders=() containers=()
container=

clean_nodes() {
  local node
  [ -z "$container" ] || containers[booting]=$container
  for node in "${!containers[@]}"; do off "$node"; done
  for node in n1 n2 n3; do remove_cgroup "avrboot-$node"; done
  ip link del "$bridge" 2>/dev/null
  rm -rf --one-file-system "$scratch"
}
trap clean_nodes EXIT
trap 'exit 130' INT TERM

# tree NODE: makes a tree of Debian with the repository's files, the node's certificate, and a script of the pages' commands.
tree() {
  local node=$1 to=$scratch/$1/root/avroreg
  cp -a "$BASE" "$scratch/$node"
  echo "$node" >"$scratch/$node/etc/hostname"
  mkdir -p "$to/crates/avroreg/out"
  cp "$program" "$to/crates/avroreg/out/avroreg"
  cp -r "$top/packaging" "$top/admin" "$top/examples" "$scratch/tls" "$to/"
  cat >"$to/etcd.env" <<ENV
NODE=$node
PEER=https://10.78.0.${node#n}:2380
MEMBERS=n1=https://10.78.0.1:2380,n2=https://10.78.0.2:2380,n3=https://10.78.0.3:2380
STATE=new
ENV
  {
    echo "set -eux; cd /root/avroreg; ip addr add 10.78.0.${node#n}/24 dev host0; ip link set host0 up"
    block "$top/docs/install.md" "## Another Linux"
    block "$top/examples/replicas/README.md" "## Set up three nodes" |
      sed "s,tls/n1\.,tls/$node.,g; s,^editor \(.*\),cp etcd.env \1,; s,\(/etc/avroreg/\)  .*,\1 \&\& sed -i 's/^node = .*/node = \"$node\"/' /etc/avroreg/relay.toml," |
      sed '/^avroreg-cluster/d'
  } >"$to/set-up.sh"
}

# boot NODE: boots the node's tree.
boot() {
  local outcome
  boot_tree "avrboot-$1" "$scratch/$1" "$scratch/$1.log" --network-bridge="$bridge"
  outcome=$?
  containers[$1]=$container leaders[$1]=$leader container=
  return $outcome
}

# off NODE: kills the node, like a power failure.
off() {
  [ -z "${containers[$1]:-}" ] || kill -9 "${leaders[$1]:-${containers[$1]}}" 2>/dev/null
  wait "${containers[$1]:-}" 2>/dev/null
  unset "containers[$1]"
}

# on NODE COMMAND..: runs a command in the node's booted tree.
on() { in_tree "${leaders[$1]}" "${@:2}"; }

# responds NODE STATUS TEXT CURL'S ARGUMENT..: whether the node's relay responds with this status and text. The last argument is
# the path.
responds() {
  local node=$1 status=$2 text=$3 found
  shift 3
  found=$(on "$node" curl -s -m 60 -w '\n%{http_code}' "${@:1:$#-1}" "http://127.0.0.1:8080${*: -1}")
  echo "$found"
  [[ $found == *"$text"* && ${found##*$'\n'} == "$status" ]]
}
register() { responds "$1" 200 "{\"id\":$3}" -H "Registry-Retry-Key: $2" -d "{\"schema\":\"{\\\"type\\\":\\\"fixed\\\",\\\"name\\\":\\\"F\\\",\\\"size\\\":$3}\"}" "/subjects/$2/versions"; }
# cluster NODE ARGUMENT..: runs avroreg-cluster on a node. If it fails, prints avroreg's journal.
cluster() {
  local node=$1
  shift
  on "$node" avroreg-cluster "$@" || { on "$node" journalctl -u avroreg -o short-precise -n 6; return 1; } # (a failed check prints 12 lines)
}
is_healthy() { on "$1" curl -s -f -m 10 http://127.0.0.1:8082/health; }
user_of() { [ "$(on "$1" ps -o user:20= -p "$(on "$1" systemctl show -P MainPID "$2")")" = "$3" ]; }
# owner_and_mode NODE PATH USER: whether the file is this user's alone.
owner_and_mode() { [ "$(on "$1" stat -c '%U %a' "$2")" = "$3 600" ]; }
# fails_to_start NODE: whether avroreg doesn't start without its file, and starts with it again.
fails_to_start() {
  on "$1" bash -c 'cd /var/lib/avroreg && systemctl stop avroreg && mkdir /root/aside && mv registry.db* /root/aside/ && ! timeout 20 systemctl start avroreg &&
    [ ! -e registry.db ]; outcome=$?; systemctl stop avroreg; mv /root/aside/* . && rmdir /root/aside; systemctl reset-failed avroreg; systemctl start avroreg && exit $outcome'
}
fingerprints() {
  local found
  found=$(for node in n1 n2 n3; do on "$node" avroreg-cluster fingerprint || echo none; done | tee /dev/stderr | sort -u)
  [ "$(wc -l <<<"$found")" = 1 ] && [[ $found != *none* ]]
}

if [ -z "${BASE:-}" ]; then
  BASE=$scratch/base
  debootstrap --variant=minbase --include="$packages" bookworm "$BASE" >"$scratch/debootstrap.log" 2>&1 || fail "debootstrap: $(tail -n 3 "$scratch/debootstrap.log")"
fi
"$examples/replicas/certificates.sh" "$scratch/tls" n1=10.78.0.1 n2=10.78.0.2 n3=10.78.0.3
ip link add "$bridge" type bridge && ip link set "$bridge" up || fail "there is no bridge"
for node in n1 n2 n3; do
  tree "$node"
  check "$node boots" boot "$node" || exit 1
done
for node in n1 n2 n3; do
  on "$node" bash /root/avroreg/set-up.sh >"$scratch/$node.set-up" 2>&1 &
  set_ups+=($!)
done
for node in n1 n2 n3; do
  check "the commands of the pages set up $node" wait "${set_ups[${node#n} - 1]}" || tail -n 5 "$scratch/$node.set-up"
done
for node in n1 n2 n3; do
  check "$node is healthy" eventually 120 is_healthy "$node"
  check "$node: the units are valid" on "$node" systemd-analyze verify --man=no etcd.service avroreg.service avroreg-relay.service
  for pair in etcd=etcd avroreg=avroreg avroreg-relay=avroreg-relay; do
    check "$node: ${pair%=*} runs as its own user" user_of "$node" "${pair%=*}" "${pair#*=}"
  done
  check "$node: nginx may read from avroreg" eventually 30 on "$node" runuser -u www-data -- test -f /run/avroreg-relay/local-reads
  check "$node: etcd has no port for clients" on "$node" bash -c '! ss -ltn | grep -q ":2379 "'
  check "$node: others can't use its socket" on "$node" bash -c '[ -S /run/avroreg-etcd/client:0 ] && ! runuser -u www-data -- curl -s -m 5 --unix-socket /run/avroreg-etcd/client:0 http://etcd/version'
  check "$node: the relay starts after both" on "$node" bash -c '[[ " $(systemctl show -P After avroreg-relay) " == *" etcd.service "*"avroreg.service "* || " $(systemctl show -P After avroreg-relay) " == *" avroreg.service "*"etcd.service "* ]]'
done
check "a write at n1" eventually 60 register n1 a 1
check "a write at n2" register n2 b 2
check "a read at n3" responds n3 200 '[1]' -H 'Cache-Control: no-cache' /subjects/a/versions
for service in etcd avroreg avroreg-relay; do
  check "$service of n1 is killed, and systemd starts it" on n1 systemctl kill -s KILL "$service"
  check "n1 is healthy again" eventually 120 is_healthy n1
done
check "a relay that hangs is killed, and nginx reads from avroreg no more" on n1 bash -c 'before=$(systemctl show -P MainPID avroreg-relay)
  kill -STOP "$before"; for _ in $(seq 300); do [ "$(systemctl show -P MainPID avroreg-relay)" = "$before" ] || exit 0; sleep 0.1; done; exit 1'
check "n1 is healthy again" eventually 120 is_healthy n1
check "avroreg of n1 doesn't start without its file" fails_to_start n1
check "n1 is healthy with it" eventually 120 is_healthy n1
off n1
check "n1 has no power, and n2 accepts a write" eventually 60 register n2 c 3
check "n1 boots" boot n1 || exit 1
sleep 12  # its network interface may come up late
on n1 bash -c 'ip addr add 10.78.0.1/24 dev host0; ip link set host0 up'
check "n1 is healthy without a command" eventually 120 is_healthy n1
check "the nodes are equal" fingerprints
check "a backup of n1" cluster n1 backup /root/backup
check "n1 is healthy after it" eventually 120 is_healthy n1
cp -r "$scratch/n1/root/backup" "$scratch/n2/root/"
check "n2 is rebuilt from it" cluster n2 restore /root/backup
check "n2 is healthy after it" eventually 120 is_healthy n2
check "the restored database is avroreg's alone" owner_and_mode n2 /var/lib/avroreg/registry.db avroreg
check "its position is the relay's alone" owner_and_mode n2 /var/lib/avroreg-relay/position avroreg-relay
check "writes are paused" cluster n3 pause
for node in n1 n2 n3; do
  # The same program with one more byte, so that the check sees which one runs.
  { cat "$program"; echo; } >"$scratch/$node/root/new" && chmod 755 "$scratch/$node/root/new"
  check "$node gets a new program" cluster "$node" upgrade /root/new
  check "$node is healthy with it" eventually 120 is_healthy "$node"
  check "$node runs it" on "$node" bash -c 'cmp "/proc/$(systemctl show -P MainPID avroreg)/exe" /root/new'
  check "packaging/install records it" on "$node" bash -c 'AVROREG=/root/new /root/avroreg/packaging/install && sha256sum -c /usr/share/avroreg/program'
done
check "writes are resumed" cluster n3 resume
check "a write at n3" eventually 60 register n3 d 4
check "entries are trimmed" cluster n3 trim
check "the nodes are equal" fingerprints
check "the relay ends by SIGTERM with its position saved" on n1 systemctl stop avroreg-relay
check "after that, nginx may not read from n1's avroreg" on n1 test ! -e /run/avroreg-relay/local-reads
check "the journal has the relay's last revision" on n1 bash -c "journalctl -u avroreg-relay -o cat | grep -q 'ended at revision'"
print_counts
[ "$failures" = 0 ]
