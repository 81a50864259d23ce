#!/usr/bin/env bash
# The part of packaging/try.sh that builds the images and starts both pods. It runs in its own mount and network namespaces.
#
#   packaging/try-oci.sh SCRATCH     STORE: the folder for images
set -u
here=$(cd "$(dirname "$0")" && pwd)
source "$here/checks.sh"
scratch=$1
version=$(sed -n '1s/.*(\(.*\)).*/\1/p' "$here/deb/changelog")
if [ "$(stat -fc %T /sys/fs/cgroup)" != cgroup2fs ]; then
  umount -R /sys/fs/cgroup && mount -t cgroup2 cgroup2 /sys/fs/cgroup
fi
# A second address of this machine: requests to it take the place of requests from other machines.
other=10.79.0.1
ip link set lo up && ip addr add "$other/32" dev lo
mkdir -p /var/lib/cni && mount -t tmpfs tmpfs /var/lib/cni
# To filter a cgroup's devices, crun raises a resource limit. It may not do this if the trial runs in a container. So this wrapper of
# crun makes no cgroup.
cat >"$scratch/crun" <<'CRUN'
#!/usr/bin/env bash
for argument; do
  [ "${before:-}" != --bundle ] || config=$argument/config.json
  before=$argument
done
[ -z "${config:-}" ] || { jq 'del(.linux.resources)' "$config" >"$config.new" && mv "$config.new" "$config"; } || exit 1
exec crun --cgroup-manager=disabled "$@"
CRUN
chmod +x "$scratch/crun"
export CONTAINERS_CONF=$scratch/containers.conf
cat >"$CONTAINERS_CONF" <<CONF
[containers]
default_ulimits = ["nofile=1024:1024", "nproc=1024:1024"]
[engine]
cgroup_manager = "cgroupfs"
events_logger = "file"
runtime = "without-cgroups"
[engine.runtimes]
without-cgroups = ["$scratch/crun"]
[network]
network_config_dir = "$scratch/networks"
CONF
export STORE
podman() { command podman --root "$STORE/root" --runroot "$STORE/run" --storage-driver vfs "$@"; }
trap 'podman pod rm -f -t 1 -a >/dev/null 2>&1; podman rm -f -t 1 -a >/dev/null 2>&1; rmdir /sys/fs/cgroup/libpod_parent 2>/dev/null' EXIT

id_of() { podman inspect -f '{{.Id}}' "localhost/avroreg:$version"; }
same_image() {
  local first
  first=$(id_of)
  "$here/oci/build" avroreg && [ "$(id_of)" = "$first" ]
}
# are_closed: whether the file systems of both containers are read-only, and they have no capabilities.
are_closed() {
  local container state
  for container in avroreg-registry avroreg-nginx; do
    state=$(podman inspect -f '{{.HostConfig.ReadonlyRootfs}} {{.EffectiveCaps}}' "$container")
    echo "$container: $state"
    [ "$state" = "true []" ] || return 1
    grep -E '^(CapEff|CapBnd):\s0+$' "/proc/$(pid_of "$container")/status" | grep -c . | grep -qx 2 || return 1
  done
}
# has_file CONTAINER PATH FILE: whether the container has this file at this path.
has_file() { podman cp "$1:$2" "$scratch/copied" && cmp "$3" "$scratch/copied"; }
pid_of() { podman inspect -f '{{.State.Pid}}' "$1"; }
is_new() { [ "$(pid_of "$1")" -gt 1 ] && [ "$(pid_of "$1")" != "$2" ]; }
# is_closed_port CURL'S ARGUMENT..: whether nothing listens there.
is_closed_port() {
  curl -s -m 10 "$@"
  [ $? = 7 ]
}

check "the images are built" "$here/oci/build" || { print_counts; exit 1; }
check "the same program gives the same image" same_image

url=http://127.0.0.1:8080
check "pod.yaml starts" podman kube play "$here/oci/pod.yaml"
check "it answers on the published port" eventually 120 answers 200 BACKWARD "$url/config"
check "the containers are read-only, without capabilities" are_closed
check "the image of avroreg has its licence" has_file avroreg-registry /usr/share/doc/avroreg/LICENSE "$here/../LICENSE"
licences=${COPYRIGHTS:-/usr/share/doc}
check "the image of nginx has nginx's licence" has_file avroreg-nginx /usr/share/doc/nginx/copyright "$licences/nginx/copyright"
check "the page is there" answers 200 '<html' "$url/page/"
if [ -f /usr/lib/nginx/modules/ngx_http_js_module.so ]; then
  check "the gateway is there" answers 200 '{}' "$url/"
else
  skip_check "the gateway, because this machine has no libnginx-mod-http-js"
fi
check "other machines don't reach it" is_closed_port "http://$other:8080/config"
check "nobody reaches avroreg without nginx" is_closed_port http://127.0.0.1:8081/config
check "a write is acknowledged" answers 200 '{"id":1}' -d '{"schema":"\"int\""}' "$url/subjects/orders/versions"
volume=$(podman volume inspect -f '{{.Mountpoint}}' avroreg)
check "the registry is in the volume" test -s "$volume/registry.db-wal"
check "the volume belongs to the image's user" test "$(stat -c %u "$volume")" = 10001
mkdir "$scratch/backup"
admin=$here/../admin/avroreg-admin
program=$(realpath "${AVROREG:-$here/../crates/avroreg/out/avroreg}")
check "the host copies it while it runs" "$admin" folder backup "$volume/registry.db" "$scratch/backup/registry.db" --program "$program"
check "the image audits the copy" podman run --rm --user 0 --network none -v "$scratch/backup:/backup" "localhost/avroreg:$version" audit --db /backup/registry.db
restore() { "$admin" folder restore "$scratch/backup/registry.db" "$volume/registry.db" --program "$program" --yes 2>&1; }
check "a restore is refused while the pod runs" grep -q 'stop it' <(restore)
check "the image sets the variable of the C library" grep -qx GLIBC_TUNABLES=glibc.malloc.tcache_count=2000 \
  <(podman inspect -f '{{range .Config.Env}}{{println .}}{{end}}' avroreg-registry)
process=$(pid_of avroreg-registry)
check "the registry is killed" kill -KILL "$process"
check "podman starts it again" eventually 60 is_new avroreg-registry "$process"
check "the acknowledged write is kept" eventually 120 answers 200 '[1]' "$url/subjects/orders/versions"
check "the registry stops at once" podman stop -t 10 avroreg-registry
check "nginx returns 502 meanwhile" answers 502 '' "$url/config"

# The same registry with TLS and users, by the commands of the page.
settings=$scratch/settings
tls=https://127.0.0.1:8443
sed "s,path: /etc/avroreg-nginx,path: $settings," "$here/oci/pod-tls.yaml" >"$scratch/pod-tls.yaml"
block "$here/../docs/containers.md" "## TLS and passwords" |
  sed "/^curl /d; s/registry.example.org/$other/; s,/var/tmp,$scratch,; s,/etc/avroreg-nginx,$settings,g; s,/root/registry,$scratch/registry,; s,packaging/oci/pod-tls,$scratch/pod-tls," >"$scratch/set-up.sh"
export -f podman
# certify: makes a certificate and its key.
certify() {
  openssl req -x509 -newkey rsa:2048 -nodes -days 1 -subj /CN=127.0.0.1 -addext "subjectAltName=IP:127.0.0.1,IP:$other" \
    -keyout "$scratch/registry.key" -out "$scratch/registry.crt"
}
set_up() { (cd "$here/.." && bash -eu "$scratch/set-up.sh" >"$scratch/passwords"); }
# as USER STATUS TEXT CURL'S ARGUMENT..: whether this user gets this response over TLS.
as() { secure "${@:2}" -u "$1:$(sed -n "s/^$1 //p" "$scratch/passwords")"; }
secure() { answers "$@" --cacert "$scratch/registry.crt"; }
watched() {
  "$here/../admin/avroreg-admin" folder watch "$volume/registry.db" "$scratch/avroreg.prom" --url "$url" "${@:2}" && grep -qx "avroreg_up $1" "$scratch/avroreg.prom"
}
# are_kept: whether nginx can't write the settings, and other users can't read them.
are_kept() {
  grep -E ' /etc/avroreg-nginx ro,' "/proc/$(pid_of avroreg-nginx)/mountinfo" &&
    [ "$(stat -c '%U:%g %a' "$settings" "$settings"/*)" = "root:10002 750"$'\n'"$(printf 'root:10002 640\n%.0s' 1 2 3 4 5)" ]
}
reload() { podman kill -s HUP avroreg-nginx; }
logs_error() { podman logs avroreg-nginx 2>&1 | grep emerg; }

check "there is a certificate" certify
check "the commands of the page start pod-tls.yaml" set_up
check "a probe needs no user" eventually 120 answers 200 BACKWARD "$url/config"
check "with TLS too" eventually 60 secure 200 BACKWARD "$tls/config"
check "and on another machine" secure 200 BACKWARD "https://$other:8443/config"
check "another name gets 421" secure 421 '"error_code":421' -H 'Host: evil.example' "$tls/config"
check "a wrong password is refused there too" secure 401 '"error_code":401' -u admin:wrong "$tls/config"
check "the containers are read-only, without capabilities" are_closed
check "other machines don't reach the port without TLS" is_closed_port "http://$other:8080/config"
check "without a user, a read gets 401" secure 401 '"error_code":401' "$tls/subjects"
check "a new level gets 401" secure 401 '' -X PUT -d '{"compatibility":"NONE"}' "$tls/config"
check "another target gets 401" secure 401 '' "$tls/config?x"
check "a read without TLS gets 401" answers 401 '' "$url/subjects"
check "a viewer reads the registry of before" as viewer 200 '["orders"]' "$tls/subjects"
check "a viewer may not delete" as viewer 403 '' -X DELETE "$tls/subjects/orders"
check "an admin may write" as admin 200 '{"id":2}' -d '{"schema":"\"long\""}' "$tls/subjects/orders/versions"
check "a client that doesn't know the certificate refuses it" bash -c "! curl -s $tls/config"
sed -n 's/^viewer /viewer:/p' "$scratch/passwords" >"$scratch/user"
check "watch sends a user" watched 1 --user-file "$scratch/user"
echo "new:$(openssl passwd -apr1 -stdin <<<new)" >>"$settings/avroreg.users"
echo "new new" >>"$scratch/passwords"
check "a new user has no role" as new 403 '' "$tls/subjects"
sed -i 's/"~^viewer$"  read;/"~^viewer$" none; "~^new$" read;/' "$settings/avroreg-roles.conf"
check "nginx reads the new roles" reload
check "the new user may read" eventually 60 as new 200 '["orders"]' "$tls/subjects"
check "the role none may not" eventually 60 as viewer 403 '' "$tls/subjects"
echo '}' >>"$settings/avroreg-roles.conf"
check "nginx reads wrong roles" reload
check "its log has the error" eventually 60 logs_error
check "and it keeps the roles of before" as new 200 '["orders"]' "$tls/subjects"
sed -i '$d' "$settings/avroreg-roles.conf"
check "there is a new certificate" certify
cp "$scratch/registry.crt" "$settings/avroreg.crt" && cp "$scratch/registry.key" "$settings/avroreg.key"
check "nginx reads it" reload
check "and sends it" eventually 60 secure 200 BACKWARD "$tls/config"
check "nginx can't write its settings, and other users can't read them" are_kept
check "the pod is removed" podman kube down "$scratch/pod-tls.yaml"
check "the copy is restored" restore
check "the image's user owns it" test "$(stat -c '%a %u %g' "$volume/registry.db")" = "600 10001 10001"
check "a temporary container serves it" podman run -d --replace --name restored --network host -v avroreg:/var/lib/avroreg "localhost/avroreg:$version"
check "the registry is that of the copy" eventually 60 answers 200 '[1]' http://127.0.0.1:8081/subjects/orders/versions
check "the temporary container is removed" podman rm -f restored
skip_check "the limits of a container, which need a cgroup"
print_counts
