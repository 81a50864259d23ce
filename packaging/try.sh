#!/usr/bin/env bash
# Tests the builds of packaging/. It installs, upgrades, removes and purges the Debian package in a fresh Debian 12. It boots the
# package under systemd, kills the program, and waits for the next response. It builds the images and starts both pods.
#
#   AVROREG=PROGRAM packaging/try.sh [deb|nginx|systemd|guard|disk|upgrade|pages|container|kills|oci]..     default: all
#   KILLS, MACHINE_KILLS   how many times to kill the program and the machine; default: 20, 3
#   BASE      a tree of Debian 12 to copy, with the packages that make_tree names; by default debootstrap makes one, which needs
#             the network
#
# Needs root, and Debian's debootstrap, systemd-container, lintian, mandoc, dpkg-dev, binutils, buildah, podman, crun,
# containernetworking-plugins, iptables, catatonit, nginx, libnginx-mod-http-js, openssl, curl, jq, python3 and iproute2. Prints a line for each check,
# and a line 'skipped' for each check that it can't run. The last line is 'N passed, M failed'. The status is 0 if all passed.
set -u
here=$(cd "$(dirname "$0")" && pwd)
source "$here/checks.sh"
source "$here/boot.sh"
top=$(cd "$here/.." && pwd)
program=$(realpath "${AVROREG:-$top/crates/avroreg/out/avroreg}")
[ -x "$program" ] || { echo "packaging/try.sh: there is no program $program; build it, or name it in AVROREG" >&2; exit 1; }
[ "$(id -u)" = 0 ] || { echo "packaging/try.sh: run this as root" >&2; exit 1; }
export AVROREG=$program
scratch=$(mktemp -d /var/tmp/avroreg-try.XXXXXX)
container=
machine=avroreg-try-$$

clean() {
  [ -z "$container" ] || kill "$container" 2>/dev/null
  wait
  remove_cgroup "$machine"
  rm -rf --one-file-system "$scratch"
}
trap clean EXIT
trap 'exit 130' INT TERM

# make_tree NAME: makes a new tree of Debian 12, $scratch/NAME.
make_tree() {
  if [ -z "${BASE:-}" ]; then
    BASE=$scratch/base
    debootstrap --variant=minbase --include=systemd,systemd-sysv,dbus,curl,procps,iproute2,python3,nginx,libnginx-mod-http-js,openssl bookworm "$BASE" \
      >"$scratch/debootstrap.log" 2>&1 || { tail -n 5 "$scratch/debootstrap.log"; fail_check "debootstrap"; return 1; }
  fi
  cp -a "$BASE" "$scratch/$1"
}

# inside NAME COMMAND..: runs a command in this tree, without a running systemd.
inside() {
  local tree=$scratch/$1
  shift
  chroot "$tree" env -i PATH=/usr/sbin:/usr/bin:/sbin:/bin LANG=C.UTF-8 DEBIAN_FRONTEND=noninteractive "$@"
}

# build_package: builds both packages, $deb and $nginx_deb.
build_package() {
  local built
  built=$("$here/deb/build" "$scratch/deb") && { read -r deb && read -r nginx_deb; } <<<"$built" && [ -f "$deb" ] && [ -f "$nginx_deb" ]
}
same_bytes() {
  local second
  cp "$program" "$scratch/program"
  second=$(umask 077 && cd / && AVROREG=$scratch/program TZ=Asia/Tokyo "$here/deb/build" "$scratch/second") &&
    cmp "$deb" "${second%%$'\n'*}" && cmp "$nginx_deb" "${second##*$'\n'}"
}
# build_other VERSION FILE: builds the same package with another version.
build_other() {
  dpkg-deb -R "$deb" "$scratch/other-$1" && sed -i "s/^Version: .*/Version: $1/" "$scratch/other-$1/DEBIAN/control" &&
    sed -i "s/package-before .*/package-before $1/" "$scratch/other-$1/DEBIAN/preinst" && dpkg-deb --root-owner-group -Znone -b "$scratch/other-$1" "$2"
}
# make_file: makes a registry's file without the service, as its user.
make_file() { inside debian runuser -u avroreg -- sh -c 'umask 077 && avroreg run --db /var/lib/avroreg/registry.db </dev/null'; }
# check_lintian: checks that lintian reports no error and no warning. Its other lines don't count.
check_lintian() { [ -z "$(lintian --allow-root --tag-display-limit 0 "$deb" "$nginx_deb" 2>&1 | grep '^[EW]:' | tee /dev/stderr)" ]; }
check_mandoc() { [ -z "$(mandoc -T lint -W warning "$here"/man/avroreg*.[18] <("$top/admin/manual" 0.1.0) 2>&1 | tee /dev/stderr)" ]; }

try_deb() {
  check "the package is built" build_package || return
  check "the same program gives the same bytes" same_bytes
  check "lintian finds no errors and no warnings" check_lintian
  check "mandoc finds nothing" check_mandoc
  make_tree debian || return
  cp "$deb" "$scratch/debian/tmp/avroreg.deb"
  check "it is installed" inside debian dpkg -i /tmp/avroreg.deb
  check "the user exists" inside debian getent passwd avroreg
  check "the service isn't enabled before init" test ! -e "$scratch/debian/etc/systemd/system/multi-user.target.wants/avroreg.service"
  check "avroreg-admin runs" grep -q 'init  *make a registry' <(inside debian avroreg-admin --help)
  check "every file is as packaged" inside debian dpkg -V avroreg
  check "its pages name only what it has" "$here/deb/paths" "$scratch/debian/usr/share/doc/avroreg"
  echo '{"type":"int"}' >"$scratch/debian/tmp/schema"
  check "the program is the one that its record names" inside debian sha256sum --quiet -c /usr/share/avroreg/program
  check "the record doesn't call this program proved" grep -q '^# proved: not known' "$scratch/debian/usr/share/avroreg/program"
  check "the program runs" grep -qx '"int"' <(inside debian avroreg text /tmp/schema)
  check "the units are valid" inside debian systemd-analyze verify --man=no avroreg.service avroreg@orders.service avroreg-backup.timer avroreg-watch.timer \
    avroreg-backup@orders.timer avroreg-watch@orders.timer
  inside debian install -d -o avroreg -g avroreg -m 700 /var/lib/avroreg
  check "a registry's file is there" make_file
  echo AVROREG_PORT=9000 >>"$scratch/debian/etc/default/avroreg"
  check "it is upgraded" inside debian dpkg -i --force-confdef --force-confold /tmp/avroreg.deb
  check "an upgrade adopts the registry of before" test -s "$scratch/debian/var/lib/avroreg-admin/default/registry.json"
  check "an upgrade keeps the settings" grep -q AVROREG_PORT=9000 "$scratch/debian/etc/default/avroreg"
  check "an older package is built" build_other 0.0.9 "$scratch/debian/tmp/older.deb"
  check "it goes back to the older package" inside debian apt-get install -y -q --allow-downgrades -o Dpkg::Options::=--force-confold \
    /tmp/older.deb
  check "the older version is there" grep -qx 0.0.9 <(inside debian dpkg-query -W -f '${Version}\n' avroreg)
  check "timers and another registry are enabled" inside debian systemctl enable avroreg-backup.timer avroreg-watch@orders.timer avroreg@orders
  check "it is removed" inside debian dpkg -r avroreg
  check "a removal keeps the settings" test -f "$scratch/debian/etc/default/avroreg"
  check "a purge says that it keeps the registry" grep -q "kept /var/lib/avroreg" <(inside debian dpkg -P avroreg 2>&1)
  check "a purge keeps the registry" test -s "$scratch/debian/var/lib/avroreg/registry.db"
  check "a purge removes everything else" test -z "$(find "$scratch/debian/etc" "$scratch/debian/usr" "$scratch/debian/lib/" -name '*avroreg*' -print -quit)"
}

# try_inside SCRIPT [PREPARE]: boots a new tree with the package, and runs this part of the trial in it. PREPARE gets the tree.
try_inside() {
  [ -n "${deb:-}" ] || check "the package is built" build_package || return
  rm -rf --one-file-system "$scratch/booted" "$scratch/other-9.9.9"
  make_tree booted || return
  cp "$deb" "$scratch/booted/root/avroreg.deb"
  cp "$here/checks.sh" "$here/$1" "$scratch/booted/root/"
  mkdir -p "$scratch/booted/root/sources"
  mkdir -p "$scratch/booted/root/sources/examples"
  cp -r "$here" "$top/admin" "$top/docs" "$scratch/booted/root/sources/"
  cp "$top/examples/from-confluent.py" "$scratch/booted/root/sources/examples/"
  cp "$program" "$scratch/booted/root/program"
  check "a package with a higher version is built" build_other 9.9.9 "$scratch/booted/root/newer.deb"
  [ -z "${2:-}" ] || check "the tree is prepared" "$2" "$scratch/booted" || return
  check "systemd boots" boot_tree "$machine" "$scratch/booted" "$scratch/boot.log" --private-network || return
  in_tree "$leader" bash "/root/$1" | tee "$scratch/booted.log"
  add_counts "$scratch/booted.log"
  kill -s RTMIN+4 "$leader"
  wait "$container"
  container=
}
try_systemd() { try_inside try-booted.sh; }
try_guard() { try_inside try-guard.sh; }
try_upgrade() { try_inside try-upgrade.sh; }
# add_for_pages TREE: podman, the image, rsync, and the package of nginx.
add_for_pages() {
  [ -x "$1/usr/bin/rsync" ] || { cp /etc/resolv.conf "$1/etc/" && chroot "$1" env -i PATH=/usr/sbin:/usr/bin:/sbin:/bin DEBIAN_FRONTEND=noninteractive sh -c \
    'apt-get -q update && apt-get install -y -q --no-install-recommends rsync'; } || return
  add_podman "$1" && cp "$nginx_deb" "$1/root/avroreg-nginx_0.1.0_all.deb"
}
try_pages() { try_inside try-pages.sh add_for_pages; }
try_disk() { try_inside try-disk.sh; }

# add_podman TREE: installs podman in the tree, and puts the image of avroreg there.
add_podman() {
  [ -x "$1/usr/bin/podman" ] || { cp /etc/resolv.conf "$1/etc/" && chroot "$1" env -i PATH=/usr/sbin:/usr/bin:/sbin:/bin DEBIAN_FRONTEND=noninteractive sh -c \
    'apt-get -q update && apt-get install -y -q --no-install-recommends podman crun conmon catatonit'; } || return
  printf '[storage]\ndriver = "vfs"\nrunroot = "/run/containers/storage"\ngraphroot = "/var/lib/containers/storage"\n' >"$1/etc/containers/storage.conf"
  printf '[engine]\nruntime = "crun"\n' >"$1/etc/containers/containers.conf"
  STORE=$scratch/store "$here/oci/build" avroreg &&
    podman --root "$scratch/store/root" --runroot "$scratch/store/run" --storage-driver vfs save -q -o "$1/root/avroreg.tar" \
      "localhost/avroreg:$(sed -n '1s/.*(\(.*\)).*/\1/p' "$here/deb/changelog")"
}
try_container() { try_inside try-container.sh add_podman; }

# try_kills: kills the program KILLS times, and the machine MACHINE_KILLS times, each time under load.
try_kills() {
  local load _
  [ -n "${deb:-}" ] || check "the package is built" build_package || return
  make_tree killed || return
  cp "$deb" "$scratch/killed/root/avroreg.deb"
  cp "$here/checks.sh" "$here/try-kills.sh" "$scratch/killed/root/"
  mkdir -p "$scratch/killed/var/log/journal"
  check "systemd boots" boot_tree "$machine" "$scratch/killed" "$scratch/boot.log" --private-network || return
  in_tree "$leader" bash /root/try-kills.sh program "${KILLS:-20}" | tee "$scratch/kills.log"
  add_counts "$scratch/kills.log"
  for _ in $(seq "${MACHINE_KILLS:-3}"); do
    in_tree "$leader" bash /root/try-kills.sh load 2>/dev/null &
    load=$!
    sleep "$((RANDOM % 3 + 1)).$((RANDOM % 10))"
    kill -KILL "$leader"
    wait "$container" "$load" 2>/dev/null
    boot_tree "$machine" "$scratch/killed" "$scratch/boot.log" --private-network || { fail_check "the machine boots again"; return; }
    in_tree "$leader" bash /root/try-kills.sh check >"$scratch/kills.log"
    grep FAILED "$scratch/kills.log"
    add_counts "$scratch/kills.log"
  done
  echo "       ${MACHINE_KILLS:-3} kills of the machine"
  kill -s RTMIN+4 "$leader"
  wait "$container"
  container=
}

# try_nginx: tries the package avroreg-nginx in a new tree, with its own processes and its own network.
try_nginx() {
  [ -n "${nginx_deb:-}" ] || check "the packages are built" build_package || return
  make_tree nginx || return
  cp "$deb" "$scratch/nginx/root/avroreg.deb"
  cp "$nginx_deb" "$scratch/nginx/root/avroreg-nginx.deb"
  cp "$here/checks.sh" "$here/try-nginx.sh" "$scratch/nginx/root/"
  unshare --mount --net --pid --fork --kill-child chroot "$scratch/nginx" env -i PATH=/usr/sbin:/usr/bin:/sbin:/bin LANG=C.UTF-8 \
    DEBIAN_FRONTEND=noninteractive bash /root/try-nginx.sh | tee "$scratch/nginx.log"
  add_counts "$scratch/nginx.log"
}

# It uses new namespaces, so that this machine's network, cgroups and images stay unchanged.
try_oci() {
  STORE=$scratch/store unshare -m -n bash "$here/try-oci.sh" "$scratch" | tee "$scratch/oci.log"
  add_counts "$scratch/oci.log"
}

for part in ${*:-deb nginx systemd guard disk upgrade pages container kills oci}; do
  echo "== $part"
  case $part in
    deb | nginx | systemd | guard | disk | upgrade | pages | container | kills | oci) "try_$part" ;;
    *) fail_check "there is no trial $part" ;;
  esac
done
print_counts
[ "$failures" = 0 ]
