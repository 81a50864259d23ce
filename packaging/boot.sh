# Functions for packaging/try.sh and examples/replicas/booted.sh. They boot trees of Debian under systemd. Source this file;
# don't run it.

# boot_tree MACHINE TREE LOG OPTION..: boots the tree; the options go to systemd-nspawn. It sets $container to the process that
# ends with the machine, and $leader to the machine's process 1. If the host mounts cgroups of version 1, the machine gets a
# mount namespace with version 2 only, and a cgroup MACHINE in it.
boot_tree() {
  local machine=$1 tree=$2 log=$3 prepare=: _
  shift 3
  if [ "$(stat -fc %T /sys/fs/cgroup)" != cgroup2fs ]; then
    prepare='umount -R /sys/fs/cgroup && mount -t cgroup2 cgroup2 /sys/fs/cgroup && mkdir -p /sys/fs/cgroup/$MACHINE && echo $$ >/sys/fs/cgroup/$MACHINE/cgroup.procs'
  fi
  MACHINE=$machine SYSTEMD_SECCOMP=0 unshare -m bash -c "$prepare"' && exec systemd-nspawn "$@"' boot --boot -D "$tree" --register=no \
    --keep-unit "$@" --console=pipe --capability=all -M "$machine" >"$log" 2>&1 </dev/null &
  container=$!
  for _ in $(seq 1200); do
    leader=$(pgrep -P "$container" -x systemd | head -n 1)
    [ -z "$leader" ] || [[ "$(in_tree "$leader" systemctl is-system-running 2>/dev/null)" != @(running|degraded) ]] || return 0
    kill -0 "$container" 2>/dev/null || break
    sleep 0.5
  done
  tail -n 5 "$log"
  return 1
}

# in_tree LEADER COMMAND..: runs a command in the machine with this process 1.
in_tree() {
  local leader=$1
  shift
  nsenter -t "$leader" -m -u -i -n -p --root="/proc/$leader/root" --wd="/proc/$leader/root" \
    env -i PATH=/usr/local/bin:/usr/sbin:/usr/bin:/sbin:/bin LANG=C.UTF-8 SYSTEMD_PAGER= "$@"
}

# remove_cgroup MACHINE: removes the cgroup that boot_tree made.
remove_cgroup() {
  unshare -m bash -c 'umount -R /sys/fs/cgroup && mount -t cgroup2 cgroup2 /sys/fs/cgroup &&
    find "/sys/fs/cgroup/$1" -depth -type d -exec rmdir {} +' remove "$1" 2>/dev/null
}
