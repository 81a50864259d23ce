#!/usr/bin/env bash
# The part of packaging/try.sh that runs every fenced command of the six pages of operators, taken from the pages, inside a booted Debian.
# Commands that ask get --yes. What another machine does is done here: a script in place of ssh, a second registry to copy from, a
# stand-in to copy to, a disk in memory. try-oci.sh runs the commands of the pods.
set -u
source /root/checks.sh
docs=/root/sources/docs
cp /root/avroreg.deb /root/avroreg_0.1.0_amd64.deb
cp /root/newer.deb /root/avroreg_0.2.0_amd64.deb
mkdir -p /root/sources/crates/avroreg/out /srv/avroreg-backup /srv/new
cp /root/program /root/sources/crates/avroreg/out/avroreg
export DEBIAN_FRONTEND=noninteractive
ran=0

# blocks PAGE: the commands of all blocks of a page, also those within lists, without comments. '== HEADING' comes before each block.
blocks() {
  awk '/^#+ / && !inside { heading = $0 } /^ *```$/ { inside = 0 } inside { sub(/^ +/, ""); sub(/ +# .*/, ""); print }
    /^ *```sh$/ { inside = 1; print "== " heading }' "$docs/$1"
}
# changed LINE ARGUMENTS: the command with what takes the place of other machines, with --yes, and with these arguments.
changed() {
  sed -E "s/^(avroreg-admin (restore|upgrade|rollback|port|move|copy-from|copy-to).*)/\1 --yes/; s/--before [^ ]*/--before 2099-01-01T00:00Z/
    s/^apt install /apt-get install -y -q /; s,(copy-from) https://registry.example.org,\1 http://127.0.0.1:8082,
    s,(copy-to) https://registry.example.org,\1 $(cat /root/there 2>/dev/null),; s/^(avroreg-admin .*)/\1 $2/" <<<"$1"
}
# page PAGE FOLDER HEADINGS [ARGUMENTS]: runs the commands below these headings, a pattern, in this folder. Each command of avroreg-admin
# gets the arguments, unless it names a registry itself.
page() {
  local line heading='' status arguments
  while IFS= read -r line; do
    [[ $line != "== "* ]] || { heading=${line#== }; [[ ! "$heading" =~ $3 ]] || before "$1 $heading"; continue; }
    [[ "$heading" =~ $3 ]] || continue
    ran=$((ran + 1))
    case $line in
      packaging/oci/build*) continue ;; # try-oci.sh
      export*) eval "$line" && continue ;;
      AVROREG_*) echo "$line" >>/etc/default/avroreg && continue ;;
      *--registry*) arguments='' ;;
      *) arguments=${4:-} ;;
    esac
    case $line in *"avroreg-admin status"* | *"avroreg-admin doctor"*) status=1 ;; *"avroreg-admin move"*) status=3 ;; *) status=0 ;; esac
    check "$1: $line" bash -c "cd $2 && { $(changed "$line" "$arguments"); result=\$?; [ \$result = 0 ] || [ \$result = $status ]; }"
    after "$line"
  done < <(blocks "$1")
}
# before 'PAGE HEADING': what the page asks for in words.
before() {
  case $1 in
    "install.md ## Let other machines in")
      openssl req -x509 -newkey rsa:2048 -nodes -days 90 -subj /CN=registry.example.org -addext subjectAltName=DNS:registry.example.org \
        -keyout /root/registry.key -out /root/registry.crt 2>/dev/null
      ;;
    "operate.md ## Use a larger disk") mount -t tmpfs -o mode=755 new /srv/new && mount --bind /srv/new /mnt ;;
    "containers.md "*) podman load -q -i /root/avroreg.tar >/dev/null && podman tag localhost/avroreg:0.1.0 localhost/avroreg:0.2.0 ;;
  esac
}
# after LINE: what shows that the command did its work, and what the page asks for next.
after() {
  case $1 in
    *"nginx on "*)
      check "other machines are let in, with a password" eventually 20 answers 401 '' --cacert /root/registry.crt --resolve registry.example.org:443:127.0.0.1 \
        https://registry.example.org/subjects
      ;;
    *"move /mnt"*)
      umount /mnt && mount --bind /srv/new /var/lib/avroreg
      check "after the mount it goes on" avroreg-admin continue --registry default
      ;;
    *copy-from*--switch*) check "the copy has the subject" answers 200 '["kept"]' http://127.0.0.1:8087/subjects ;;
    *copy-to*--switch*) check "so has the stand-in" answers 200 '["kept"]' -u admin:secret "$(cat /root/there)/subjects" ;;
  esac
}

cat >/usr/local/bin/ssh <<'SSH'
#!/bin/bash
while [[ $1 == -* ]]; do [ "$1" = -l ] && shift; shift; done
shift
exec sh -c "$*"
SSH
chmod 755 /usr/local/bin/ssh

page install.md /root "## (Debian|Let other|A second)"
page operate.md /root . "--registry default"
check "the other machine gets the backup" bash -c 'avroreg-admin backup --registry default && ls /srv/avroreg-backup/registry-*.json /srv/avroreg-backup/settings-*.tar'
page incident.md /root . "--registry default"
check "both registries respond" bash -c 'curl -s -f http://127.0.0.1:8091/config && curl -s -f http://127.0.0.1:8082/config'
check "doctor finds no problem" bash -c '! avroreg-admin doctor --registry default | grep "^PROBLEM"'
page containers.md /root "With the operator" ""
check "a registry to copy into" avroreg-admin init --registry moved --port 8087
check "a registry to copy from" answers 200 '{"id":1}' -d '{"schema":"\"int\""}' http://127.0.0.1:8082/subjects/kept/versions
PYTHONPATH=/root/sources/admin/tests python3 -c 'import importing, time; print(importing.Registry("admin:secret").url, flush=True); time.sleep(9999)' >/root/there &
there=$!
eventually 20 grep -q http /root/there
page move.md /root . "--registry moved"
kill $there
avroreg-admin nginx off --registry default >/dev/null
systemctl stop avroreg avroreg@orders avroreg@moved avroreg-container@box
umount /var/lib/avroreg
dpkg -P avroreg-nginx avroreg >/dev/null 2>&1
rm -rf /var/lib/avroreg* /etc/default/avroreg*
page install.md /root/sources "## Another Linux"
check "it responds" curl -s -f http://127.0.0.1:8081/config
pods=$(blocks containers.md | awk '/^== / { pods = /pod with nginx|TLS/ } pods && !/^== /' | wc -l)
check "each fenced command was run, here or by try-oci.sh" test "$((ran + pods))" = "$(for each in install operate incident containers move operator-reference; do blocks $each.md; done | grep -vc '^== ')"
print_counts
