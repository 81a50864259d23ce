#!/usr/bin/env bash
# The part of packaging/try.sh that tries the package avroreg-nginx. It runs in a new tree of Debian, with its own processes and its
# own network. It installs /root/avroreg.deb and /root/avroreg-nginx.deb.
set -u
source /root/checks.sh
mount -t proc proc /proc
other=10.79.0.1 # a second address of this machine, in place of another machine
ip link set lo up && ip addr add "$other/32" dev lo
local=http://127.0.0.1:8080
tls=https://registry.example.org
trust=(--cacert /root/registry.crt --resolve "registry.example.org:443:$other")
served=/etc/nginx/conf.d/avroreg.conf
int='{"schema":"\"int\""}'

# as USER STATUS TEXT CURL'S ARGUMENT..: whether this user gets this response over TLS.
as() { answers "${@:2}" "${trust[@]}" -u "$1:$(cat "/root/password-$1")"; }
# keep USER COMMAND..: runs a command that prints a user's new password, and keeps the password.
keep() {
  local output
  output=$("${@:2}") && echo "$output" && sed -n "s/^ok    user $1, password \([^ ]*\) .*/\1/p" <<<"$output" | grep . >"/root/password-$1"
}
is_closed_port() {
  curl -s -m 10 "$@"
  [ $? = 7 ]
}
# refuses STATUS COMMAND..: whether the command has this status, prints one line, and changes no file.
refuses() {
  local status before
  before=$(cat /etc/avroreg-nginx/* "$served" /etc/nginx/nginx.conf | sha256sum)
  "${@:2}" >/root/refused 2>&1
  status=$?
  cat /root/refused
  [ $status = "$1" ] && grep -q '^avroreg-nginx: ' /root/refused && [ "$(cat /etc/avroreg-nginx/* "$served" /etc/nginx/nginx.conf | sha256sum)" = "$before" ]
}
same_twice() {
  local before
  before=$(sha256sum "$served" /etc/avroreg-nginx/*)
  avroreg-nginx apply && [ "$(sha256sum "$served" /etc/avroreg-nginx/*)" = "$before" ]
}
certify() {
  openssl req -x509 -newkey rsa:2048 -nodes -days 90 -subj /CN=registry.example.org -addext subjectAltName=DNS:registry.example.org \
    -keyout /root/registry.key -out /root/registry.crt
}

check "both packages are installed" dpkg -i /root/avroreg.deb /root/avroreg-nginx.deb
check "every file is as packaged" dpkg -V avroreg-nginx
/usr/bin/avroreg serve --db /root/registry.db --port 8081 &
/usr/sbin/nginx
check "it responds on loopback" eventually 120 answers 200 BACKWARD "$local/config"
check "the gateway is on" answers 200 '{}' "$local/"
check "the page is there" answers 200 '<html' "$local/page/"
check "other machines don't reach it" is_closed_port "http://$other:8080/config"
check "another name gets 421" answers 421 '"error_code":421' -H 'Host: evil.example' "$local/config"
check "a schema is registered" answers 200 '{"id":1}' -d "$int" "$local/subjects/team-a.x/versions"

check "on needs a certificate" refuses 1 avroreg-nginx on --name registry.example.org
check "there is a certificate" certify
check "on needs a name" refuses 1 avroreg-nginx on --cert /root/registry.crt --key /root/registry.key
check "on needs files that exist" refuses 1 avroreg-nginx on --name registry.example.org --cert /root/none.crt --key /root/registry.key
check "a name can't be a word of nginx" refuses 1 avroreg-nginx on --name default --cert /root/registry.crt --key /root/registry.key
check "a name can't be a line of nginx" refuses 1 avroreg-nginx on --name 'x 0; include y' --cert /root/registry.crt --key /root/registry.key
check "on lets other machines in" keep admin avroreg-nginx on --name registry.example.org --name localhost --cert /root/registry.crt --key /root/registry.key
check "they need a password" eventually 120 answers 401 '"error_code":401' "${trust[@]}" "$tls/subjects"
check "with the password they read" eventually 120 as admin 200 '["team-a.x"]' "$tls/subjects"
check "loopback needs it too" eventually 120 answers 401 '' "$local/subjects"
check "another name gets 421 over TLS" answers 421 '' -k "https://$other/subjects"
check "nginx has more connections" grep -q 'worker_connections 4096;' /etc/nginx/nginx.conf
check "only nginx reads the users" test "$(stat -c '%a %U %G' /etc/avroreg-nginx/avroreg.users)" = "640 root www-data"
check "no file has the password" bash -c '! grep -rqF "$(cat /root/password-admin)" /etc/avroreg-nginx /etc/nginx'

check "a user is added" keep ci avroreg-nginx user add ci --role register --prefix team-a.
check "it registers under its prefix" eventually 120 as ci 200 '{"id":1}' -d "$int" "$tls/subjects/team-a.y/versions"
check "and nowhere else" as ci 403 '' -d "$int" "$tls/subjects/other/versions"
check "the list of users has both" test "$(avroreg-nginx user list)" = "admin  admin"$'\n'"ci  register team-a."
check "a role is changed" avroreg-nginx user role ci --role read
check "the user may not register any more" eventually 120 as ci 403 '' -d "$int" "$tls/subjects/team-a.y/versions"
old=$(cat /root/password-ci)
check "a password is changed" keep ci avroreg-nginx user password ci
check "the new password works" eventually 120 as ci 200 '' "$tls/subjects"
check "the old one doesn't" answers 401 '' "${trust[@]}" -u "ci:$old" "$tls/subjects"
check "a password comes from standard input" bash -c 'echo correct-horse-battery | avroreg-nginx user add tool --role read --password-stdin'
check "it works" eventually 120 answers 200 '' "${trust[@]}" -u tool:correct-horse-battery "$tls/subjects"
check "a user is removed" avroreg-nginx user remove ci
check "the removed user gets 401 or 403" eventually 120 as ci 403 '' "$tls/subjects"
check "a name with a colon is refused" refuses 1 avroreg-nginx user add a:b --role read
check "a name with a line feed is refused" refuses 1 avroreg-nginx user add $'a\nb' --role admin
check "register needs a prefix" refuses 1 avroreg-nginx user add team --role register
check "a short password is refused" refuses 1 bash -c 'echo short | avroreg-nginx user add team --role read --password-stdin'
check "the last admin stays" refuses 1 avroreg-nginx user remove admin
check "wrong arguments have status 64" bash -c 'avroreg-nginx user add; [ $? = 64 ]'

check "written again, it is the same" same_twice
check "the gateway is switched off" avroreg-nginx set --gateway off
check "then / is avroreg's own 404" eventually 120 as admin 404 '' "$tls/"
check "and on" avroreg-nginx set --gateway on
check "then / is there" eventually 120 as admin 200 '{}' "$tls/"
sed -i '/map "" $registry_cache_key/,/}/s/default 1;/default 77;/' "$served"
check "a key of the cache that another command wrote stays" bash -c "avroreg-nginx set --rate 300 && grep -q 'default 77;' $served && grep -q rate=300r/s $served"
sed -i 's/server 127.0.0.1:8081/server 127.0.0.1:8099/' "$served"
check "a port that another command wrote stays" bash -c "avroreg-nginx set --rate 350 && grep -q '127.0.0.1:8099;' $served"
check "set changes it" bash -c "avroreg-nginx set --registry-port 8081 && ! grep -q 127.0.0.1:8099 $served"
check "forget-cache changes the key" bash -c "avroreg-nginx forget-cache && ! grep -q 'default 77;' $served"
mkdir -p /run/avroreg/default && : >/run/avroreg/default/paused
check "the pause file pauses writes" as admin 503 'paused' -d "$int" "$tls/subjects/team-a.z/versions"
rm /run/avroreg/default/paused
echo 'nonsense' >/etc/nginx/conf.d/other.conf
check "if nginx refuses the configuration, nothing changes" refuses 2 avroreg-nginx set --rate 100
check "and nginx serves on" as admin 200 '' "$tls/subjects"
rm /etc/nginx/conf.d/other.conf
check "off keeps other machines out" avroreg-nginx off
check "their port is closed" eventually 120 is_closed_port "${trust[@]}" "$tls/config"
check "on again needs no files" avroreg-nginx on --cert /root/registry.crt --key /root/registry.key
check "show says so" grep -q "others    https://registry.example.org:443" <(avroreg-nginx show)

check "njs is removed" dpkg -r libnginx-mod-http-js
check "the configuration has no gateway now" bash -c "nginx -t && ! grep -q js_import $served"
check "all else is served" eventually 120 as admin 200 '["team-a.x"' "$tls/subjects"
check "and / is avroreg's own 404" eventually 120 as admin 404 '' "$tls/"
check "the package is removed" dpkg -r avroreg-nginx
check "nginx is still right" nginx -t
check "the port is closed" eventually 120 is_closed_port "$local/config"
check "the registry serves without it" answers 200 'team-a.x' http://127.0.0.1:8081/subjects
check "a removal keeps the users" test -s /etc/avroreg-nginx/avroreg.users
echo '# of somebody else' >"$served"
check "installed again, it keeps a file of somebody else" bash -c "dpkg -i /root/avroreg-nginx.deb 2>&1 | grep 'move it away' && grep -qx '# of somebody else' $served"
check "a removal keeps it too" bash -c "dpkg -r avroreg-nginx && grep -qx '# of somebody else' $served"
rm "$served"
check "installed again, it serves" dpkg -i /root/avroreg-nginx.deb
check "with the users of before" eventually 120 as admin 200 'team-a.x' "$tls/subjects"
check "it is purged" dpkg -P avroreg-nginx
check "nothing is left" test -z "$(find /etc /usr /var/lib/nginx -name '*avroreg-nginx*' -print -quit)$(ls $served 2>/dev/null)"
print_counts
