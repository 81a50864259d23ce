#!/usr/bin/env bash
# Serves a new registry of 2,000 subjects and the page, and drives Chromium through the page like a person. It installs missing
# packages. The status is 0 if the page displays the registry's responses and works.
#
#   AVROREG=PROGRAM [SHOTS=FOLDER] examples/page/try.sh     SHOTS: the folder for screenshots; default: a temporary one that stays
set -u
source "$(dirname "$0")/../serving.sh"
packages nginx curl jq openssl chromium chromium-driver python3-selenium
getent hosts localhost >/dev/null || fail "localhost has no address here, and selenium needs it for chromedriver; add the line 127.0.0.1 localhost to /etc/hosts"
here=$examples/page
shots=${SHOTS:-$(mktemp -d "${TMPDIR:-/tmp}/avroreg-page.XXXXXX")}
mkdir -p "$shots"

# nginx isn't run by the owner of this folder, so it needs a copy of the page. It returns 504 after 10 seconds, not 60.
mkdir "$scratch/page"
cp "$here"/index.html "$here"/page.css "$here"/page.js "$scratch/page/"
sed "s,/usr/share/avroreg-nginx/page,$scratch/page," "$here/page.conf" >"$scratch/page.conf"
with_page="s/#page //; s,/usr/share/avroreg-nginx/page.conf,$scratch/page.conf,; s,\(proxy_read_timeout *\)60s,\110s,"

# target STATUS METHOD TARGET [BODY]: sends exactly this target, and checks the status. It sets $type to the content type.
target() {
  local found
  found=$(curl -s -o "$scratch/got" -w '%{http_code} %{content_type}' -X "$2" --request-target "$3" ${4:+-d "$4"} "http://127.0.0.1:$front")
  [ "${found%% *}" = "$1" ] || fail "$2 $3 got $found, not $1"
  type=${found#* }
}

# Only a GET of exactly these targets gets the page. A subject's name may lead to the same path.
try_targets() {
  local name
  for name in /page/ /page/index.html /page/page.js '/page/page.css?x'; do
    target 200 GET "$name"
    [[ $type == text/* ]] || fail "$name is $type"
    target 404 POST "$name" x
  done
  target 200 GET /favicon.ico
  for name in '..%2Ffavicon.ico' '..%2Fpage%2F' '..%2Fpage%2Findex.html'; do
    target 404 DELETE "/subjects/$name"
    target 200 PUT "/config/$name" '{"compatibility":"FULL"}'
    target 200 GET "/config/$name"
    grep -q FULL "$scratch/got" || fail "the level of $name is $(cat "$scratch/got")"
    target 200 PUT "/mode/$name" '{"mode":"READWRITE"}'
    target 404 GET "/subjects/$name/versions"
    [ "$(jq .error_code "$scratch/got")" = 40401 ] || fail "a read of $name didn't reach the registry"
  done
  for name in /x/../favicon.ico /favicon%2eico /%66avicon.ico //page/ /page/../page/ /page/page%2ejs /.page/index.html /page /page/page.conf; do
    target 404 GET "$name"
  done
  for name in /favicon.ico /page/ /page/page.js; do for method in PUT DELETE; do target 404 "$method" "$name"; done; done
  echo "targets: only a GET of exactly these gets the page, and each write reaches the registry"
}

start_server "$scratch/targets.db"
start_nginx targets "${url##*:}" "$with_page"
try_targets
echo "viewer:$(openssl passwd -apr1 v)" >"$scratch/avroreg.users"
start_nginx closed "${url##*:}" "$with_page; s/#users //; s,/etc/nginx/avroreg.users,$scratch/avroreg.users,"
for name in /page/ /page/page.js /favicon.ico; do target 401 GET "$name"; done
echo "with users, the page needs a password"
start_nginx rebind "${url##*:}" "$with_page"
/usr/bin/python3 "$here/rebind.py" "$front" || fail "a page with another name reached the registry"

start_server "$scratch/page.db"
start_nginx front "${url##*:}" "$with_page"
/usr/bin/python3 -u "$here/look.py" --registry "${url##*:}" --server "$server" --page "$front" \
  --log "$scratch/front/access.log" --shots "$shots" || fail "a check of the page failed"

# Each write of the page that reached avroreg has a retry key.
jq -e -s '[.[] | select(.upstream_status != "" and (.method == "PUT" or .method == "DELETE" or (.method == "POST" and (.path | test("^/subjects/[^/?]+/versions")))))]
  | length > 10 and all(.[]; .retry_key_hash != "")' "$scratch/front/avroreg.log" >/dev/null || fail "a write has no retry key"
echo "screenshots: $shots"
