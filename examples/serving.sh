# Functions for the scripts of examples/ and trials/. They start a server on a free port and nginx in front of it, and run
# several scripts. Source this file; don't run it.
#
#   AVROREG    the program; by default as `rt run` builds it

examples=$(cd "$(dirname "${BASH_SOURCE[0]}")" && pwd)
trials=$(cd "$examples/../trials" && pwd)
avroreg=${AVROREG:-$examples/../crates/avroreg/out/avroreg}
key_field=Registry-Retry-Key
start_tries=600 # every tenth of a second: a busy machine takes long to start a program or nginx
scratch=$(mktemp -d)
started=()

# fail MESSAGE: prints the message, and exits with status 1.
fail() {
  echo "${0##*/}: $*" >&2
  exit 1
}

# Kills the started processes, and removes the scratch folder.
clean() {
  for process in ${started[@]+"${started[@]}"}; do
    kill "$process" 2>/dev/null && kill -CONT "$process" 2>/dev/null && wait "$process" 2>/dev/null # SIGCONT: also a stopped process
  done
  rm -rf "$scratch"
}
trap clean EXIT
trap 'exit 130' INT TERM

# need COMMAND..: fails if one of these commands is missing.
need() {
  for command; do
    command -v "$command" >/dev/null || fail "there is no $command here; install it first"
  done
}

# packages NAME..: installs these Debian packages if they are missing.
packages() {
  local missing=() package
  for package; do
    dpkg-query -W -f '${Status}' "$package" 2>/dev/null | grep -q ' installed$' || missing+=("$package")
  done
  [ ${#missing[@]} = 0 ] && return
  echo "Installing ${missing[*]}"
  local as_root=()
  [ "$(id -u)" = 0 ] || as_root=(sudo)
  {
    ${as_root[@]+"${as_root[@]}"} apt-get update -q &&
      ${as_root[@]+"${as_root[@]}"} env DEBIAN_FRONTEND=noninteractive apt-get install -y -q --no-install-recommends "${missing[@]}"
  } >"$scratch/install.log" 2>&1 ||
    fail "couldn't install ${missing[*]}: $(tail -n 3 "$scratch/install.log")"
}

# Builds the Go client: $scratch/go-client.
build_go_client() {
  (cd "$examples/clients/lenses" && GO111MODULE=off GOPATH=/usr/share/gocode GOCACHE=$scratch/go-cache \
    /usr/bin/go build -o "$scratch/go-client" main.go) || fail "the Go client doesn't build"
}

# Prints a free port of 127.0.0.1.
free_port() {
  local port
  while port=$((20000 + RANDOM % 12000)); (exec 3<>"/dev/tcp/127.0.0.1/$port") 2>/dev/null; do :; done
  echo "$port"
}

# wait_for_port PORT: waits until a process listens there. Returns 1 if none does.
wait_for_port() {
  local _
  for _ in $(seq "$start_tries"); do
    (exec 3<>"/dev/tcp/127.0.0.1/$1") 2>/dev/null && return
    sleep 0.1
  done
  return 1
}

# start_server FILE [PORT]: serves the registry in FILE, by default on a free port. It sets $server to the process and $url to
# its address.
start_server() {
  local port=${2:-$(free_port)} _
  [ -x "$avroreg" ] || fail "there is no program $avroreg; build it, or name it in AVROREG"
  "$avroreg" serve --db "$1" --port "$port" &
  server=$!
  started+=("$server")
  url=http://127.0.0.1:$port
  for _ in $(seq "$start_tries"); do
    curl -s -o /dev/null "$url/config" && return
    kill -0 "$server" 2>/dev/null || fail "the server ended before it answered"
    sleep 0.1
  done
  fail "the server doesn't answer at $url"
}

# start_nginx NAME PORT [EDIT]: starts nginx in front of PORT, with the configuration of examples/nginx. sed's EDIT changes the
# configuration first: `s/#gateway //` switches the gateway on. It sets $front to nginx's port and $nginx to the process. In
# $scratch/NAME, avroreg.log is the log of that configuration, and access.log has status, method and target.
# $worker_connections replaces the number of connections. $runner is a command that runs nginx, such as valgrind.
runner=()
start_nginx() {
  local folder=$scratch/$1 user="" module=""
  [ "$(id -u)" != 0 ] || user='user root;'
  front=$(free_port)
  write_nginx_files "$folder" "$2" "${3:-}"
  ! grep -q '^ *include .*/gateway/maps.conf' "$folder/avroreg.conf" || module='load_module /usr/lib/nginx/modules/ngx_http_js_module.so;'
  cat >"$folder/nginx.conf" <<CONF
daemon off;
$user
$module
worker_processes 1;
worker_rlimit_nofile 16384;
pid nginx.pid;
events { worker_connections ${worker_connections:-4096}; }
http {
    log_format answered "\$status \$request_method \$request_uri";
    client_body_temp_path bodies;
    proxy_temp_path       answers;
    fastcgi_temp_path     unused;
    uwsgi_temp_path       unused;
    scgi_temp_path        unused;
    include avroreg.conf;
}
CONF
  ${runner[@]+"${runner[@]}"} /usr/sbin/nginx -p "$folder" -c nginx.conf -e error.log &
  nginx=$!
  started+=("$nginx")
  wait_for_port "$front" || fail "nginx doesn't listen: $(cat "$folder/error.log")"
}

# write_nginx_files FOLDER PORT EDIT: writes the configuration, its roles and the gateway, each changed by EDIT.
write_nginx_files() {
  local file
  mkdir "$1" "$1/gateway"
  sed "$3" "$examples/nginx/roles.conf" >"$1/avroreg-roles.conf"
  for file in "$examples/../gateway"/*.{conf,js}; do
    sed "$3; s,/usr/share/avroreg-nginx,$1," "$file" >"$1/gateway/${file##*/}"
  done
  sed "$3; s/127.0.0.1:8081/127.0.0.1:$2/; s/127.0.0.1:8080/127.0.0.1:$front/; s,/var/lib/nginx/avroreg,cache,; s,/run/avroreg,$1/run,
    s,access_log /var/log/nginx/avroreg.log,access_log access.log answered; access_log avroreg.log,
    s,/usr/share/avroreg-nginx/gateway,$1/gateway," "$examples/nginx/avroreg.conf" >"$1/avroreg.conf"
}

# stop_server [SIGNAL]: kills the last started server.
stop_server() {
  local at
  kill "-${1:-TERM}" "$server"
  wait "$server" 2>/dev/null
  for at in "${!started[@]}"; do
    [ "${started[at]}" != "$server" ] || unset "started[at]"
  done
}

# try NAME PACKAGES COMMAND..: if $chosen is empty or has the name, installs these Debian packages and runs the command.
chosen=()
known=()
failed=()
try() {
  local name=$1 needs=$2 start=$SECONDS outcome=passed
  shift 2
  known+=("$name")
  [ ${#chosen[@]} = 0 ] || [[ " ${chosen[*]} " == *" $name "* ]] || return 0
  # shellcheck disable=SC2086
  packages $needs
  "$@" >"$scratch/$name.log" 2>&1 </dev/null || {
    outcome=failed
    failed+=("$name")
  }
  printf '%-14s %-7s %4d s   needs %s\n' "$name" "$outcome" $((SECONDS - start)) "$needs"
}

# Prints the last lines of each failed script. Returns 1 if a script failed, or if $chosen has a name that no script has.
sum_up() {
  local name unknown=()
  for name in ${chosen[@]+"${chosen[@]}"}; do
    [[ " ${known[*]} " == *" $name "* ]] || unknown+=("$name")
  done
  [ ${#unknown[@]} = 0 ] || printf 'unknown: %s. The names are: %s\n' "${unknown[*]}" "${known[*]}" >&2
  for name in ${failed[@]+"${failed[@]}"}; do
    printf '\n%s:\n' "$name"
    tail -n 5 "$scratch/$name.log"
  done
  [ ${#failed[@]} = 0 ] && [ ${#unknown[@]} = 0 ]
}
