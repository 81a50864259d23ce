#!/usr/bin/env bash
# The part of packaging/try.sh that kills, inside a booted Debian. No start may be refused, and no acknowledged write may be lost.
#
#   try-kills.sh program COUNT     installs the package, makes a registry, and kills the program so many times under load
#   try-kills.sh load              writes until the machine is killed
#   try-kills.sh check             after a boot: the service is up, and nothing is lost
set -u
source /root/checks.sh
url=http://127.0.0.1:8081

# load: registers new schemas one after another. It notes each one that was acknowledged in /root/acknowledged.
load() {
  exec python3 - "$url" <<'END'
import http.client, json, os, pathlib, time
noted = pathlib.Path("/root/acknowledged")
number = 1_000_000 + sum(1 for _ in noted.open()) * 1000 if noted.exists() else 1
with noted.open("a") as out:
    while True:
        number += 1
        try:
            connection = http.client.HTTPConnection("127.0.0.1", 8081, timeout=10)
            for _ in range(50):
                number += 1
                body = json.dumps({"schema": json.dumps({"type": "record", "name": f"R{number}", "fields": [{"name": "f" * 500, "type": "int"}]})})
                connection.request("POST", f"/subjects/s{number % 7}-{number}/versions", body)
                if connection.getresponse().read().startswith(b'{"id"'):
                    print(f"s{number % 7}-{number}", file=out, flush=True)
        except (OSError, http.client.HTTPException):
            time.sleep(0.02)
END
}
missing() { comm -23 <(sort /root/acknowledged) <(curl -s -f -m 60 "$url/subjects" | tr -d '[]"' | tr , '\n' | sort); }
nothing_missing() { [ -s /root/acknowledged ] && [ "$(missing | wc -l)" = 0 ]; }
has_process() { [ "$(systemctl show -P MainPID avroreg)" != 0 ]; }
responds() { curl -s -f -m 20 -o /dev/null "$url/config"; }
refusals() { journalctl -u avroreg -o cat | grep -E '^guard: (failed|[a-z-]+: )' | grep -v '^guard: \(next\|warning\): '; }

case $1 in
  program)
    dpkg -i /root/avroreg.deb >/dev/null 2>&1
    check "a registry is made" avroreg-admin init
    mkdir -p /etc/systemd/system/avroreg.service.d
    printf '[Unit]\nStartLimitIntervalSec=0\n[Service]\nRestartSec=0\n' >/etc/systemd/system/avroreg.service.d/kills.conf
    systemctl daemon-reload
    load >/dev/null 2>&1 &
    writer=$!
    for n in $(seq "$2"); do
      eventually 60 has_process
      sleep "0.$((RANDOM % 10))$((RANDOM % 10))"
      who=main
      [ $((n % 3)) != 0 ] || who=all # also the guard, and what notes the start
      systemctl kill -s KILL --kill-who=$who avroreg 2>/dev/null
    done
    check "after $2 kills it responds" eventually 60 responds
    kill $writer
    wait $writer 2>/dev/null
    echo "       $(wc -l </root/acknowledged) writes acknowledged, $(systemctl show -P NRestarts avroreg) restarts"
    ;;
  load) load ;;
  check) check "after the boot it responds" eventually 60 responds ;;
esac
check "nothing acknowledged is lost" nothing_missing
check "no start was refused" bash -c "! { $(declare -f refusals); refusals; }"
print_counts
