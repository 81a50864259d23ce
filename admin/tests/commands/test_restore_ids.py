"""`restore` and `lost-ids`: each source of lost ids alone. No id of the old registry gets another schema."""

import contextlib
import json
import os
import subprocess
import sys
import threading
import time
import unittest
from datetime import datetime, timedelta, timezone
from pathlib import Path
from unittest import mock

from restoring import RESTORE, SCHEMAS, RestoreCase
from support import state_of


class LostIdsCase(RestoreCase):
    def lose_the_file(self) -> None:
        for name in self.registry.before:
            (self.place.folder / name).unlink()

    def write_log(self, *entries: tuple) -> None:
        self.place.access_log.parent.mkdir(parents=True)
        now = datetime.now(timezone.utc)
        self.place.access_log.write_text("".join(json.dumps({"time": (now + timedelta(seconds=at)).isoformat(), "method": method, "path": path, "status": status,
                                                              "user": "ops"}) + "\n" for at, method, path, status in entries))

    def test_nginx_s_log_alone(self):
        self.lose_the_file()
        path = "/subjects/s-d/versions"
        self.write_log((-9000, "GET", "/subjects", 200), (60, "POST", path, 200), (61, "POST", path, 200), (62, "POST", path, 502), (63, "DELETE", "/subjects/s-a", 200))
        printed = self.run_command(*RESTORE)
        self.assertIn("lost ids  4 to 6: nginx's log has 3 registrations since the backup", printed)
        self.restored()
        self.assertIn("DELETE /subjects/s-a  status 200  user ops", self.difference())
        self.no_id_is_given_twice()

    def test_a_clock_that_was_set_back(self):
        self.lose_the_file()
        path = "/subjects/s-d/versions"
        self.write_log((-9000, "GET", "/subjects", 200), (60, "POST", path, 200), *((-3600 + at, "POST", path, 200) for at in range(10)))
        printed = self.run_command(*RESTORE)
        self.assertIn("lost ids  4 to 14: nginx's log has 11 registrations since the backup; its clock was set back at", printed)
        self.restored()

    def test_what_watch_saw_alone(self):
        self.lose_the_file()
        self.place.metrics.mkdir(parents=True, exist_ok=True)
        (self.place.metrics / "seen.json").write_text(json.dumps({"greatest_id": 6, "time": time.time()}))
        printed = self.run_command(*RESTORE)
        self.assertIn("lost ids  4 to 1,006: watch saw id 6 at", printed)
        self.restored()
        self.no_id_is_given_twice()

    def test_a_number_alone_changes_the_cache_key(self):
        self.lose_the_file()
        folder = self.registry.root / "etc/nginx/conf.d"
        folder.mkdir(parents=True)
        (folder / "avroreg.conf").write_text('map "" $registry_cache_key {\n    default 1;\n}\n')
        self.script("nginx", "exit 0")
        with mock.patch.dict(os.environ, {"PATH": f"{self.registry.root}:{os.environ['PATH']}"}):
            printed = self.run_command(*RESTORE, "--lost-ids", "3")
        self.assertIn("nginx has a new cache key", printed)
        self.assertIn("restart the consumers", printed)
        self.assertRegex((folder / "avroreg.conf").read_text(), r"default 2\d{7}T\d{6}Z;")
        self.restored()
        self.no_id_is_given_twice()

    def test_no_subject_of_a_user_is_deleted(self):
        self.registry.reset(is_served=True)
        for name in ("avroreg-lost-ids", "avroreg-lost-ids-2", "avroreg-lost-ids-813"):
            self.registry.write("POST", f"/subjects/{name}/versions", {"schema": '"string"'})
        self.run_command("backup")
        self.run_command("lost-ids", "--count", "4", "--yes")
        subjects = self.place.ask("GET", "/subjects")[1]
        self.assertEqual([name for name in subjects if name.startswith("avroreg")], ["avroreg-lost-ids", "avroreg-lost-ids-2", "avroreg-lost-ids-813"])
        self.assertEqual([row[0] for row in state_of(self.place.database)["versions"]].count("avroreg-lost-ids-3"), 4)

    def test_a_schema_of_a_user_with_a_placeholder_s_name(self):
        self.registry.reset(is_served=True)
        self.registry.write("POST", "/subjects/s/versions", {"schema": '{"type":"fixed","name":"avroreg.lost_9","size":1}'})
        self.run_command("lost-ids", "--count", "4", "--yes")
        self.assertEqual([row[0] for row in state_of(self.place.database)["schemas"]], [str(number) for number in range(1, 12)])

    def test_a_schema_that_this_program_refuses_gets_a_placeholder(self):
        """Another program wrote the old file. This one refuses the schema `e`: it gets another text of the same length."""
        real = os.environ["AVROREG"]
        program = self.script("older-program", f"""[ "$1" = run ] || exec {real} "$@"
sed 's/\\\\"e\\\\",\\\\"size\\\\":1,\\\\"type\\\\":\\\\"fixed/\\\\"e\\\\",\\\\"size\\\\":1,\\\\"type\\\\":\\\\"fixxd/' | {real} "$@\"""")
        with mock.patch.dict(os.environ, {"AVROREG": program}):
            printed = self.run_command(*RESTORE)
        self.assertIn("id 5: this program refuses the old schema, so the id has a placeholder", printed)
        schemas = dict(state_of(self.place.database)["schemas"])
        self.assertEqual([schemas["4"], schemas["5"], schemas["6"]], [SCHEMAS["d"][1], '{"name":"avroreg.lost_5","size":1,"type":"fixed"}', SCHEMAS["f"][1]])

    def test_the_first_registration_after_the_start_gets_no_lost_id(self):
        """A program registers from the moment at which the port opens."""
        port, found, is_over = self.place.settings.port, [], threading.Event()

        def register():
            import http.client
            while not found and not is_over.is_set():
                connection = http.client.HTTPConnection("127.0.0.1", port, timeout=5)
                with contextlib.suppress(OSError, http.client.HTTPException, ValueError):
                    connection.request("POST", "/subjects/quick/versions", '{"schema":"\\"double\\""}', {"Connection": "close"})
                    found.append(json.loads(connection.getresponse().read())["id"])
                connection.close()

        client = threading.Thread(target=register)
        client.start()
        try:
            status, _ = self.restored_beside(client)
        finally:
            is_over.set()
            client.join()
        self.assertEqual(found, [7], status)

    def restored_beside(self, client) -> tuple:
        """Restores in a process of its own: a fork would have the client's thread."""
        script = Path(__file__).resolve().parents[2] / "avroreg-admin"
        ran = subprocess.run([sys.executable, script, *RESTORE], capture_output=True, text=True, stdin=subprocess.DEVNULL)
        return ran.stdout + ran.stderr, client


if __name__ == "__main__":
    unittest.main()
