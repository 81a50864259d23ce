"""`nginx` and `user` pass their words on to avroreg-nginx. packaging/try-nginx.sh tries the real one."""

import unittest

from support import CommandCase


class NginxCase(CommandCase):
    def setUp(self):
        super().setUp()
        self.registry.reset(is_served=True)
        self.called = self.registry.root / "called"

    def install(self, then: str = "") -> None:
        folder = self.registry.root / "usr/sbin"
        folder.mkdir(parents=True)
        (folder / "avroreg-nginx").write_text(f'#!/bin/sh\nfor word; do printf "[%s]" "$word"; done >>{self.called}\necho >>{self.called}\n{then}\n')
        (folder / "avroreg-nginx").chmod(0o755)

    def calls(self) -> list[str]:
        return self.called.read_text().splitlines() if self.called.exists() else []

    def test_on_serves_this_registry(self):
        self.install()
        self.run_command("nginx", "on", "--name", "a b", "--cert", "/c", "--key", "/k", "--yes", "--registry", "default")
        self.assertEqual(self.calls(), [f"[set][--registry][default][--registry-port][{self.place.settings.port}]", "[on][--name][a b][--cert][/c][--key][/k]"])

    def test_users(self):
        self.install('echo "ok    user ci, password x"')
        self.assertIn("password x", self.run_command("user", "add", "ci", "--role", "register", "--prefix", "team-a."))
        self.run_command("user", "list")
        self.assertEqual(self.calls(), ["[user][add][ci][--role][register][--prefix][team-a.]", "[user][list]"])
        self.assertIn("user", (self.place.state / "history.jsonl").read_text())

    def test_a_dry_run_runs_nothing(self):
        self.install()
        self.assertIn("avroreg-nginx user remove ci", self.run_command("user", "remove", "ci", "--dry-run"))
        self.assertEqual(self.calls(), [])

    def test_its_status_and_its_absence(self):
        self.refused("nginx", "off", text="apt install")
        self.install("exit 2")
        self.run_command("nginx", "on", status=2)
        self.assertEqual(len(self.calls()), 1)  # `on` doesn't follow a refused `set`


if __name__ == "__main__":
    unittest.main()
