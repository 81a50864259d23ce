"""`folder watch`: metrics of a registry behind nginx with passwords, such as a container's."""

import base64
import http.server
import threading
import unittest

from support import CommandCase

USER = "viewer:good:word"


class Front(http.server.BaseHTTPRequestHandler):
    """nginx's part: it asks for a password."""

    def do_GET(self):
        is_known = self.headers["Authorization"] == "Basic " + base64.b64encode(USER.encode()).decode()
        status, body = (200, b'{"compatibilityLevel":"FULL"}' if self.path == "/config" else b'["a","b"]') if is_known else (401, b"{}")
        self.send_response(status)
        self.send_header("Content-Length", str(len(body)))
        self.end_headers()
        self.wfile.write(body)

    def log_message(self, *_):
        pass


class WatchFolderCase(CommandCase):
    def setUp(self):
        super().setUp()
        self.registry.reset()
        self.out, self.user = self.registry.root / "out.prom", self.registry.root / "user"
        self.front = http.server.ThreadingHTTPServer(("127.0.0.1", 0), Front)
        self.addCleanup(self.front.server_close)
        self.addCleanup(self.front.shutdown)
        threading.Thread(target=self.front.serve_forever).start()

    def watch(self, contents: str | bytes | None = None, status: int = 0) -> str:
        words = []
        if contents is not None:
            self.user.write_bytes(contents if isinstance(contents, bytes) else contents.encode())
            words = ["--user-file", str(self.user)]
        return self.run_command("folder", "watch", str(self.place.database), str(self.out), "--url", f"http://127.0.0.1:{self.front.server_port}", *words,
                                status=status)

    def test_the_user_is_sent(self):
        self.watch(USER + "\n")
        written = self.out.read_text()
        for line in ("avroreg_up 1", "avroreg_subjects 2", f'avroreg_file_bytes{{file="database"}} {self.place.database.stat().st_size}'):
            self.assertIn(f"\n{line}\n", written)
        self.assertNotIn("backup_good", written)

    def test_a_rejected_user_is_reported(self):
        for contents in (None, "viewer:wrong", "other:good:word"):
            self.assertIn("/config returned 401", self.watch(contents))
            self.assertRegex(self.out.read_text(), r"avroreg_up 0")

    def test_a_malformed_file_is_an_error_that_does_not_show_it(self):
        for contents in ("", "viewer", ":word", "viewer:", "viewer:good\nviewer:word\n", b"viewer:word\xff"):
            printed = self.watch(contents, status=2)
            self.assertIn("must have one line, USER:PASSWORD", printed)
            self.assertNotIn("word\n", printed)
        self.assertFalse(self.out.exists())

    def test_no_response(self):
        printed = self.run_command("folder", "watch", str(self.place.database), str(self.out), "--url", "http://127.0.0.1:1")
        self.assertEqual(printed, "")
        self.assertRegex(self.out.read_text(), r"avroreg_up 0")
        self.refused("folder", "watch", str(self.place.database), str(self.out), "--url", "ftp://x", text="--url is http", status=64)


del CommandCase

if __name__ == "__main__":
    unittest.main()
