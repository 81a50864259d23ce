#!/usr/bin/env python3
"""A stand-in for a busy registry: it answers each second request with 200, the others with 503. Arguments: a port."""

import http.server
import itertools
import sys

BUSY = (503, b'{"error_code":50302,"message":"busy"}')
REGISTERED = (200, b'{"id":7,"more":"\x1b[2J"}')
ANSWERS = itertools.cycle([BUSY, REGISTERED])


class Handler(http.server.BaseHTTPRequestHandler):
    def do_POST(self):
        self.rfile.read(int(self.headers["Content-Length"]))
        status, body = next(ANSWERS)
        self.send_response(status)
        self.send_header("Retry-After", "0")
        self.send_header("Content-Length", str(len(body)))
        self.end_headers()
        self.wfile.write(body)

    def log_message(self, *arguments):
        pass


http.server.HTTPServer(("127.0.0.1", int(sys.argv[1])), Handler).serve_forever()
