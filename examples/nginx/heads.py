#!/usr/bin/env python3
"""Opens many connections that send half a head, and checks that other clients still get responses.

    python3 examples/nginx/heads.py PORT CONNECTIONS     status 1 if a request of another client fails
"""
import concurrent.futures
import contextlib
import http.client
import resource
import socket
import sys
import time

REQUESTS = 28
SECONDS = 3  # that a request may take: nginx closes a connection with half a head after ten


def open_slow(port, number):
    """Connections that have sent half a head. nginx may not have accepted all of them."""
    connections = []
    for _ in range(number):
        connection = socket.socket()
        connection.setblocking(False)
        connection.connect_ex(("127.0.0.1", port))
        connections.append(connection)
    time.sleep(0.5)
    for connection in connections:
        with contextlib.suppress(OSError):
            connection.sendall(b"GET /config HTTP/1.1\r\nHost: 127.0")
    return connections


def request_fails(port):
    connection = http.client.HTTPConnection("127.0.0.1", port, timeout=SECONDS)
    try:
        connection.request("GET", "/config")
        return connection.getresponse().status != 200
    except (OSError, http.client.HTTPException):
        return True
    finally:
        connection.close()


def main():
    port, number = map(int, sys.argv[1:])
    resource.setrlimit(resource.RLIMIT_NOFILE, (number + 100, max(number + 100, resource.getrlimit(resource.RLIMIT_NOFILE)[1])))
    slow = open_slow(port, number)
    with concurrent.futures.ThreadPoolExecutor(REQUESTS) as pool:
        failed = sum(pool.map(request_fails, [port] * REQUESTS))
    for connection in slow:
        connection.close()
    print(f"{number} connections with half a head: {failed} of {REQUESTS} other requests failed")
    return 1 if failed else 0


if __name__ == "__main__":
    sys.exit(main())
