#!/usr/bin/env python3
"""Attacks the registry with Chromium, as a page whose name resolves to 127.0.0.1 (DNS rebinding). try.sh runs it.

    /usr/bin/python3 examples/page/rebind.py PORT     status 1 if the page reads or changes the registry

The same requests from a page of localhost have to succeed, so that a refusal shows something.
"""
import contextlib
import sys

from selenium import webdriver
from selenium.webdriver.chrome.service import Service

NAME = "evil.example"
READS = ["/subjects", "/config", "/schemas/types"]
FETCH = "const [method, path, body, done] = arguments; fetch(path, {method, body}).then((it) => done(it.status), (fault) => done(0));"


def start_browser():
    options = webdriver.ChromeOptions()
    for argument in ("--headless=new", "--no-sandbox", "--disable-dev-shm-usage", f"--host-resolver-rules=MAP {NAME} 127.0.0.1"):
        options.add_argument(argument)
    return webdriver.Chrome(options=options, service=Service("/usr/bin/chromedriver"))


def statuses(browser, host, port):
    """The statuses of requests that a page of this host sends."""
    browser.get(f"http://{host}:{port}/config")
    found = [browser.execute_async_script(FETCH, "GET", path, None) for path in READS]
    return [*found, browser.execute_async_script(FETCH, "PUT", "/config", '{"compatibility":"BACKWARD"}')]


def main():
    port = int(sys.argv[1])
    with contextlib.closing(start_browser()) as browser:
        foreign, own = statuses(browser, NAME, port), statuses(browser, "localhost", port)
    print(f"requests of a page of {NAME}: {foreign}; of localhost: {own}")
    return 0 if own == [200] * len(own) and foreign == [421] * len(foreign) else 1


if __name__ == "__main__":
    sys.exit(main())
