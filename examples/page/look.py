#!/usr/bin/env python3
"""Drives headless Chromium through the page, and compares its texts with the registry's responses. try.sh runs it.

Each function that begins with `check` or `try` is one part. `main` has their order, because each part finds the changes of
the earlier ones. A failed check is an AssertionError with the part's line.
"""
import argparse
import contextlib
import http.client
import json
import os
import re
import signal
import time
import urllib.parse

from selenium import webdriver
from selenium.common.exceptions import NoAlertPresentException, StaleElementReferenceException
from selenium.webdriver.chrome.service import Service
from selenium.webdriver.common.action_chains import ActionChains
from selenium.webdriver.common.by import By
from selenium.webdriver.common.keys import Keys

HOSTILE = "<img src=x onerror=alert(1)>"
SUBJECTS = 2000
WIDE, PHONE = (1280, 900), (360, 780)

EVENT = [{"name": "id", "type": "long", "doc": "Its number."}, {"name": "note", "type": ["null", "string"], "default": None}]
ORDERS = [
    {"type": "record", "name": "Order", "namespace": "shop", "doc": "An order, as the shop took it.", "fields": [
        {"name": "id", "type": "long", "doc": "The order's number."},
        {"name": "placed", "type": {"type": "long", "logicalType": "timestamp-millis"}},
        {"name": "total", "type": {"type": "bytes", "logicalType": "decimal", "precision": 9, "scale": 2}, "doc": "With taxes."},
        {"name": "state", "type": {"type": "enum", "name": "State", "symbols": ["NEW", "PAID", "SENT"], "default": "NEW"}, "default": "NEW"},
        {"name": "limit", "type": "long", "default": 9223372036854775807, "aliases": ["most", "cap"]},
        {"name": "customer", "type": {"type": "record", "name": "Customer", "doc": "Who ordered.", "fields": [
            {"name": "name", "type": "string"},
            {"name": "address", "type": ["null", {"type": "record", "name": "Address", "fields": [
                {"name": "street", "type": "string"}, {"name": "zip", "type": {"type": "fixed", "name": "Zip", "size": 5}}]}],
             "default": None}]}},
        {"name": "lines", "type": {"type": "array", "items": {"type": "record", "name": "Line", "fields": [
            {"name": "sku", "type": "string"}, {"name": "pieces", "type": "int", "default": 1}]}}, "default": []},
    ]},
]
for added in ({"name": "channel", "type": "string", "default": "web", "doc": "Where it was placed."},
              {"name": "tags", "type": {"type": "map", "values": "string"}, "default": {"brace": "{"}}):
    ORDERS.append({**ORDERS[-1], "fields": [*ORDERS[-1]["fields"][:2], added, *ORDERS[-1]["fields"][2:]]})
HOSTILE_SCHEMA = {"type": "record", "name": "Hostile", "doc": HOSTILE, "fields": [
    {"name": "text", "type": "string", "default": HOSTILE, "doc": HOSTILE},
    {"name": "moment", "type": {"type": "long", "logicalType": HOSTILE}}]}


@contextlib.contextmanager
def stopped(server):
    """Stops the server's process meanwhile: it receives requests, and answers them only after the end."""
    os.kill(server, signal.SIGSTOP)
    try:
        yield
    finally:
        os.kill(server, signal.SIGCONT)


def path(*parts):
    return "/" + "/".join(urllib.parse.quote(part, safe="") for part in parts)


class Registry:
    """The registry, without the page."""

    def __init__(self, port):
        self.port = port

    def ask(self, method, target, body=None):
        connection = http.client.HTTPConnection("127.0.0.1", self.port, timeout=60)
        connection.request(method, target, body and json.dumps(body), {"Connection": "close"})
        answer = connection.getresponse()
        return answer.status, json.loads(answer.read())

    def get(self, target):
        status, answer = self.ask("GET", target)
        assert status == 200, (target, status, answer)
        return answer

    def register(self, subject, schema):
        status, answer = self.ask("POST", path("subjects", subject, "versions"), {"schema": json.dumps(schema)})
        assert status == 200, (subject, status, answer)

    def fill(self):
        """Registers 2,000 subjects: one is soft-deleted, one has three versions, and some have names that are hard to display."""
        names = ["orders", "gone", HOSTILE, "a/b?c#d%e&f=g+h", "größe \u202e x", "x" * 255]
        shops = ["billing", "catalogue", "delivery", "payments", "returns", "stock", "support", "tracking"]
        names += [f"{shops[at % 8]}.event-{at:04}-value" for at in range(SUBJECTS + 1 - len(names))]
        connection = http.client.HTTPConnection("127.0.0.1", self.port, timeout=60)
        for at, name in enumerate(names):
            fields = EVENT + [{"name": f"f{at % 7}", "type": "double", "default": 0}]
            schema = {"type": "record", "name": f"Event{at % 50}", "namespace": "shop.events", "fields": fields}
            schema = {"orders": ORDERS[0], HOSTILE: HOSTILE_SCHEMA}.get(name, schema)
            connection.request("POST", path("subjects", name, "versions"), json.dumps({"schema": json.dumps(schema)}))
            answer = connection.getresponse()
            assert answer.status == 200, (name, answer.read())
            answer.read()
        connection.close()
        for schema in ORDERS[1:]:
            self.register("orders", schema)
        assert self.ask("DELETE", "/subjects/gone")[0] == 200
        assert self.ask("PUT", "/config/orders", {"compatibility": "FULL"})[0] == 200


class Page:
    """The page in a browser."""

    def __init__(self, port, log, shots):
        self.origin, self.log, self.shots = f"http://127.0.0.1:{port}", log, shots
        options = webdriver.ChromeOptions()
        options.binary_location = "/usr/bin/chromium"
        for option in ("--headless=new", "--no-sandbox", "--disable-gpu", "--disable-dev-shm-usage"):
            options.add_argument(option)
        options.set_capability("goog:loggingPrefs", {"browser": "ALL"})
        self.driver = webdriver.Chrome(service=Service("/usr/bin/chromedriver"), options=options)
        self.light(True)
        self.size(WIDE)

    def size(self, size):
        self.width = size[0]
        self.driver.execute_cdp_cmd("Emulation.setDeviceMetricsOverride",
                                    {"width": size[0], "height": size[1], "deviceScaleFactor": 1, "mobile": size == PHONE})

    def light(self, is_light):
        features = [{"name": "prefers-color-scheme", "value": "light" if is_light else "dark"}]
        self.driver.execute_cdp_cmd("Emulation.setEmulatedMedia", {"features": features})

    def offline(self, is_offline):
        conditions = {"offline": is_offline, "latency": 0, "downloadThroughput": -1, "uploadThroughput": -1}
        self.driver.execute_cdp_cmd("Network.enable", {})
        self.driver.execute_cdp_cmd("Network.emulateNetworkConditions", conditions)

    def open(self, **parameters):
        """Loads the page again at a view."""
        self.driver.get("about:blank")
        self.driver.get(f"{self.origin}/page/#{urllib.parse.urlencode(parameters)}")
        self.settle()

    def settle(self):
        """Waits until the view is complete and each visible row has its values."""
        self.until(lambda: self.run("return !document.querySelector('main[aria-busy]') && !!document.querySelector('h1')"))
        self.until(lambda: self.run("""return [...document.querySelectorAll('.subjects tbody tr')].every((row) => {
          const {top, bottom} = row.getBoundingClientRect();
          return bottom < 1 || top > innerHeight - 1 || !row.textContent.includes('…'); })"""))

    def run(self, script, *arguments):
        return self.driver.execute_script(script, *arguments)

    def until(self, condition, seconds=90, what="this didn't happen"):
        end = time.monotonic() + seconds
        while time.monotonic() < end:
            try:
                found = condition()
                if found:
                    return found
            except StaleElementReferenceException:
                pass
            time.sleep(0.05)
        raise AssertionError(f"{what}; the page shows: {self.text('main')[:400]}")

    def all(self, selector):
        return self.driver.find_elements(By.CSS_SELECTOR, selector)

    def one(self, selector):
        return self.until(lambda: self.all(selector), what=f"there is no {selector}")[0]

    def texts(self, selector):
        return self.run("return [...document.querySelectorAll(arguments[0])].map((node) => node.textContent)", selector)

    def text(self, selector):
        return "\n".join(self.texts(selector))

    def button(self, text, within=""):
        return self.until(lambda: [each for each in self.all(f"{within} button") if each.text == text], what=f"no button {text}")[0]

    def choose(self, selector, value):
        """Chooses a value in a select box, and clicks its button."""
        self.run("arguments[0].value = arguments[1]", self.one(selector), value)
        self.one(f"{selector} + button").click()

    def message(self, kind, text, within=""):
        """Waits for a message of this kind with this text."""
        return self.until(lambda: [each for each in self.texts(f"{within} .message.{kind}") if text in each],
                          what=f"no {kind} {text}")[0]

    def shot(self, name, at=None):
        """Makes screenshots at both widths, light and dark, scrolled to the selector `at`. Checks that no view is wider than its
        window, and that each text has contrast."""
        for size, width in ((WIDE, "wide"), (PHONE, "phone")):
            self.size(size)
            self.settle()
            wide = self.run("return document.scrollingElement.scrollWidth")
            assert wide <= size[0], (name, width, wide)
            if at:
                self.run("document.querySelector(arguments[0]).scrollIntoView({block: 'center'})", at)
            for is_light, light in ((True, "light"), (False, "dark")):
                self.light(is_light)
                time.sleep(0.1)
                faint = self.run(CONTRAST)
                assert not faint, (name, width, light, faint)
                self.driver.save_screenshot(f"{self.shots}/{name}-{width}-{light}.png")
        self.light(True)
        self.size(WIDE)

    def lines(self):
        """The lines of nginx's log so far."""
        time.sleep(0.1)
        with open(self.log, encoding="utf-8") as log:
            return log.read().splitlines()

    def press(self, *keys):
        ActionChains(self.driver).send_keys(*keys).perform()

    def tab_to(self, script, most=60, back=False):
        """Presses Tab until the script is true of `at`, the element with the focus. Checks that the focus is always visible."""
        for _ in range(most):
            if back:
                ActionChains(self.driver).key_down(Keys.SHIFT).send_keys(Keys.TAB).key_up(Keys.SHIFT).perform()
            else:
                self.press(Keys.TAB)
            seen = self.run("const at = document.activeElement; return at === document.body || getComputedStyle(at).outlineStyle !== 'none'")
            assert seen, self.run("return document.activeElement.outerHTML")
            if self.run(f"const at = document.activeElement; return {script}"):
                return
        raise AssertionError(f"the keyboard doesn't reach {script}")

    def press_at(self, script, keys, back=False):
        """Presses Tab until the script is true of `at`, and presses keys there."""
        self.tab_to(script, back=back)
        self.press(keys)


# The texts with a contrast under 4.5 to their background (WCAG 2.2, success criterion 1.4.3).
CONTRAST = """
const parts = (color) => color.match(/[\\d.]+/g).map(Number);
const light = ([r, g, b]) => [r, g, b].map((c) => c / 255).map((c) => c <= 0.04045 ? c / 12.92 : ((c + 0.055) / 1.055) ** 2.4)
  .reduce((sum, c, at) => sum + c * [0.2126, 0.7152, 0.0722][at], 0);
const behind = (node) => { for (; node; node = node.parentElement) {
  const found = parts(getComputedStyle(node).backgroundColor); if (found.length === 3 || found[3] === 1) return found; }
  return [255, 255, 255]; };
const found = [];
const walk = document.createTreeWalker(document.body, NodeFilter.SHOW_TEXT);
for (let node = walk.nextNode(); node; node = walk.nextNode()) {
  const box = node.parentElement;
  if (!node.data.trim() || !box.checkVisibility() || box.closest('option, [aria-disabled]')) continue;
  const [a, b] = [light(parts(getComputedStyle(box).color)), light(behind(box))];
  const contrast = (Math.max(a, b) + 0.05) / (Math.min(a, b) + 0.05);
  if (contrast < 4.5) found.push([node.data, contrast]);
}
return found;"""


def type_text(kind):
    """The page's text for a type, on one line."""
    if isinstance(kind, str):
        return kind
    if isinstance(kind, list):
        return " | ".join(map(type_text, kind))
    if kind["type"] in ("array", "map"):
        return f"{kind['type']}<{type_text(kind['items' if kind['type'] == 'array' else 'values'])}>"
    name = f"{kind['type']} {kind['name']}" if "name" in kind else kind["type"]
    digits = ", ".join(str(kind[fact]) for fact in ("precision", "scale") if fact in kind)
    return f"{name} ({kind['logicalType']}{' ' if digits else ''}{digits})" if "logicalType" in kind else name


def records(kind):
    """The records that a type defines, from the outside in, in the order of the text."""
    if isinstance(kind, list):
        return [found for branch in kind for found in records(branch)]
    if not isinstance(kind, dict):
        return []
    if kind["type"] == "record":
        return [kind] + [found for field in kind["fields"] for found in records(field["type"])]
    return records(kind.get("items", kind.get("values")))


def check_headers(page):
    status, head = 0, {}
    for name in ("", "page.css", "page.js"):
        connection = http.client.HTTPConnection(page.origin[7:], timeout=10)
        connection.request("GET", f"/page/{name}")
        answer = connection.getresponse()
        status, head = answer.status, {name.lower(): value for name, value in answer.getheaders()}
        body = answer.read().decode()
        assert status == 200 and "default-src 'self';" in head["content-security-policy"], (name, status, head)
        assert head["x-content-type-options"] == "nosniff", head
        assert not re.search(r"https?://|@import|innerHTML|outerHTML|insertAdjacent|document\.write|\beval\b", body), name
    print("the page, its style and its script: one origin, with a Content-Security-Policy of default-src 'self'")


def check_subjects(page, registry):
    """The first rows of 2,000 subjects take few requests."""
    before = len(page.lines())
    page.open()
    requests = [line for line in page.lines()[before:] if " /page/" not in line and "favicon" not in line]
    assert len(requests) <= 100, len(requests)
    wanted = registry.get("/subjects")
    assert len(wanted) == SUBJECTS and f"{SUBJECTS:,} subjects" in page.text(".told"), page.text(".told")
    names = page.texts(".subjects tbody th a")
    assert 30 < len(names) <= 200 and names == wanted[:len(names)], names
    level, mode, filled = registry.get("/config")["compatibilityLevel"], registry.get("/mode")["mode"], 0
    for name, (latest, schema, shown_level, shown_mode) in zip(names, page.run("""return [...document.querySelectorAll('.subjects tbody tr')]
        .map((row) => [...row.querySelectorAll('td')].map((cell) => cell.textContent))""")):
        if latest == "…":
            continue
        found = registry.get(path("subjects", name, "versions", "latest"))
        assert (latest, schema) == (f"{found['version']} id {found['id']}", type_text(json.loads(found["schema"]))), (name, latest, schema)
        status, own = registry.ask("GET", path("config", name))
        assert shown_level == (own["compatibilityLevel"] if status == 200 else level), (name, shown_level)
        status, own = registry.ask("GET", path("mode", name))
        assert shown_mode == (own["mode"] if status == 200 else mode), (name, shown_mode)
        filled += 1
    assert filled >= 15, filled
    page.shot("subjects")
    print(f"the first {filled} rows of {SUBJECTS:,} subjects, equal to the registry's responses: {len(requests)} requests")

    page.open()
    page.until(lambda: page.run("""scrollTo(0, document.body.scrollHeight);
      return document.querySelectorAll('.subjects tbody tr').length""") == SUBJECTS)
    page.settle()
    assert page.texts(".subjects tbody th a") == wanted
    print("all rows, after scrolling to the end")


def check_search(page, registry):
    """The search box, and the switch for soft-deleted subjects."""
    page.open()
    page.one("#search").send_keys("ORDER")
    page.until(lambda: page.texts(".subjects tbody th a") == ["orders"])
    page.settle()
    assert page.texts(".subjects tbody td")[2] == "FULL"
    page.one("#search").send_keys("no such")
    page.until(lambda: "No subject has" in page.text(".told"))
    page.shot("no-match")
    page.one("#search").clear()
    page.one("#search").send_keys("gone")
    page.until(lambda: "No subject has" in page.text(".told"))
    page.one("#deleted").click()
    page.until(lambda: page.texts(".subjects tbody th") == ["gone soft-deleted"])
    assert page.run("return document.activeElement.id") == "deleted"
    page.settle()
    found = registry.get("/subjects/gone/versions/latest?deleted=true")
    assert page.texts(".subjects tbody td")[0] == f"{found['version']} id {found['id']}"
    page.one("#search").clear()
    page.one("#search").send_keys(Keys.BACKSPACE)
    page.until(lambda: f"{len(registry.get('/subjects?deleted=true')):,} subjects" in page.text(".told"))
    print("search, and the switch for soft-deleted subjects")


def check_fields(page, registry):
    """A schema as tables of fields."""
    page.open(subject="orders")
    found = registry.get("/subjects/orders/versions/latest")
    assert page.texts(".versions li") == ["3", "2", "1"] and page.text("h2").startswith(f"Version 3 id {found['id']}")
    schema = json.loads(found["schema"])
    tables = page.run("""return [...document.querySelectorAll('table.fields')].map((table) =>
      [...table.tBodies[0].rows].filter((row) => row.className !== 'inside')
        .map((row) => Object.fromEntries([...row.cells].map((cell) => [cell.dataset.name, cell.textContent]))))""")
    wanted = []
    for record in records(schema):
        rows = []
        for field in record["fields"]:
            row = {"Field": field["name"], "Type": type_text(field["type"]), "Default": "none"}
            if "default" in field:
                row["Default"] = json.dumps(field["default"], separators=(",", ":"))
            if any("doc" in each for each in record["fields"]):
                row["Doc"] = field.get("doc", "")
            if any("aliases" in each for each in record["fields"]):
                row["Aliases"] = ", ".join(field.get("aliases", []))
            rows.append(row)
        wanted.append(rows)
    assert tables == wanted, (tables, wanted)
    assert schema["doc"] in page.text(".definition > .doc") and "9223372036854775807" in page.text(".fields")
    assert page.run("return [...document.querySelectorAll('details')].every((each) => !each.open)")
    page.shot("fields")
    for summary in page.all(".version > .definition > table > tbody > .inside > td > details > summary"):
        summary.click()
    page.all("details[open] summary")[-1].click()
    page.shot("folds")
    print(f"fields of {len(tables)} records: name, type, default, doc, aliases; inner ones fold")


def compact(text):
    """An indented text of the page, without the indentation."""
    lines = [re.sub(r'^("(?:[^"\\]|\\.)*"): ', r"\1:", line.strip(" ")) for line in text.split("\n")]
    return "".join(lines)


def check_json(page, registry):
    page.open(subject="orders", version=2, view="json")
    assert compact(page.text("pre")) == registry.get("/subjects/orders/versions/2")["schema"]
    assert json.loads(page.text("pre")) == json.loads(registry.get("/subjects/orders/versions/2")["schema"])
    page.shot("json")
    print("JSON, byte for byte except the indentation")


def check_differences(page, registry):
    page.open(subject="orders", version=3, view="compare", against=1)
    rows = page.run("""return [...document.querySelectorAll('.difference tbody tr')].map((row) =>
      [row.className, ...[...row.cells].map((cell) => cell.querySelector('code')?.textContent ?? null)])""")
    for side, version in ((1, 1), (2, 3)):
        text = "\n".join(row[side] for row in rows if row[side] is not None)
        assert compact(text) == registry.get(f"/subjects/orders/versions/{version}")["schema"]
    assert all(name == ("same" if left == right else "differs") for name, left, right in rows)
    # version 3 has two more fields than version 1: only their lines are marked
    marked = [row for row in rows if row[0] == "differs"]
    assert all(left is None for _, left, _ in marked) and len(marked) == 16, marked
    page.shot("compare")
    page.run("const box = document.querySelector('#against'); box.value = '2'; box.dispatchEvent(new Event('change'))")
    page.until(lambda: page.text(".difference thead").startswith("− Version 2"))
    print(f"versions 1 and 3 side by side: {len(rows)} rows, {len(marked)} marked")


def check_hostile_names(page, registry):
    """The page displays texts of the registry as text everywhere, never as HTML."""
    for name in (HOSTILE, "a/b?c#d%e&f=g+h", "größe \u202e x", "x" * 255):
        page.open()
        page.one("#search").send_keys(name)
        page.until(lambda: page.texts(".subjects tbody th a") == [name])
        page.one(".subjects tbody th a").click()
        page.until(lambda: page.texts("h1") == [name] and page.all(".version"))
        schema = registry.get(path("subjects", name, "versions", "latest"))["schema"]
        page.one(".tabs a:nth-child(2)").click()
        page.until(lambda: page.all("pre"))
        assert compact(page.text("pre")) == schema
        for width in (PHONE, WIDE):
            page.size(width)
            assert page.run("return document.scrollingElement.scrollWidth") <= width[0], name
    page.open(subject=HOSTILE)
    cells = page.run("return [...document.querySelectorAll('.fields tbody tr > *')].map((cell) => cell.textContent)")
    assert cells == ["text", "string", json.dumps(HOSTILE), HOSTILE, "moment", f"long ({HOSTILE})", "none", ""], cells
    assert page.texts(".definition > .doc") == [HOSTILE]
    page.shot("hostile")
    page.button("Soft-delete subject…").click()
    assert page.texts("dialog h2") == [f"Soft-delete {HOSTILE}?"]
    page.press(Keys.ESCAPE)
    for dots in (".", ".."):
        page.open(subject=dots)
        assert "A browser can't request" in page.message("bad", "named")
    assert not page.all("img, iframe, object, body script")
    print("a subject, a doc, a default and an attribute of HTML, and subjects with odd letters, are displayed unchanged")


def try_new_versions(page, registry, server):
    """Check and register, rejected and accepted, and the level."""
    page.open(subject="orders")
    bad = {**ORDERS[2], "fields": ORDERS[2]["fields"] + [{"name": "needed", "type": "string"}]}
    good = {**ORDERS[2], "fields": ORDERS[2]["fields"] + [{"name": "extra", "type": "string", "default": "a\\nb"}]}
    box = page.one("#new-schema")
    box.send_keys("{")
    page.button("Check").click()
    assert page.message("bad", "42201 Invalid schema.")
    page.button("Register").click()
    assert page.message("bad", "42201 Invalid schema.")
    box.clear()
    box.send_keys(json.dumps(bad))
    page.button("Check").click()
    assert "FULL compares it with the latest version. Refused by version 3." in page.message("bad", "Not compatible.")
    page.button("Register").click()
    assert "Refused by version 3." in page.message("bad", "409 Schema is incompatible with an earlier version.")
    page.shot("refused", ".new .outcome")
    assert registry.get("/subjects/orders/versions") == [1, 2, 3]
    box.clear()
    box.send_keys(json.dumps(good))
    page.button("Check").click()
    assert page.message("good", "Compatible: the level FULL accepts it.")
    before = len(page.lines())
    with stopped(server):
        ActionChains(page.driver).double_click(page.button("Register")).perform()
        page.run("arguments[0].click()", page.button("Register"))
        time.sleep(1)
    assert page.message("good", "Version 4 of orders has this schema") and "Sent once" in page.text(".said")
    time.sleep(0.5)
    sent = [line for line in page.lines()[before:] if line.endswith(" POST /subjects/orders/versions")]
    assert sent == ["200 POST /subjects/orders/versions"], sent
    assert registry.get("/subjects/orders/versions") == [1, 2, 3, 4]
    assert json.loads(registry.get("/subjects/orders/versions/4")["schema"])["fields"][-1]["default"] == "a\\nb"
    page.shot("registered")
    print("a schema is checked, rejected with code and message, and registered; a double click sends one request")

    page.choose("#config-own", "BACKWARD")
    assert page.message("good", "Compatibility level is BACKWARD.")
    assert registry.get("/config/orders") == {"compatibilityLevel": "BACKWARD"}
    page.open()
    page.choose("#config-all", "FORWARD")
    assert page.message("good", "Global compatibility level is FORWARD.")
    assert registry.get("/config") == {"compatibilityLevel": "FORWARD"}
    print("the compatibility level of a subject and the global one are changed")


def record_of(kind):
    return {"type": "record", "name": "Price", "fields": [{"name": "amount", "type": kind}]}


def try_rejections(page, registry):
    """A failed check or registration names exactly the versions that are incompatible with the schema."""
    subject, kinds = "prices", ("int", "long", "string", "double")
    assert registry.ask("PUT", f"/config/{subject}", {"compatibility": "NONE"})[0] == 200
    for kind in kinds:
        registry.register(subject, record_of(kind))
    schema = {"schema": json.dumps(record_of("float"))}
    for level in ("BACKWARD", "BACKWARD_TRANSITIVE"):
        assert registry.ask("PUT", f"/config/{subject}", {"compatibility": level})[0] == 200
        live = registry.get(f"/subjects/{subject}/versions")
        refusing = [version for version in (live if "TRANSITIVE" in level else live[-1:]) if not registry.ask(
            "POST", f"/compatibility/subjects/{subject}/versions/{version}", schema)[1]["is_compatible"]]
        wanted = {"BACKWARD": "version 4", "BACKWARD_TRANSITIVE": "versions 3 and 4"}[level]
        assert refusing == ([4] if level == "BACKWARD" else [3, 4]), refusing
        page.open(subject=subject)
        page.one("#new-schema").send_keys(schema["schema"])
        for press, text in (("Check", "Not compatible."), ("Register", "409 Schema is incompatible")):
            page.button(press).click()
            assert page.message("bad", text, ".new").endswith(f"Refused by {wanted}."), page.text(".new .message")
    page.shot("refusing", ".new .outcome")
    page.all(".new .message a")[0].click()
    page.until(lambda: page.text("h2").startswith("Version 3 "))
    page.open(new="")
    page.one("#new-subject").send_keys(subject)
    page.one("#new-schema").send_keys(schema["schema"])
    page.button("Check").click()
    assert "Refused by versions 3 and 4." in page.message("bad", "Not compatible.")
    assert registry.get(f"/subjects/{subject}/versions") == live
    print("a failed check and a failed registration name each incompatible version, with a link to it")


def try_confirmations(page, registry):
    """NONE and the global READONLY need a confirmation, other values don't."""
    for parameters, box, value, question in (
            ({"subject": "prices"}, "#config-own", "NONE", "Set the compatibility level of prices to NONE?"),
            ({}, "#config-all", "NONE", "Set the global compatibility level to NONE?"),
            ({}, "#mode-all", "READONLY", "Set the global mode to READONLY?")):
        target = "/" + "/".join([box[1:].split("-")[0], *parameters.values()])
        before, name = registry.get(target), question[8:].partition(" of ")[0].rpartition(" to ")[0] or "compatibility level"
        page.open(**parameters)
        for key in (Keys.ENTER, Keys.ESCAPE):
            page.choose(box, value)
            assert page.texts("dialog h2") == [question]
            assert page.run("return document.activeElement.textContent") == "Cancel"
            page.press(key)
            page.until(lambda: not page.all("dialog"))
            assert page.run("return document.querySelector(arguments[0]).value", box) == list(before.values())[0]
        assert registry.get(target) == before
        page.choose(box, value)
        if box != "#config-own":
            page.shot(f"question-{box[1:]}")
        page.button(f"Set {value}", "dialog").click()
        assert page.message("good", f"{name[0].upper()}{name[1:]} is {value}.")
        assert list(registry.get(target).values()) == [value]
    page.choose("#mode-all", "READWRITE")
    assert page.message("good", "Global mode is READWRITE.")
    page.choose("#config-all", "FORWARD")
    assert page.message("good", "Global compatibility level is FORWARD.")
    assert page.texts(".setting label") == ["Global compatibility level", "Global mode"]
    assert page.texts(".switch") == ["Include soft-deleted"]
    print("NONE and the global READONLY are set after a confirmation, other values at once")


def check_ids(page, registry):
    """A schema by its id, with the versions that have it."""
    page.open()
    page.all("header nav a")[2].click()
    page.until(lambda: page.texts("h1") == ["Schema by id"])
    assert page.all("#schema-id") and not page.all(".version, .message")
    number = registry.get("/subjects/gone/versions/latest?deleted=true")["id"]
    page.one("#schema-id").send_keys(str(number), Keys.ENTER)
    page.until(lambda: page.all(".version"))
    live = registry.get(f"/schemas/ids/{number}/versions")
    uses = registry.get(f"/schemas/ids/{number}/versions?deleted=true")
    assert len(uses) > len(live) > 1 and page.text(".version h2") == f"Schema with id {number}"
    wanted = [f"{each['subject']}, version {each['version']}{'' if each in live else ' soft-deleted'}" for each in uses]
    assert page.texts(".uses li") == wanted, page.texts(".uses li")
    page.shot("id")
    page.one(".tabs a:nth-child(2)").click()
    page.until(lambda: page.all("pre"))
    assert compact(page.text("pre")) == registry.get(f"/schemas/ids/{number}")["schema"]
    assert page.run("return location.hash") == f"#id={number}&view=json"
    page.all(".uses a")[0].click()
    page.until(lambda: page.texts("h1")[0].startswith(uses[0]["subject"]))
    page.one("h2 a").click()
    page.until(lambda: page.run("return location.hash") == f"#id={number}")
    page.open(id=2147483647)
    assert page.message("bad", "40403 Schema not found.") and page.all("#schema-id")
    page.shot("no-id")
    print(f"a schema by its id: as fields, as JSON, and the {len(uses)} versions that have it")


def try_links(page, registry):
    """The address names the view: a reload shows the same view, and so does the browser's Back."""
    page.open()
    page.one("#search").send_keys("ORDER")
    page.until(lambda: page.run("return location.hash") == "#search=ORDER")
    page.one("#search").clear()
    page.one("#search").send_keys("gone")
    page.one("#deleted").click()
    page.until(lambda: page.texts(".subjects tbody th") == ["gone soft-deleted"])
    assert page.run("return location.hash") == "#search=gone&deleted=true"
    page.driver.refresh()
    page.settle()
    page.until(lambda: page.texts(".subjects tbody th") == ["gone soft-deleted"])
    assert page.run("return document.querySelector('#search').value") == "gone"
    page.one(".subjects tbody th a").click()
    page.until(lambda: page.all(".version"))
    assert page.run("return location.hash") == "#subject=gone&deleted=true"
    page.driver.back()
    page.until(lambda: page.texts(".subjects tbody th") == ["gone soft-deleted"])
    for parameters, shown in (
            ({"subject": "orders", "version": 2, "view": "json"}, "pre"),
            ({"subject": "orders", "version": 3, "view": "compare", "against": 1}, ".difference"),
            ({"id": 1, "view": "json"}, "pre"), ({"new": ""}, "#new-subject"), ({"search": "ORDER"}, ".subjects")):
        page.open(**parameters)
        page.one(shown)
        assert page.run("return location.hash") == "#" + urllib.parse.urlencode(parameters)
    assert page.texts(".subjects tbody th a") == ["orders"]
    print("each view has a link: subjects with a search and soft-deleted ones, a version as fields, JSON or compared, an id")


def try_lost_answers(page, registry, server):
    """A response is lost, although the write was applied. A retry, also after a reload, isn't applied again."""
    page.open(new="")
    page.one("#new-subject").send_keys("lost")
    page.one("#new-schema").send_keys('"int"')
    with stopped(server):
        page.button("Register").click()
        said = page.message("open", "The write may have been applied.")
    key = re.search("[0-9a-f]{32}", said)[0]
    page.until(lambda: registry.ask("GET", "/subjects/lost/versions")[0] == 200)
    page.shot("lost", ".new .outcome")
    page.button("Register").click()
    said = page.message("good", "Version 1 of lost has this schema")
    assert f"Sent 2 times and applied exactly once, with the retry key {key}" in said, said
    sent = [line for line in page.lines() if line.endswith("POST /subjects/lost/versions")]
    assert sent == ["504 POST /subjects/lost/versions", "200 POST /subjects/lost/versions"], sent
    status, answer = registry.ask("DELETE", "/subjects/lost")
    assert (status, answer) == (200, [1]), answer
    try_reloads(page, registry, server)
    page.open(subject="orders")
    page.offline(True)
    page.one(".versions li:last-child a").click()
    assert page.message("bad", "No response.")
    page.shot("offline")
    page.offline(False)
    page.button("Try again").click()
    page.until(lambda: page.all(".version"))
    print("a lost response: the page reports it, and retries with the same key, also after a reload: the write is applied exactly once")


def try_reloads(page, registry, server):
    """A write without a response keeps its key after a reload."""
    page.open()
    with stopped(server):
        page.choose("#config-all", "FULL")
        said = page.message("open", "The write may have been applied.")
    key = re.search("[0-9a-f]{32}", said)[0]
    page.until(lambda: registry.get("/config") == {"compatibilityLevel": "FULL"})
    # with another key, the write would be applied again
    assert registry.ask("PUT", "/config", {"compatibility": "FORWARD"})[0] == 200
    page.driver.refresh()
    page.settle()
    said = page.message("open", "No response yet: Set the global compatibility level to FULL.")
    assert f"Its retry key is {key}." in said, said
    page.shot("pending")
    page.open(subject="orders")
    page.message("open", f"Its retry key is {key}.")
    page.button("Send again").click()
    said = page.message("good", "Done: Set the global compatibility level to FULL.")
    assert f"Sent 2 times and applied exactly once, with the retry key {key}" in said, said
    assert registry.get("/config") == {"compatibilityLevel": "FORWARD"} and not page.all(".pending")

    for ending in ("the same form", "Forget it"):
        page.open(subject="orders")
        page.offline(True)
        page.choose("#config-own", "FULL")
        key = re.search("[0-9a-f]{32}", page.message("open", "The write may have been applied."))[0]
        page.offline(False)
        page.open(subject="orders")
        said = page.message("open", "No response yet: Set the compatibility level of orders to FULL.")
        assert f"It may have been applied. Its retry key is {key}." in said, said
        if ending == "Forget it":
            page.button(ending).click()
            page.until(lambda: not page.all(".pending"))
            page.open()
            assert not page.all(".pending")
        page.open(subject="orders")
        page.choose("#config-own", "FULL")
        said = page.message("good", "Compatibility level is FULL.")
        assert (f"Sent 2 times and applied exactly once, with the retry key {key}" in said) == (ending != "Forget it"), said
        assert not page.all(".pending") and registry.get("/config/orders") == {"compatibilityLevel": "FULL"}


def try_deletions(page, registry):
    """A deletion needs a confirmation."""
    page.open(subject="orders", version=2)
    page.button("Soft-delete version…").click()
    assert page.run("return document.activeElement.textContent") == "Cancel"
    page.shot("question")
    page.press(Keys.ENTER)
    page.until(lambda: not page.all("dialog"))
    page.button("Soft-delete version…").click()
    page.press(Keys.ESCAPE)
    page.until(lambda: not page.all("dialog"))
    assert registry.get("/subjects/orders/versions") == [1, 2, 3, 4]
    page.button("Soft-delete version…").click()
    page.button("Soft-delete", "dialog").click()
    assert page.message("good", "Soft-deleted version 2 of orders.")
    assert registry.get("/subjects/orders/versions") == [1, 3, 4]
    page.one("#deleted").click()
    page.until(lambda: page.texts(".versions li") == ["4", "3", "2", "1"])
    page.one(".versions li:nth-child(3) a").click()
    page.button("Delete version permanently…")
    page.shot("deleted")
    page.button("Delete version permanently…").click()
    page.button("Delete permanently", "dialog").click()
    assert page.message("good", "Deleted version 2 of orders permanently.")
    assert registry.get("/subjects/orders/versions?deleted=true") == [1, 3, 4]
    page.button("Soft-delete subject…").click()
    page.button("Soft-delete", "dialog").click()
    assert page.message("good", "Soft-deleted orders.")
    assert registry.ask("GET", "/subjects/orders/versions")[1]["error_code"] == 40401
    page.button("Delete subject permanently…").click()
    page.button("Delete permanently", "dialog").click()
    assert page.message("good", "Deleted orders permanently.")
    assert registry.ask("GET", "/subjects/orders/versions?deleted=true")[1]["error_code"] == 40401
    page.open(subject="orders")
    assert page.message("bad", "40401 Subject not found.")
    page.shot("not-found")
    print("versions and subjects are soft-deleted and deleted permanently, after a confirmation")


def try_keyboard(page, registry):
    """With the keyboard alone: a new subject, a second version, a fold, a comparison, a level, a mode, a deletion, an id."""
    page.open()
    page.press_at("at.textContent === 'New subject'", Keys.ENTER)
    page.until(lambda: page.texts("h1") == ["New subject"])
    page.press_at("at.id === 'new-subject'", "keys")
    page.tab_to("at.id === 'new-schema'")
    inner = {"type": "record", "name": "In", "fields": []}
    schema = {"type": "record", "name": "Keys", "fields": [{"name": "a", "type": inner}]}
    page.press(json.dumps(schema))
    page.press_at("at.textContent === 'Register'", Keys.SPACE)
    page.message("good", "Version 1 of keys has this schema")
    page.press_at("at.tagName === 'SUMMARY'", Keys.ENTER)
    assert page.run("return document.querySelector('details').open")
    page.tab_to("at.id === 'new-schema'")
    schema["fields"].append({"name": "b", "type": "int", "default": 0})
    page.press(json.dumps(schema))
    page.press_at("at.textContent === 'Check'", Keys.ENTER)
    page.message("good", "Compatible: the level FORWARD accepts it.")
    page.press_at("at.textContent === 'Register'", Keys.ENTER)
    page.message("good", "Version 2 of keys has this schema")
    page.press_at("at.textContent === 'Compare'", Keys.ENTER)
    page.until(lambda: page.all(".differs"))
    assert page.run("return document.activeElement.textContent") == "Compare"
    page.press_at("at.id === 'config-own'", Keys.END, back=True)
    page.press_at("at.textContent === 'Set'", Keys.ENTER)
    page.press_at("at.textContent === 'Set NONE'", Keys.ENTER)
    page.message("good", "Compatibility level is NONE.")
    assert registry.get("/config/keys") == {"compatibilityLevel": "NONE"}
    for key, mode in ((Keys.END, "READONLY"), (Keys.HOME, "READWRITE")):
        page.press_at("at.id === 'mode-own'", key)
        page.press_at("at.textContent === 'Set'", Keys.ENTER)
        page.message("good", f"Mode is {mode}.")
        assert registry.get("/mode/keys") == {"mode": mode}
    page.press_at("at.textContent === 'Soft-delete subject…'", Keys.ENTER)
    page.press_at("at.textContent === 'Soft-delete'", Keys.ENTER)
    page.message("good", "Soft-deleted keys.")
    assert registry.ask("GET", "/subjects/keys/versions")[0] == 404
    page.press_at("at.textContent === 'Schema by id'", Keys.ENTER, back=True)
    page.until(lambda: page.texts("h1") == ["Schema by id"])
    page.press_at("at.id === 'schema-id'", "2")
    page.press(Keys.ENTER)
    page.until(lambda: page.all(".uses"))
    page.press_at("at.textContent === 'JSON'", Keys.ENTER)
    page.until(lambda: page.all("pre"))
    page.press_at("at.textContent === 'Subjects'", Keys.ENTER, back=True)
    page.until(lambda: page.all("#search"))
    page.press_at("at.id === 'search'", "event-0001")
    page.until(lambda: len(page.all(".subjects tbody tr")) == 1)
    page.press_at("at.closest('.subjects')", Keys.ENTER)
    page.until(lambda: page.all(".version"))
    assert "event-0001" in page.text("h1")
    page.shot("keyboard")
    print("all of that with the keyboard alone, with the focus always visible")


def try_modes(page, registry):
    """A subject's mode and the global one are displayed and set. A write that READONLY rejects gets its code and message."""
    def check_forbidden(within):
        assert page.message("bad", "42205 Operation not permitted.", within)

    other = "a/b?c#d%e&f=g+h"
    page.open(subject=HOSTILE)
    page.choose("#mode-own", "READONLY")
    assert "Sent once" in page.message("good", "Mode is READONLY.")
    assert registry.get(path("mode", HOSTILE)) == {"mode": "READONLY"} and registry.get("/mode") == {"mode": "READWRITE"}
    page.choose("#config-own", "FULL")
    check_forbidden("form:has(#config-own)")
    assert page.text("#config-own option:checked") == "FORWARD (global)"
    page.one("#new-schema").send_keys(json.dumps(ORDERS[0]))
    page.button("Check").click()
    assert page.message("bad", "Not compatible.", ".new")
    page.button("Register").click()
    check_forbidden(".new")
    page.run("arguments[0].append(new Option('IMPORT'))", page.one("#mode-own"))
    page.choose("#mode-own", "IMPORT")
    assert page.message("bad", "42204 Invalid mode.", "form:has(#mode-own)")
    for what in "version", "subject":
        page.run("document.querySelector('main > .message')?.remove()")
        page.button(f"Soft-delete {what}…").click()
        page.button("Soft-delete", "dialog").click()
        check_forbidden("main >")
    page.shot("readonly")
    assert registry.get(path("subjects", HOSTILE, "versions")) == [1]
    page.open(subject=HOSTILE)
    assert page.run("return document.querySelector('#mode-own').value") == "READONLY"
    page.choose("#mode-own", "READWRITE")
    assert page.message("good", "Mode is READWRITE.")
    page.choose("#config-own", "BACKWARD")
    assert page.message("good", "Compatibility level is BACKWARD.")

    page.open()
    page.choose("#mode-all", "READONLY")
    page.button("Set READONLY", "dialog").click()
    assert page.message("good", "Global mode is READONLY.") and registry.get("/mode") == {"mode": "READONLY"}
    page.choose("#config-all", "FULL")
    check_forbidden("form:has(#config-all)")
    page.settle()
    shown = page.run("""return [...document.querySelectorAll('.subjects tbody tr')].slice(0, 2).map((row) =>
      [row.cells[0].textContent, row.cells[4].textContent, row.cells[4].firstChild.className])""")
    assert shown == [[HOSTILE, "READWRITE", "own"], [other, "READONLY", "faint"]], shown
    page.shot("modes")
    page.open(subject=other)
    assert page.text("#mode-own option:checked") == "READONLY (global)"
    page.choose("#config-own", "BACKWARD")
    check_forbidden("form:has(#config-own)")
    page.open(subject=HOSTILE)
    page.choose("#config-own", "FULL")
    assert page.message("good", "Compatibility level is FULL.")
    page.open(new="")
    page.one("#new-subject").send_keys("writable")
    page.one("#new-schema").send_keys('"int"')
    page.button("Register").click()
    check_forbidden(".new")
    assert registry.ask("PUT", "/mode", {"mode": "READWRITE"})[0] == 200
    page.button("Register").click()
    assert page.message("good", "Version 1 of writable has this schema")
    print("a subject's mode and the global one: displayed and set; READONLY rejects writes with its code, READWRITE accepts them again")


def check_empty_registry(page, registry):
    """A registry without subjects."""
    for name in registry.get("/subjects"):
        assert registry.ask("DELETE", path("subjects", name))[0] == 200
    page.open()
    assert "There are no subjects yet." in page.text(".empty")
    page.shot("empty")
    print("an empty registry")


def main():
    parser = argparse.ArgumentParser()
    for name in ("registry", "server", "page"):
        parser.add_argument(f"--{name}", type=int, required=True)
    for name in ("log", "shots"):
        parser.add_argument(f"--{name}", required=True)
    given = parser.parse_args()
    registry = Registry(given.registry)
    registry.fill()
    page = Page(given.page, given.log, given.shots)
    try:
        check_headers(page)
        check_subjects(page, registry)
        check_search(page, registry)
        check_fields(page, registry)
        check_json(page, registry)
        check_differences(page, registry)
        check_hostile_names(page, registry)
        try_new_versions(page, registry, given.server)
        try_rejections(page, registry)
        try_confirmations(page, registry)
        check_ids(page, registry)
        try_links(page, registry)
        try_lost_answers(page, registry, given.server)
        try_deletions(page, registry)
        try_keyboard(page, registry)
        try_modes(page, registry)
        check_empty_registry(page, registry)
        browser_errors = [entry for entry in page.driver.get_log("browser") if "Failed to load resource" not in entry["message"]]
        assert not browser_errors, browser_errors
        try:
            raise AssertionError(page.driver.switch_to.alert.text)
        except NoAlertPresentException:
            print("no text ran as a script, and the browser logged no error")
    except AssertionError:
        page.driver.save_screenshot(f"{given.shots}/failed.png")
        raise
    finally:
        page.driver.quit()


if __name__ == "__main__":
    main()
