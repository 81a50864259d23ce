"""Serve on another port of 127.0.0.1. If avroreg doesn't respond there, the old port is put back."""

import re
from pathlib import Path

from . import job, marking, nginx_cache, ports, settings
from .files import write_text
from .output import DONE, ERROR, NO, Stop


def add(parser) -> None:
    parser.add_argument("port", metavar="N", type=int)


def run(context) -> int:
    place, port = context.place, context.options.port
    before = place.settings.port
    if not 1 <= port <= 65535:
        raise Stop(NO, f"{port} is no port")
    if port == before:
        raise Stop(NO, f"{place.name} is on port {port} already")
    if not ports.is_free(port):
        raise Stop(NO, f"{ports.holder(port)} listens on port {port}")
    files = upstreams(place, before)
    context.agree([("port", f"{before} -> {port}"), ("nginx", ", ".join(map(str, files)) or "no upstream names the old port"), ("offline", "some seconds")])
    opened = job.new_job(place, "port", context.person, {"before": before, "port": port, "was_running": place.process() is not None})
    made = steps(context, opened)
    try:
        job.advance(place, opened, made, context.output)
    except Stop as failure:
        if place.process() is None and opened.facts["was_running"]:
            job.take_back(place, opened, made, context.output)
            raise Stop(ERROR, f"the old port is back: {failure.message}") from failure
        raise
    return DONE


def upstreams(place, port: int) -> list[Path]:
    """nginx's files with a server at this port of 127.0.0.1."""
    pattern = upstream(port)
    return [file for file in sorted((place.root / "etc/nginx/conf.d").glob("*.conf")) if pattern.search(nginx_cache.text_of(file))]


def upstream(port: int) -> re.Pattern:
    return re.compile(rf"(?m)^(\s*server\s+127\.0\.0\.1:){port}(?=[\s;])")


def change_upstreams(place, old: int, new: int) -> str:
    """Sets the port in nginx's files and reloads nginx, or says what a person has to do."""
    files = upstreams(place, old)
    before = {file: nginx_cache.text_of(file) for file in files}
    for file, text in before.items():
        write_text(file, upstream(old).sub(rf"\g<1>{new}", text))
    if not files:
        return "nginx: no upstream names the old port"
    if nginx_cache.nginx("-t") and nginx_cache.nginx("-s", "reload"):
        return f"nginx asks port {new}"
    return f"nginx: {', '.join(map(str, files))} names port {new} now, but `nginx -t` fails, or nginx doesn't run"


def steps(context, opened: job.Job) -> list[job.Step]:
    place, old, new = context.place, opened.facts["before"], opened.facts["port"]

    def write(port: int) -> None:
        place.hands(marking.allow, database=place.database, job=opened.id)
        settings.change(place.settings_file, {"PORT": str(port)})

    def write_new() -> str:
        place.stop()  # at the old port
        write(new)
        return f"{place.settings_file} has port {new}"

    def restart() -> str:
        if opened.facts["was_running"]:
            place.start()
        return f"avroreg is up: {place.url}" if opened.facts["was_running"] else "avroreg isn't up, as before"

    def put_back() -> None:
        place.stop()
        write(old)
        change_upstreams(place, new, old)
        restart()

    return [
        job.Step("settings", write_new, lambda: place.settings.port == new, undo=put_back, ignores_hangup=True),
        job.Step("restart", restart, lambda: place.process() is not None or not opened.facts["was_running"], ignores_hangup=True),
        job.Step("nginx", lambda: change_upstreams(place, old, new), lambda: not upstreams(place, old), ignores_hangup=True),
    ]
