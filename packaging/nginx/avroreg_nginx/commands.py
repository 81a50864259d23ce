"""What each subcommand does. A command gets the options and the settings, and changes the settings; main writes them."""
import subprocess
import time

from . import configuration, machine, passwords
from .faults import Refused


class Context:
    """The options, the settings and the users' hashes. `messages` are printed after the files were replaced."""

    def __init__(self, options, settings, hashes):
        self.options, self.settings, self.hashes = options, settings, hashes
        self.cache_key = configuration.cache_key_of(machine.read(machine.SERVED))
        self.messages, self.more_files = [], {}

    def give_password(self, user):
        password = passwords.new_password(getattr(self.options, "password_stdin", False))
        self.hashes[user] = passwords.hash_of(password)
        shown = "as given" if getattr(self.options, "password_stdin", False) else password
        self.messages.append(f"ok    user {user}, password {shown}" + ("" if shown == "as given" else " (it isn't shown again)"))


def on(context):
    """Lets other machines in: TLS, users, and a port that isn't loopback, all at once."""
    options, settings = context.options, context.settings
    settings.names = [name.lower() for name in options.name] or settings.names
    settings.certificate, settings.key = options.cert or settings.certificate, options.key or settings.key
    settings.port = options.port or settings.port
    if not settings.certificate or not settings.key:
        raise Refused("other machines need a certificate: --cert FILE --key FILE")
    if not settings.users:
        settings.users["admin"] = {"role": "admin", "prefix": ""}
        context.give_password("admin")
    context.more_files = machine.more_connections()
    if context.more_files:
        context.messages.append(f"ok    {machine.NGINX} has {machine.CONNECTIONS} connections for each worker")
    context.messages.append(f"ok    https://{settings.names[0] if settings.names else ''}:{settings.port} and http://127.0.0.1:{settings.local_port}")


def off(context):
    """Keeps other machines out. The users stay."""
    context.settings.certificate = context.settings.key = ""
    context.messages.append(f"ok    only http://127.0.0.1:{context.settings.local_port}")


def renew(context):
    """nginx reads the certificate again."""
    context.messages.append("ok    nginx has read the certificate again")


def set_values(context):
    options, settings = context.options, context.settings
    for name in "registry", "registry_port", "local_port", "rate":
        if (value := getattr(options, name)) is not None:
            setattr(settings, name, value)
    for name in "gateway", "page":
        if (value := getattr(options, name)) is not None:
            setattr(settings, name, value == "on")
    if options.origin:
        settings.origins = [origin for origin in options.origin if origin != "none"]
    context.messages.append("ok    done")


def forget_cache(context):
    """After a restore or with a new registry, an id may have another schema."""
    context.cache_key = str(int(time.time()))
    context.messages.append(f"ok    the cache begins anew, with the key {context.cache_key}")


def user_add(context):
    options, settings = context.options, context.settings
    if options.user in settings.users:
        raise Refused(f"there is a user {options.user}; see `avroreg-nginx user role` and `user password`")
    settings.users[options.user] = {"role": options.role, "prefix": options.prefix}
    settings.check()
    context.give_password(options.user)


def known_user(context):
    if context.options.user not in context.settings.users:
        raise Refused(f"there is no user {context.options.user}")
    return context.options.user


def user_password(context):
    context.give_password(known_user(context))


def user_role(context):
    user = known_user(context)
    context.settings.users[user] = {"role": context.options.role, "prefix": context.options.prefix}
    context.messages.append(f"ok    user {user}, role {context.options.role} {context.options.prefix}".rstrip())


def user_remove(context):
    user = known_user(context)
    del context.settings.users[user]
    context.hashes.pop(user, None)
    if not context.settings.users:
        context.messages.append("warn  there are no users now: everybody on this machine is an admin")
    context.messages.append(f"ok    user {user} is removed")


def apply(context):
    """Writes the configuration again, after an upgrade of the template or of njs."""


def is_certificate_near_its_end(certificate):
    """Whether it ends within 21 days."""
    return subprocess.run(["openssl", "x509", "-checkend", str(21 * 86400), "-noout", "-in", certificate], capture_output=True).returncode != 0


def user_list(settings):
    return [f"{user}  {access['role']} {access['prefix']}".rstrip() for user, access in sorted(settings.users.items())]


def show(settings):
    """Lines about the settings."""
    is_served = machine.SERVED.exists() and machine.is_running()
    yield f"nginx     {'serves' if is_served else 'does not serve'} the registry at 127.0.0.1:{settings.registry_port}"
    yield f"local     http://127.0.0.1:{settings.local_port}"
    if settings.certificate:
        yield from (f"others    https://{name}:{settings.port}" for name in settings.names)
        ending = ", which ends within 21 days" if is_certificate_near_its_end(settings.certificate) else ""
        yield f"tls       {settings.certificate}{ending}"
    else:
        yield "others    no: run `avroreg-nginx on --name HOST --cert FILE --key FILE`"
    yield f"users     {', '.join(user_list(settings)) or 'none: everybody on this machine is an admin'}"
    for mark, part_is_on in configuration.parts_of(settings, machine.NJS.exists()).items():
        if mark in ("page", "gateway"):
            why = " (install libnginx-mod-http-js)" if mark == "gateway" and settings.gateway and not part_is_on else ""
            yield f"{mark:<9} {'on' if part_is_on else 'off'}{why}"
