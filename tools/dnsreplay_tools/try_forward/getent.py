"""The C library's stub resolver, by `getent ahosts` and a resolv.conf, where port 53 is the forwarder's."""
import re, subprocess
from ..wire import check
from . import resolvers
from .lab import ADDRESSES, V4, V6

MANY = {each for at in range(1, ADDRESSES + 1) for each in (f"198.51.100.{at}", f"2001:db8::{at:x}")}
SETTINGS = "", "options edns0", "options edns0 trust-ad", "options single-request"
# each name with its addresses; none for a name that isn't, or has none
HOSTS = {
    "n000004.plain": {"10.0.0.4"},
    "both.plain": {"192.0.2.12", "2001:db8::12"},
    "both.hashed": {"192.0.2.12", "2001:db8::12"},
    "alias.plain": {"10.0.0.1"},
    "n000005.open": {"10.0.0.5"},
    "n000006.rsa": {"10.0.0.6"},
    "many.plain": MANY,
    "many.rsa": MANY,
    "nobody.plain": set(),
    "nobody.rsa": set(),
    "nobody.hashed": set(),
    "a.w.plain": set(),
}
TWICE = 2  # asked of the resolver, and then of the cache
ABSENT = 2  # the status of getent for what isn't found

def run(lab, tally):
    with lab.servers("getent", network=True) as servers:
        servers.up("knot", servers.knot(lab.authority), lambda: True)
        resolver = resolvers.unbound(servers)
        servers.forward(resolver, port=53)
        settings = servers.folder / "resolv.conf"
        settings.write_text("")
        servers.done("mount", "--bind", settings, "/etc/resolv.conf")
        for address in (V4, V6):
            for options in SETTINGS:
                settings.write_text(f"nameserver {address}\n{options}\n")
                with tally.check(f"getent by a stub resolver at {address} {options}".rstrip()):
                    for name, wanted in [*HOSTS.items()] * TWICE: look_up(servers, name, wanted)

def look_up(servers, name, wanted):
    command = [*servers.within, "getent", "-s", "dns", "ahosts", name]
    said = subprocess.run(command, capture_output=True, text=True, check=False, timeout=30)
    got = set(re.findall(r"^(\S+)", said.stdout, re.M))
    is_right = (said.returncode, got) == (0 if wanted else ABSENT, wanted)
    check(is_right, f"{name}: status {said.returncode}, {got or 'nothing'}")
