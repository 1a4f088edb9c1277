"""Validating resolvers by one trust anchor, on a port each; none denies from its own cache but `aggressive` ones."""
import re, time
from ..signed_zones import ORIGINS, RSA

ZONES = ".", *ORIGINS, RSA
LOGGED = "    log-queries: yes"
YES = {False: "no", True: "yes"}
LOG = 0.05  # seconds, in which a line of the log comes

UNBOUND = """\
server:
    interface: 127.0.0.1 port: {port} access-control: 127.0.0.0/8 allow_snoop username: "" chroot: ""
    directory: "{folder}" pidfile: "{folder}/unbound.pid" trust-anchor: "{anchor}" val-log-level: 2
    use-syslog: no module-config: "validator iterator" do-not-query-localhost: no do-ip6: no
    aggressive-nsec: {aggressive} prefetch: no qname-minimisation: no so-rcvbuf: 1m
{more}
remote-control: control-enable: no
{zones}
"""

STUB = 'stub-zone: name: "{zone}" stub-addr: 127.0.0.1@{authority}\n'

HARDENED = "\n".join(f"    harden-{each}: yes" for each in (
    "glue", "dnssec-stripped", "below-nxdomain", "referral-path", "algo-downgrade", "large-queries", "short-bufsize",
))  # fmt: skip

NAMED = """\
options {{
    directory "{folder}"; pid-file "{folder}/named.pid"; session-keyfile none; managed-keys-directory "{folder}";
    listen-on port {port} {{ 127.0.0.1; }}; listen-on-v6 {{ none; }}; allow-query {{ any; }}; recursion yes;
    forward only; forwarders {{ 127.0.0.1 port {authority}; }};
    dnssec-validation yes; synth-from-dnssec {aggressive}; qname-minimization off;
}};
controls {{}};
trust-anchors {{ . static-ds {tag} {algorithm} {digest_type} "{digest}"; }};
"""

KRESD = """\
net.listen('127.0.0.1', {port}, {{ kind = 'dns' }})
net.ipv6 = false
for _, name in ipairs({{
	'ta_signal_query', 'ta_sentinel', 'priming', 'detect_time_skew', 'detect_time_jump', 'ta_update',
}}) do
	pcall(modules.unload, name)
end
modules = {{ 'policy' }}
option('ALLOW_LOCAL', true)
option('NO_MINIMIZE', true)
cache.open(64 * MB, 'lmdb://{folder}/cache')
trust_anchors.add([[{anchor}]])
policy.add(policy.all(policy.FORWARD({{ '127.0.0.1@{authority}' }})))
"""

RECURSOR = """\
local-address=127.0.0.1
local-port={port}
socket-dir={folder}
config-dir={folder}
lua-config-file={folder}/anchor.lua
forward-zones={zones}
dont-query=
hint-file=no
dnssec=validate
aggressive-nsec-cache-size={aggressive}
qname-minimization=no
threads=1
daemon=no
"""

def place(servers, name):
    folder = servers.folder / name
    folder.mkdir()
    return folder

def unbound(servers, name="unbound", more="", further=(), zones=None, is_up=None, aggressive=False):
    """It asks the authoritative server, or what `zones` say; it is up where it validates the root's, or by `is_up`."""
    lab, folder, port = servers.lab, place(servers, name), servers.lab.port()
    stubs = "".join(STUB.format(zone=each, authority=lab.authority) for each in (*ZONES, *further))
    fields = {"port": port, "folder": folder, "anchor": lab.anchor, "more": more, "zones": zones or stubs}
    text = UNBOUND.format(aggressive=YES[aggressive], **fields)
    (folder / "conf").write_text(text)
    process = servers.start(name, "unbound", "-d", "-c", folder / "conf")
    return up(servers, name, process, port, is_up)

def askings(servers):
    """How many queries an unbound that logs them has had."""
    time.sleep(LOG)
    return sum(bool(re.search(r"info: 127\.0\.0\.1 ", line)) for line in servers.lines("unbound"))

def in_front(servers, port):
    """An unbound that validates what the forwarder at a port says."""
    zones = f'forward-zone: name: "." forward-addr: 127.0.0.1@{port}'
    return unbound(servers, "front", more=HARDENED, zones=zones)

def named(servers, aggressive=False):
    lab, folder, port = servers.lab, place(servers, "named"), servers.lab.port()
    tag, algorithm, digest_type, digest = lab.anchor.split("DS", 1)[1].split(maxsplit=3)
    fields = {"tag": tag, "algorithm": algorithm, "digest_type": digest_type, "digest": "".join(digest.split())}
    fields["aggressive"] = YES[aggressive]
    (folder / "conf").write_text(NAMED.format(folder=folder, port=port, authority=lab.authority, **fields))
    return up(servers, "named", servers.start("named", "named", "-g", "-n", "1", "-c", folder / "conf"), port)

def kresd(servers, aggressive=False):
    lab, folder, port = servers.lab, place(servers, "kresd"), servers.lab.port()
    fields = {"folder": folder, "port": port, "authority": lab.authority, "anchor": lab.anchor}
    (folder / "conf").write_text(KRESD.format(**fields))  # it knows no word for it
    return up(servers, "kresd", servers.start("kresd", "kresd", "-n", "-c", folder / "conf", folder), port)

def recursor(servers, aggressive=False):
    lab, folder, port = servers.lab, place(servers, "recursor"), servers.lab.port()
    anchor = lab.anchor.split("DS", 1)[1].strip()
    (folder / "anchor.lua").write_text(f'clearTA(".")\naddTA(".", "{anchor}")\n')
    zones = ",".join(f"{each}=127.0.0.1:{lab.authority}" for each in ZONES)
    fields = {"folder": folder, "port": port, "zones": zones, "aggressive": 100_000 * aggressive}
    (folder / "recursor.conf").write_text(RECURSOR.format(**fields))
    return up(servers, "recursor", servers.start("recursor", "pdns_recursor", f"--config-dir={folder}"), port)

def up(servers, name, process, port, is_up=None):
    servers.up(name, process, lambda: (is_up or servers.validates)(port))
    return port

RESOLVERS = {"unbound": unbound, "Knot Resolver": kresd, "BIND": named, "PowerDNS Recursor": recursor}
