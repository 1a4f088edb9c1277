"""Names that the resolver alone knows, after a signed root has denied their neighbours."""
from ..wire import check
from . import resolvers
from .clients import Question, ask, ask_all, differing, is_synthesized, none_of, rcode_text
from .lab import PRIVATE

LOCAL = """\
    local-zone: "corp." static
    local-data: "host.corp. A 192.0.2.53"
    local-data: "host.corp. AAAA 2001:db8::53"
    local-zone: "home." static
    local-data: "nas.home. A 192.0.2.54"
    local-zone: "home.arpa." static
    local-data: "nas.home.arpa. A 192.0.2.55"
    local-zone: "local." static
    local-data: "printer.local. A 192.0.2.56"
    local-zone: "secret.plain." static
    local-data: "secret.plain. A 192.0.2.57"
    local-data: "deep.secret.plain. A 192.0.2.58"
    local-zone: "168.192.in-addr.arpa." static
    local-data: "7.1.168.192.in-addr.arpa. PTR nas.home.arpa."
    domain-insecure: "private."
"""
PASSED = "corp", "home", "private", "secret.plain"
NAMES = """\
host.corp. A
host.corp. AAAA
host.corp. MX
HOST.Corp. A
nobody.corp. A
corp. A
nas.home. A
nas.home.arpa. A
nobody.home.arpa. A
printer.local. A
localhost. A
localhost. AAAA
1.0.0.127.in-addr.arpa. PTR
7.1.168.192.in-addr.arpa. PTR
8.1.168.192.in-addr.arpa. PTR
1.0.0.10.in-addr.arpa. PTR
secret.plain. A
deep.secret.plain. A
nobody.secret.plain. A
h1.private. A
nobody.private. A
toprivate.plain. CNAME
toprivate.plain. A
toprivate.hashed. CNAME
toprivate.hashed. A
"""
NEIGHBOURS = "cora.", "homa.", "local-a.", "arpz.", "privat.", "secres.plain."
BESIDE = "corb.", "homb.", "local-b.", "secreu.plain."  # in the same gaps
HOWS = "", "do", "ad", "plain"
ROUNDS = 2

def run(lab, tally):
    with lab.servers("private") as servers:
        resolver = resolvers.unbound(servers, more=LOCAL, further=[PRIVATE])
        forward = servers.forward(resolver, passes=PASSED)
        for at, when in enumerate(("before their neighbours are denied", "after that")):
            if at: deny(tally, forward, "with --pass")
            for how in HOWS:
                with tally.check(f"private names {when}, {how or 'EDNS alone'}"): try_names(forward, resolver, how)
        bare = servers.forward(resolver, name="bare")
        deny(tally, bare, "without --pass")
        with tally.check("without --pass a name of the resolver's own is denied, so the above tells something"):
            reply = ask(Question("host.corp.", "A"), bare.port)
            check(reply and rcode_text(reply) == "NXDOMAIN" and is_synthesized(reply), f"{reply}")

def deny(tally, forward, what):
    """Has the neighbours denied, and sees that names beside them are denied from the cache."""
    ask_all([Question(name, "A") for name in NEIGHBOURS], forward.port)
    with tally.check(f"the zones above deny names beside the private ones, {what}"):
        for name in BESIDE:
            reply = ask(Question(name, "A"), forward.port)
            check(reply and is_synthesized(reply), f"{name}: {reply}")

def try_names(forward, resolver, how):
    asked = [Question(*each.split(), how) for each in NAMES.splitlines()] * ROUNDS
    got, own = ([ask(each, port) for each in asked] for port in (forward.port, resolver))
    none_of(differing(asked, got, own), len(asked))
    odd = [each.name for each, reply in zip(asked, got) if is_synthesized(reply) and "toprivate" not in each.name]
    check(not odd, f"from the cache: {odd}")
