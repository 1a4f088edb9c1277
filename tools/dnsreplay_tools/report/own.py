"""The names that resolvers answer before any cache, which `forward` passes on without being told (docs/FORWARD.md)."""
from ..wire import name
from .answers import ancestors, labels_of

PRIVATE = ["10", *(f"{each}.172" for each in range(16, 32)), "168.192"]  # RFC 6303, section 4.1
LOCAL = "0", "127", "254.169", "2.0.192", "100.51.198", "113.0.203", "255.255.255.255"  # section 4.2
LOCAL_6 = [".".join("0" * 32), ".".join("1" + "0" * 31), "d.f", *(f"{each}.e.f" for each in "89ab"), "8.b.d.0.1.0.0.2"]
TEXTS = ["localhost", "local", "home.arpa"]  # RFC 6761, RFC 6762, RFC 8375
TEXTS += [f"{each}.in-addr.arpa" for each in (*PRIVATE, *LOCAL)] + [f"{each}.ip6.arpa" for each in LOCAL_6]
OWN_NAMES = frozenset(name(*map(str.encode, text.split("."))) for text in TEXTS)

def own_name(asked, zone):
    """The name that is to be passed so that this isn't denied by that zone, and whether it is passed without a word.

    It is one label below the zone: all of it is the resolver's own."""
    above = list(ancestors(asked))
    passed = next((each for each in above if each in OWN_NAMES), None)
    if passed: return passed, True
    return above[max(0, len(above) - 2 - len(labels_of(zone)))], False
