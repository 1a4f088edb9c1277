"""What the RFCs say of aliases and of DNAMEs, as the reference model has it."""
import unittest

from dnsreplay_tools.reference_messages import wire_form
from dnsreplay_tools.reference_model import ANSWER, CNAME, DNAME, Cache, Held
from dnsreplay_tools.reference_replies import RULES, by_dname, walk

A, NOW, LIFE = 1, 1_000_000_000, 3_600
# Query name, owner of the DNAME, its target, and the name that comes of it (RFC 6672, section 2.2, table 1)
SUBSTITUTIONS = """
com.             example.com.   example.net.   -
example.com.     example.com.   example.net.   -
a.example.com.   example.com.   example.net.   a.example.net.
a.b.example.com. example.com.   example.net.   a.b.example.net.
ab.example.com.  b.example.com. example.net.   -
foo.example.com. example.com.   example.net.   foo.example.net.
a.x.example.com. x.example.com. example.net.   a.example.net.
a.example.com.   example.com.   y.example.net. a.y.example.net.
cyc.example.com. example.com.   example.com.   cyc.example.com.
cyc.example.com. example.com.   c.example.com. cyc.c.example.com.
shortloop.x.x.   x.             .              shortloop.x.
shortloop.x.     x.             .              shortloop.
"""

def name(text): return tuple(text.encode().lower().rstrip(b".").split(b".")) if text != "." else ()

def cache_of(*sets):
    """A cache with these sets of the root zone: owner, type, items."""
    cache, expiry = Cache(), NOW + LIFE
    cache.insert([Held((), name(owner), rtype, LIFE, expiry, items, []).ranked() for owner, rtype, *items in sets], NOW)
    return cache

def dname(owner, target): return owner, DNAME, wire_form(name(target))

class Walks(unittest.TestCase):
    def test_substitutions(self):
        for asked, owner, target, wanted in map(str.split, SUBSTITUTIONS.strip().splitlines()):
            cache = cache_of(dname(owner, target))
            link = by_dname(cache, name(asked), A, NOW)
            self.assertEqual(link and link.target, None if wanted == "-" else name(wanted), asked)
            found = walk(cache, RULES["follow"], name(asked), DNAME, NOW)  # a DNAME that is asked for itself answers
            self.assertEqual(found is not None and not found.links, asked == owner)

    def test_too_long(self):
        """What would have more than 255 octets is told by YXDOMAIN, which is 6 (RFC 6672, section 2.2)."""
        cache = cache_of(dname("o.example", ".".join(["l" * 63] * 3 + ["l" * 56])))
        for asked, rcode in (("abcd.o.example", 0), ("abcde.o.example", 6)):
            self.assertEqual(walk(cache, RULES["redirect"], name(asked), CNAME, NOW).rcode(), rcode)

    def test_topmost(self):
        """A server goes down label by label, and the first DNAME that it meets leads on (RFC 6672, section 3.2)."""
        cache = cache_of(dname("b.example", "c.example"), dname("a.b.example", "d.example"))
        self.assertEqual(by_dname(cache, name("x.a.b.example"), A, NOW).target, name("x.a.c.example"))

    def test_alias(self):
        """USC-ISIC.ARPA, asked for an address and for its CNAME (RFC 1034, sections 6.2.7 and 6.2.8)."""
        alias = "USC-ISIC.ARPA", CNAME, wire_form(name("C.ISI.EDU"))
        cache = cache_of(alias, ("C.ISI.EDU", A, bytes([10, 0, 0, 52])))
        for rtype, links in ((A, 1), (CNAME, 0)):
            found = walk(cache, RULES["chase"], name("USC-ISIC.ARPA"), rtype, NOW)
            self.assertEqual((len(found.links), found.proof.kind), (links, ANSWER))
        self.assertIsNone(walk(cache, RULES["redirect"], name("USC-ISIC.ARPA"), A, NOW))

    def test_data_that_is_no_name(self):
        """An alias leads on by one record whose data is a name and no more."""
        target = wire_form(name("b.example"))
        cases = ([target], True), ([target + b"\0"], False), ([target[:-1]], False), ([target, target.upper()], False)
        for items, leads in cases:
            cache = cache_of(("a.example", CNAME, *items), ("b.example", A, bytes(4)))
            self.assertEqual(walk(cache, RULES["chase"], name("a.example"), A, NOW) is not None, leads)
