"""A zone, and what it answers: a part of the reference model."""
from .reference_messages import canonical
from .reference_model import CNAME, DNAME, DS, NO_DATA, NO_NAME, NS

class Zone:
    """An apex and its records: data by owner name and type (RFC 1034, section 4.2)."""
    def __init__(self, apex): self.apex, self.records = apex, {}

    def types(self, owner): return {rtype for (other, rtype) in self.records if other == owner}
    def is_cut(self, owner): return owner != self.apex and (owner, NS) in self.records

    def is_live(self, owner):
        """No cut or DNAME is above it: below those the zone says nothing (RFC 1034, section 4.3.2; RFC 6672, 2.4)."""
        above = [owner[count:] for count in range(1, len(owner) - len(self.apex) + 1)]
        return not any(self.is_cut(name) or (name, DNAME) in self.records for name in above)

    def live_owners(self):
        return sorted({owner for (owner, _) in self.records if self.is_live(owner)}, key=canonical)

    def with_ancestors(self, owners):
        return {owner[count:] for owner in owners for count in range(len(owner) - len(self.apex) + 1)}

    def existing(self):
        """Names at or above a live owner: empty non-terminals exist too (RFC 4592, section 2.2.2)."""
        return sorted(self.with_ancestors(self.live_owners()), key=canonical)

    def first_met(self, name, rtype):
        """The cut or the owner of a DNAME that a lookup meets first, from the apex down, or None."""
        for count in range(len(name) - len(self.apex), -1, -1):
            above = name[count:]
            if self.is_cut(above) and not (count == 0 and rtype == DS) or (above, DNAME) in self.records and count:
                return above
        return None

    def lookup(self, name, rtype):
        """What the zone answers: data, or `NO_DATA`, `NO_NAME`, or None for what no proof may answer.

        RFC 1034, section 4.3.2, with cuts and DNAMEs from the apex down, and RFC 4592, section 3.3, for wildcards.
        """
        if self.first_met(name, rtype) is not None: return None
        existing = set(self.existing())
        if name in existing: return self.at(name, rtype)
        encloser = next(name[count:] for count in range(1, len(name) + 1) if name[count:] in existing)
        source = (b"*",) + encloser
        if source not in existing: return NO_NAME
        answer = self.at(source, rtype)
        return None if (source, NS) in self.records or answer == NO_DATA and (source, DNAME) in self.records else answer

    def at(self, name, rtype):
        if (name, rtype) in self.records: return sorted(self.records[name, rtype])
        return None if (name, CNAME) in self.records else NO_DATA
