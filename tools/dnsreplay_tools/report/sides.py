"""Which end of a message is the resolver's: as told, or the one that answers most with RA."""
import ipaddress, itertools
from collections import Counter
from ..wire import Fault, check

LOOKED_AT = 50_000  # messages from which it is guessed
RD, RA = 1, 0x80

def text_of(end):
    """An end as address and port."""
    address = ipaddress.ip_address(end[0])
    return f"{f'[{address}]' if address.version == 6 else address}:{end[1]}"

def end_of(text, port):
    """The end that `ADDRESS`, `ADDRESS:PORT` or `[ADDRESS]:PORT` names."""
    try:
        return ipaddress.ip_address(text.strip("[]")).packed, port
    except ValueError:
        address, _, number = text.rpartition(":")
    try:
        check(number.isdecimal() and 0 < int(number) < 1 << 16, "a port")
        return ipaddress.ip_address(address.strip("[]")).packed, int(number)
    except (ValueError, Fault) as why:
        raise Fault(f"{text} is no address, and none with a port") from why

class Guess:
    """The resolver's end, and the messages from which it was guessed."""
    def __init__(self, messages):
        self.seen, self.what = list(itertools.islice(messages, LOOKED_AT)), "sent {} of the first {} answers with RA"
        found = Counter(each.source for each in self.seen if each.octets[2] & 0x80 and each.octets[3] & RA)
        if not found:  # so queries alone tell it
            self.what = "got {} of the first {} queries with RD, as there are no answers with RA"
            queries = (each for each in self.seen if not each.octets[2] & 0x80)
            found = Counter(each.target for each in queries if each.octets[2] & RD)
        check(found, "the capture has no DNS message between clients and a resolver at that port")
        (self.end, self.count), *others = found.most_common()
        self.total, self.others = found.total(), others

    def told(self):
        more = f"; of others, as {text_of(self.others[0][0])}, nothing is used" if self.others else ""
        return f"guessed: it {self.what.format(f'{self.count:,}', f'{self.total:,}')}{more}"
