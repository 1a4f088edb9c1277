"""Clients that ask many questions at once, each over a socket of its own, and what they make of the replies."""
import contextlib, random, selectors, socket, time
from collections import namedtuple
from ..asking import SYNTHESIZED, query, read
from ..signed_zones import HOSTS, ORIGINS
from ..wire import check
from .lab import V4

LETTERS = "abcdefghijklmnopqrstuvwxyz0123456789"
HOWS = "do", "do ad", "ad", "", "plain"
OTHER_TYPES = "AAAA", "TXT", "MX"  # that the hosts don't have
PATIENCE = 8  # seconds, by far more than a reply may take
LATEST = 5.0  # seconds, by which a stub resolver has its reply

Question = namedtuple("Question", "name rtype how", defaults=("do",))
Came = namedtuple("Came", "reply seconds")  # a reply, and after how many seconds it came; or none

def text_of(question): return " ".join(filter(None, question))
def octets_of(question): return query(*question).to_wire()

def some_label(rng): return "".join(rng.choice(LETTERS) for _ in range(10))

def questions(rng, count):
    """Existing names, missing ones beside and below them, missing types, and names that a wildcard makes."""
    for at in range(count):
        origin = ORIGINS[at % len(ORIGINS)]
        host = f"{rng.choice(HOSTS).split()[0]}.{origin}"
        forms = (
            (host, "A"), (host, rng.choice(OTHER_TYPES)), (f"{some_label(rng)}.{origin}", "A"),
            (f"{some_label(rng)}.{host}", "A"), (f"{some_label(rng)}.w.{origin}", rng.choice(("TXT", "A"))),
        )  # fmt: skip
        yield Question(*rng.choice(forms), rng.choice(HOWS))

def missing(rng, count, origin="plain.", how="do"):
    return [Question(f"{some_label(rng)}.{origin}", "A", how) for _ in range(count)]

def ask_all(asked, port, address=V4, seconds=PATIENCE):
    """What comes to each of the questions, which are asked at once."""
    import dns.message
    family = socket.AF_INET6 if ":" in address else socket.AF_INET
    queries, came = [query(*each) for each in asked], [Came(None, None)] * len(asked)
    with contextlib.ExitStack() as stack:
        selector = stack.enter_context(selectors.DefaultSelector())
        start = time.monotonic()
        for at, each in enumerate(queries):
            one = stack.enter_context(socket.socket(family, socket.SOCK_DGRAM))
            one.connect((address, port))
            one.send(each.to_wire())
            selector.register(one, selectors.EVENT_READ, at)
        while selector.get_map() and (left := start + seconds - time.monotonic()) > 0:
            for key, _ in selector.select(left):
                took, message = time.monotonic() - start, dns.message.from_wire(key.fileobj.recv(65_535))
                check(queries[key.data].is_response(message), f"to {text_of(asked[key.data])} came {message}")
                came[key.data] = Came(read(message), took)
                selector.unregister(key.fileobj)
    return came

def ask(question, port, address=V4, seconds=PATIENCE): return ask_all([question], port, address, seconds)[0].reply

def datagram(port, octets, seconds=1):
    """What comes to a datagram; none where nothing comes in time."""
    with socket.socket(socket.AF_INET, socket.SOCK_DGRAM) as one, contextlib.suppress(TimeoutError):
        one.settimeout(seconds)
        one.sendto(octets, (V4, port))
        return one.recv(65_535)
    return None

def rcode_text(reply):
    import dns.rcode
    return dns.rcode.to_text(reply.rcode)

def is_synthesized(reply): return any(each.startswith(SYNTHESIZED) for each in reply.edns[3])

def unlike(got, wanted):
    """In what a reply isn't as the resolver's own: RCODE, AD, and records where it is neither synthesized nor cut."""
    if got is None or wanted is None: return [f"no reply from the {'resolver' if wanted is None else 'forwarder'}"]
    parts, flags = [], [set(each.flags.split()) for each in (got, wanted)]
    if got.rcode != wanted.rcode: parts.append(f"{rcode_text(got)} in place of {rcode_text(wanted)}")
    if ("AD" in flags[0]) != ("AD" in flags[1]): parts.append("AD" if "AD" in flags[0] else "no AD")
    is_compared = not parts and not is_synthesized(got) and "TC" not in flags[0] | flags[1]
    if is_compared and got.records != wanted.records:
        more, less = sorted(got.records - wanted.records), sorted(wanted.records - got.records)
        parts.append(f"records {more} in place of {less}")
    return parts

def differing(asked, got, wanted):
    """A text for each question whose reply isn't as the resolver's own."""
    every = [(question, unlike(*replies)) for question, *replies in zip(asked, got, wanted)]
    return [f"{text_of(question)}: {', '.join(parts)}" for question, parts in every if parts]

def none_of(faults, count):
    """No fault, or the first of them in words."""
    check(not faults, f"{len(faults)} of {count:,}: {' | '.join(faults[:3])}")

def windows(items, size): return [items[at : at + size] for at in range(0, len(items), size)]
def drawn(seed, what): return random.Random(f"{seed} {what}")
