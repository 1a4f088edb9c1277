"""Says in words what the line of `dnsreplay audit` means, and shows the frame and the record that it tells as text.

    dnsreplay audit < FILE | dnsreplay-tools audit-explain FILE

FILE is what `audit-input` has made. The frame of a finding, and the records by which its reply is proved, are found by
the reference model of `differential`; where it finds another thing than the line says, that is told with status 1, and
what is no line of an audit or no file for one with status 2. It needs Debian's python3-dnspython.
"""
import re, sys
from pathlib import Path
from .frames import in_columns, show_frame
from .reference_audits import Audit, text_of, why_untrue
from .reference_messages import Malformed
from .wire import IN, NSEC3, REPLY, Fault, Frame, Unreadable, check

try:
    import dns.rdata
except ImportError:
    dns = None

CLAUSES = {
    1: "there isn't one output frame for each input frame, of the same worker, which is one of 32",
    2: "the versions of stored answers aren't 1 to their number, each once",
    3: "an output frame isn't what its input frame gets at its version",
    4: "a worker's version falls, or doesn't rise where it stores",
}
OUTCOMES = 3
LINE = re.compile(r"(yes \d+|no unfit [1-4]|no record \d+ \d|no clash \d+)\n?")
COLUMNS = (24, 32, 40)  # of class, type and data

def show_records(owner, rtype, items):
    for item in items:
        try:
            data = dns.rdata.from_wire(IN, rtype, item, 0, len(item)).to_text(chunksize=0)
        except (dns.exception.DNSException, ValueError):
            data = f"\\# {len(item)} {item.hex()}"  # as RFC 3597, section 5, has it
        print("  " + in_columns(text_of(owner), zip(COLUMNS, ("IN", dns.rdatatype.to_text(rtype), data))))

def show_frames(audit, at):
    """The frame of both sides, as far as they have it."""
    print()
    for side, entries in (("input", audit.inputs), ("output", audit.outputs)):
        if at < len(entries):
            print(f"Frame {at} of the {side}, from 0 on:")
            show_frame(at, Frame(*entries[at]), side == "input")

def explain_yes(audit, replies):
    count = sum(each.kind == REPLY for each in audit.outputs)
    check(count == replies, f"the output has {count} replies")
    print("The output fits the input, and the zone is as all records say that prove a reply, so the zone itself gives")
    print(f"the answer of each. Replies: {replies:,}.")

def explain_unfit(audit, clause):
    found = audit.unfit()
    told = f"that {CLAUSES[found[0]]}" if found else "nothing"
    check(found and found[0] == clause, f"the reference model finds {told}")
    print(f"The output doesn't fit the input: {CLAUSES[clause]}.")
    show_frames(audit, found[1])
    if clause == OUTCOMES:
        kind, version, body = audit.wanted
        print("What the frame should be:")
        show_frame(found[1], Frame(kind, audit.outputs[found[1]].worker, version, body), False)

def explain_record(audit, at, place):
    walk = walk_at(audit, at)
    used = walk.proof.used()
    check(place < len(used), f"the reference model has no record {place} in that proof")
    held, why = used[place], why_untrue(audit.zone, used[place])
    check(why is not None, "the reference model finds the record so in the zone")
    print(f"The output fits the input. The reply of frame {at} is proved by a record that isn't so in the zone:")
    print(f"{why}\n\nThe record, of the zone {text_of(held.zone)}")
    show_records(held.owner, held.rtype, held.items)
    for name in names_of(audit.zone, held):
        own = sorted(key for key in audit.zone.records if key[0] == name)
        print(f"\nWhat the zone has at {text_of(name)}" + ("" if own else " is nothing"))
        for owner, rtype in own: show_records(owner, rtype, sorted(audit.zone.records[owner, rtype]))
    show_frames(audit, at)

def names_of(zone, held):
    """The names of the zone that a record speaks of: its owner, or those of which it has the hash."""
    return [held.owner] if held.rtype != NSEC3 else zone.names_by_hash(held)

def explain_clash(audit, at):
    check(audit.has_clash(walk_at(audit, at)), "the reference model finds no such name")
    print(f"The output fits the input. The reply of frame {at} is proved by hashes, and a name of the zone has that of")
    print("another that the proof turns on, so that it can't tell the two apart.")
    show_frames(audit, at)

def walk_at(audit, at):
    check(at < len(audit.outputs) <= len(audit.inputs), f"there is no frame {at}")
    walk = audit.walk_at(at)
    check(walk is not None, f"the reference model has no reply in frame {at}")
    return walk

def words(parser):
    parser.set_defaults(unreadable=2)
    parser.add_argument("file", metavar="FILE", type=Path)

def run(args):
    if dns is None: raise Fault("it needs python3-dnspython")
    line = sys.stdin.read()
    if not line: raise Unreadable("no line came: the status of the audit tells why (docs/FRAMES.md)")
    if not LINE.fullmatch(line): raise Unreadable(f"{line!r} is no line of an audit")
    try:
        audit = Audit(args.file.read_bytes())
    except Malformed as why:
        raise Unreadable(f"{args.file} isn't what an audit reads") from why
    what, *numbers = re.findall(r"yes|unfit|record|clash|\d+", line)
    how = {"yes": explain_yes, "unfit": explain_unfit, "record": explain_record, "clash": explain_clash}
    how[what](audit, *map(int, numbers))
