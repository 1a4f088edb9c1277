"""Compares runs over random frames with a reference model, written from the rules and none of the program's code.

Each scenario, of which there are so many of each kind, is one run of each command by one worker, and its frames are
drawn from the seed, its kind and its number. Of `zones` and half of `walks` each reply is also compared with what the
zones themselves answer, link by link. Of `replay` alone are `full`, which fills the cache (one such run stands for a
hundred scenarios, and takes half a minute), and `workers`, run with 2 workers and with 32, whose output has to be a
legal history: the calls in order of version are what one worker does. Of `audit` each scenario is a zone and a run over
it, audited as it is and with something changed in its zone, its frames or its octets.

Nothing differed: status 0, and a line that says what was compared. At the first difference: status 1, the scenario's
input in the folder where it runs, as differential-SEED-KIND-NUMBER.in, and on standard error what differs. Status 2
for words that aren't those above, and for a program that can't be run or whose output isn't frames.
"""
import collections, random, re
from pathlib import Path
from . import run as runs
from .fits import in_order, look_at_frames
from .random_audits import sources
from .random_scenarios import KINDS, OF_REPLAY
from .reference_audits import audit
from .reference_messages import read_query
from .reference_model import ANSWER, CNAME, DNAME, HEAD, NO_DATA, NO_NAME, REPLY
from .reference_replies import RULES, Model
from .wire import Fault, Frame, frames

MANY = 100  # scenarios of other kinds to one of a full cache
MOST_SECONDS = 1_800
NUMBERS_OF_WORKERS = 2, 32
AUDIT = "audit"
COMPARED = *RULES, AUDIT
NO_SOURCE = 4  # the status of what an audit can't read
FOUND = re.compile(r"yes|no unfit \d|no [a-z]+")

def spelled(inputs):
    return b"".join(HEAD.pack(kind, worker, now, len(octets)) + octets for kind, worker, now, octets in inputs)

def compare(number, wanted, got):
    """Of an output frame: kind, version and body."""
    if wanted != got:
        parts = [HEAD.pack(kind, 0, version, len(body)).hex() + body.hex() for kind, version, body in (wanted, got)]
        raise Fault(f"frame {number} differs: wanted {parts[0]}, got {parts[1]}")

def lowered(items): return {data.lower() for data in items}

def look_up(number, zones, message, walk):
    """A reply over true zones says what the zones answer, with the letters of names in data left aside."""
    _, query = read_query(message)
    zone_of = {zone.apex: zone for zone in zones}
    for link in walk.links:
        zone, is_alias = zone_of[link.set.zone], link.set.rtype == CNAME
        says = zone.lookup(link.name, CNAME) if is_alias else zone.records.get((link.set.owner, DNAME))
        is_met = is_alias or zone.first_met(link.name, query.rtype) == link.set.owner
        if lowered(says or ()) != lowered(link.set.items) or not is_met:
            raise Fault(f"frame {number} and the model go on from {link.name}, where no zone does: {message.hex()}")
    if walk.proof is None: return
    proof = walk.proof
    says = zone_of[(proof.answer or proof.soa).zone].lookup(walk.name, query.rtype)
    told = lowered(proof.answer.items) if proof.kind == ANSWER else proof.kind
    if told != (says if says in (NO_DATA, NO_NAME, None) else lowered(says)):
        raise Fault(f"frame {number} and the model have {proof.kind} where the zone has {says}: {message.hex()}")

def compared(program, command, inputs, most, zones):
    """Gives the frames of a run to the model, those of several workers in order of version; the number of replies."""
    command_line = [program, *(runs.of_replay(most) if command == "replay" else [command])]
    outputs = list(frames(runs.ran(command_line, spelled(inputs), MOST_SECONDS)[0], "output "))
    look_at_frames(inputs, outputs)
    model = Model(RULES[command])
    for at in in_order(outputs) if most > 1 else range(len(inputs)):
        kind, _, version, body = outputs[at]
        _, _, now, message = inputs[at]
        compare(at + 1, model.frame(inputs[at].kind, now, message), (kind, version, body))
        if kind == REPLY and zones: look_up(at + 1, zones, message, model.walk)
    return sum(each.kind == REPLY for each in outputs)

def one_scenario(args, command, kind, number):
    """Runs a scenario, and gives the numbers of its frames and replies; keeps its input where something is wrong."""
    rng = random.Random(f"{args.seed} {kind} {number}")
    made, zones = KINDS[kind](rng)
    counts = [0, 0]
    for most in NUMBERS_OF_WORKERS if kind == "workers" else (1,):
        inputs = [Frame(each, rng.randrange(most), now, octets) for each, now, octets in made]
        try:
            replies = compared(args.program, command, inputs, most, zones)
        except Fault as why:
            raise kept(f"{args.seed}-{kind}-{number}", spelled(inputs), f"{command} with {most} workers", why) from why
        counts = [counts[0] + len(inputs), counts[1] + replies]
    return counts

def kept(name, octets, what, why):
    """The fault of a run, that tells where its input is kept."""
    path = Path(f"differential-{name}.in")
    path.write_bytes(octets)
    return type(why)(f"{what}, input in {path}: {why}")

def scenarios(args, command):
    for kind in args.kinds:
        if kind in OF_REPLAY and command != "replay": continue
        count = -(-args.scenarios // MANY) if kind == "full" else args.scenarios
        total, replies = map(sum, zip(*(one_scenario(args, command, kind, number) for number in range(count))))
        yield f"{kind} {count:,} scenarios, {total:,} frames, {replies:,} replies"

def compared_audit(program, octets):
    """What both find, in few words."""
    line = audit(octets)
    wanted = (NO_SOURCE, "") if line is None else (0, line + "\n")
    done = runs.ended([program, AUDIT], octets, MOST_SECONDS)
    got = done.returncode, done.stdout.decode(errors="replace")
    if got != wanted: raise Fault(f"wanted {wanted}, got {got}")
    return "no source" if line is None else FOUND.match(line)[0]

def one_audit(args, number):
    """Audits a run and its changes; of each audit, how many frames went into the run, and what is found."""
    for count, octets in sources(random.Random(f"{args.seed} {AUDIT} {number}")):
        try:
            yield count, compared_audit(args.program, octets)
        except Fault as why:
            raise kept(f"{args.seed}-{AUDIT}-{number}", octets, AUDIT, why) from why

def audits(args):
    told = [each for number in range(args.scenarios) for each in one_audit(args, number)]
    found = sorted(collections.Counter(what for _, what in told).items())
    yield f"{len(told):,} audits of {sum(count for count, _ in told):,} frames"
    yield ", ".join(f"{count:,} {what}" for what, count in found)

def words(parser):
    parser.set_defaults(unreadable=2)
    runs.takes_program(parser)
    parser.add_argument("--seed", type=runs.number(0), default=1, metavar="S")
    runs.takes_numbers(parser, 1, scenarios=100)
    parser.add_argument("--kinds", nargs="+", choices=KINDS, default=KINDS, metavar="KIND", help=", ".join(KINDS))
    text = ", ".join(COMPARED)
    parser.add_argument("--commands", nargs="+", choices=COMPARED, default=COMPARED, metavar="COMMAND", help=text)

def run(args):
    for command in args.commands:
        told = "; ".join(audits(args) if command == AUDIT else scenarios(args, command))
        print(f"differential: {command}: nothing differed: {told}", flush=True)
