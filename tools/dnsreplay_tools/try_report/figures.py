"""Random captures: each figure of a report beside what the reference model counts, and many runs beside one."""
import random
from ..report import text
from ..wire import check
from . import counted, drawn, written
from .lab import reported

BIG_END = {"order": ">"}
FORMATS = ("pcap", {}), ("pcap", {**BIG_END, "nano": True}), ("pcapng", {}), ("pcapng", BIG_END), ("zipped", {})
LINKS = written.ETHERNET, written.COOKED, written.COOKED_2, written.RAW, written.LOOPBACK
COMMANDS = "replay", "follow"
FAULTS = 0, 0, 0.2
RESOLVER = "192.0.2.53", "2001:db8::53"
FEW = 60  # frames of a run

def capture(lab, seed, faults, count, **how):
    """A random capture in a file of a random kind, and the exchanges that it is of."""
    rng = random.Random(f"{lab.args.seed} report {seed}")
    some = list(drawn.exchanges(rng, count, faults, **how))
    file = written.File(rng.choice(LINKS))
    drawn.write(rng, file, some)
    form, words = rng.choice(FORMATS)
    path = lab.folder / "random"
    path.write_bytes(getattr(file, form)(**words))
    return path, some

def by_model(lab, tally):
    """Of captures with faulty answers the sets that count for why something was missed may be skipped by intake."""
    with tally.check(f"the model counts the same of {lab.args.captures:,} random captures") as tell:
        total = 0
        for seed in range(lab.args.captures):
            faults, command = FAULTS[seed % 3], COMMANDS[seed % 2]
            path, some = capture(lab, seed, faults, 150, chains=2)
            report = reported(lab, [path], RESOLVER, follow=command == "follow")
            total += report.figures.queries
            look_at_lines(list(text.lines(report, 10)))
            counts = counted.Counts(drawn.moments(some), some, command)
            compare(f"capture {seed}", of_report(report, faults), of_model(counts, faults))
        tell(f"{total:,} queries")

def many_runs(lab, tally):
    """Of zones with one chain each, as the order of two is told by answers that aren't fed anew."""
    with tally.check(f"many runs of the program tell of {lab.args.captures:,} captures what one does") as tell:
        runs = fed = 0
        for seed in range(lab.args.captures):
            path, _ = capture(lab, f"runs {seed}", 0, 300, chains=1)
            one, many = (reported(lab, [path], RESOLVER, follow=seed % 2 > 0, **how) for how in ({}, {"most": FEW}))
            compare(f"capture {seed}", of_report(many, 0), of_report(one, 0))
            runs, fed = runs + many.trial.runs, fed + many.trial.fed
        tell(f"{runs:,} runs, {fed:,} answers fed anew")

def guessed(lab, tally):
    with tally.check("the resolver's address is guessed, and told"):
        path, _ = capture(lab, "guess", 0, 300)
        report = reported(lab, [path], ())
        check(report.guess and report.figures.queries, "no guess")

def look_at_lines(lines):
    is_fitting = len(lines) <= text.MOST_LINES and max(map(len, lines)) <= text.WIDTH
    check(is_fitting, f"{len(lines)} lines of {max(map(len, lines))} columns")

def of_report(report, faults):
    figures = report.figures
    check(figures.add_up(), "the sums don't add up to the queries and the answers")
    told = {
        "kinds": +figures.answered, "faulty": figures.told, "missed": figures.missed.total(),
        "stored": figures.stored, "spared": figures.spared,
        "refused": +figures.refused, "RCODEs": +figures.rcodes, "saved RCODEs": +figures.saved_rcodes,
        "unanswered": figures.unanswered, "stray": figures.stray, "carriers": +figures.carriers, "TTLs": +figures.ttls,
        "own": figures.own.total + figures.passed.total, "changed": figures.changed.total,
        "zones": {name: zone.saved.total() for name, zone in figures.zones.items() if zone.saved},
    }  # fmt: skip
    return told if faults else {**told, "why": +figures.missed, "held": figures.most_held}

def of_model(counts, faults):
    told = {
        "kinds": counts.kinds, "faulty": counts.faulty, "missed": counts.why.total(),
        "stored": counts.stored, "spared": counts.spared, "refused": +counts.refused, "RCODEs": +counts.rcodes,
        "saved RCODEs": +counts.saved_rcodes, "unanswered": counts.unanswered, "stray": counts.stray,
        "carriers": +counts.carriers, "TTLs": +counts.ttls, "own": counts.own, "changed": counts.changed,
        "zones": dict(counts.zones),
    }  # fmt: skip
    return told if faults else {**told, "why": +counts.why, "held": counts.most_held}

def compare(what, got, wanted):
    for name, count in wanted.items(): check(got[name] == count, f"{what}: {name}: {got[name]}, by the model {count}")
