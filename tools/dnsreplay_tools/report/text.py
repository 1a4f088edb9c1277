"""A report on a terminal, in 40 lines at most."""
import time
from .held import LIMIT
from .kinds import ANSWERED, MISSED, REFUSED
from .sides import text_of

MOST_LINES = 40
WIDTH = 120
BY_NAME, NO_ZONE = " *", "no answer told the zone, so it is the last two labels of the name"
HOW = (
    "No answer has signatures, so nothing was stored. Capture where answers have them: between what asks with DO (a",
    "forwarder that validates, or `dnsreplay forward`) and a validating resolver: tcpdump -i any -s 0 -w FILE port 53",
)

NO_AD = "No answer has AD, so nothing was stored: the resolver doesn't validate, or it is asked with CD."

def hints(figures):
    """Why nothing could be stored of a capture."""
    if figures.answers and not figures.signed and not figures.spared: return HOW
    return (NO_AD,) if figures.answers and not figures.authentic else ()

def percent(part, whole): return f"{100 * part / whole:.1f} %" if whole else "-"
def moment(seconds): return time.strftime("%Y-%m-%d %H:%M:%S", time.gmtime(seconds))
def count_of(count, one, more): return f"{count:,} {one if count == 1 else more}"

def span(figures):
    start, end = moment(figures.first), moment(figures.last)
    same = start[:10] == end[:10]
    return f"{start} to {end[11:] if same else end} UTC"

def lines(report, top):
    """All lines; of zones and names as many as there is room for."""
    head = [*heading(report), *queries(report.figures), *held(report)]
    tail = [*own(report.figures), *notes(report)]
    room = (MOST_LINES - len(head) - len(tail)) // 2 - 1  # below each of two titles
    return [*head, *(zones(report.figures, min(top, room)) if room > 0 else ()), *tail][:MOST_LINES]

def heading(report):
    names = ", ".join(each.path.name for each in report.captures[:2])
    more = f" and {len(report.captures) - 2} more" if len(report.captures) > 2 else ""
    packets = sum(each.count for each in report.captures)
    yield clip(f"{names}{more}: {packets:,} packets, {span(report.figures)}")
    told = report.guess.told() if report.guess else "as told"
    yield clip(f"resolver {', '.join(map(text_of, report.ends))} ({told})")
    yield from hints(report.figures)

def line(name, count, whole, depth=0, more=""):
    return f"{'  ' * depth + name:<46}{count:>12,}  {percent(count, whole):>8}{more}"

def queries(figures):
    whole = figures.queries
    by = ", ".join(f"{name} {count:,}" for name, count in sorted(figures.carriers.items(), reverse=True))
    yield f"{'queries':<46}{whole:>12,}  {by}; {figures.wanting:,} with DO"
    yield line("answered from the cache", figures.saved(), whole, 1)
    for kind in ANSWERED:
        if figures.answered[kind]: yield line(kind, figures.answered[kind], whole, 2)
    yield line("asked upstream", figures.asked_upstream(), whole, 1)
    for why in MISSED:
        if figures.missed[why]: yield line(why, figures.missed[why], whole, 2)
    if figures.told: yield line("told that they are faulty", figures.told, whole, 1)
    saved, total = figures.nx()
    yield line("of all NXDOMAIN, answered from the cache", saved, total, 0, f" of {total:,}")

def held(report):
    figures = report.figures
    when = f", first at {moment(figures.most_held_at)}" if figures.most_held else ""
    yield f"held at most {figures.most_held:,} of {LIMIT:,} records ({percent(figures.most_held, LIMIT)}){when}"

def zones(figures, top):
    """Zones by what was saved, and by what was missed, with the first reasons."""
    for title, part in (("most saved", "saved"), ("most missed", "missed")):
        counts = {name: getattr(zone, part) for name, zone in figures.zones.items()}
        some = sorted((-each.total(), name) for name, each in counts.items() if each)
        if some: yield f"zones with {title}"
        for total, name in some[:top]:
            why = ", ".join(f"{what} {count:,}" for what, count in counts[name].most_common(3))
            yield clip(f"  {short(name, 34):<34}{-total:>10,}  {why}")

def own(figures):
    for each, what, count in (
        (figures.own, "denied, though the resolver has them, without AD; to be passed", True),
        (figures.passed, "the same, but passed by `forward` without being told", True),
        (figures.changed, "denied, though their zones had come to have them", False),
    ):  # fmt: skip
        names = ", ".join(f"{name} {number:,}" if count else name for name, number in each.counts.most_common(5))
        if each.total: yield clip(f"{what}: {each.total:,}: {names}")

def notes(report):
    figures, trial = report.figures, report.trial
    why = {REFUSED[code].partition(": ")[2]: count for code, count in sorted(figures.refused.items())}
    refused = ", ".join(f"{count:,} {rule}" for rule, count in why.items())
    parts = f"{figures.spared:,} spared", f"{figures.stored:,} stored", f"refused {refused or 'none'}"
    yield clip(f"answers {figures.answers:,}: {', '.join(parts)}")
    if trial.runs > 1: yield clip(f"{trial.runs:,} runs; what was held came over by {trial.fed:,} answers, fed anew")
    if trial.unsettled: yield f"of {trial.unsettled:,} answers it isn't settled whether they would be spared"
    if report.held.left_out: yield f"{report.held.left_out:,} answers were too many octets to be fed anew"
    for each in unused(report): yield clip(f"not used: {each}")
    if any(BY_NAME in name for name in figures.zones): yield f"{BY_NAME.strip()}: {NO_ZONE}"

def unused(report):
    """What isn't used of the captures, and how much."""
    counts = (
        (report.figures.unanswered, "query", "queries", "without an answer in the capture"),
        (report.figures.stray, "answer", "answers", "without a query in the capture (kept all the same)"),
        (report.elsewhere, "message", "messages", "of others than the resolver and its clients"),
        (sum(each.without_time for each in report.captures), "packet", "packets", "without a time"),
    )  # fmt: skip
    parts = [f"{count_of(count, one, more)} {what}" for count, one, more, what in counts if count]
    parts += [f"{count_of(count, 'packet', 'packets')}: {why}" for why, count in report.passed.most_common()]
    return parts + [f"what is behind, as {each.broken}" for each in report.captures if each.broken]

def short(name, most): return name if len(name) <= most else name[: most - 2] + ".."
def clip(text): return short(text, WIDTH)
