"""A report as JSON; docs/report.schema.json says what each figure is."""
import json
from collections import Counter
from .figures import TTLS
from .held import LIMIT
from .kinds import ANSWERED, MISSED, REFUSED, TOLD
from .sides import text_of
from .text import BY_NAME, unused

def of(report, top):
    figures, trial = report.figures, report.trial
    saved, total = figures.nx()
    return {
        "captures": [
            {"file": each.path.name, "packets": each.count, "broken": each.broken} for each in report.captures
        ],
        "command": report.command[0], "resolver": [text_of(end) for end in report.ends],
        "guess": report.guess.told() if report.guess else None, "first": figures.first, "last": figures.last,
        "queries": {
            "total": figures.queries, "udp": figures.carriers["UDP"], "tcp": figures.carriers["TCP"],
            "with_do": figures.wanting, "without_answer": figures.unanswered,
        },
        "answered": {"total": figures.saved(), "by": {kind: figures.answered[kind] for kind in ANSWERED}},
        "asked": {"total": figures.asked_upstream(), "why": {why: figures.missed[why] for why in MISSED}},
        "faulty": figures.told, "nxdomain": {"total": total, "answered": saved},
        "rcodes": [
            {"rcode": rcode, "queries": count, "answered": figures.saved_rcodes[rcode]}
            for rcode, count in sorted(figures.rcodes.items())
        ],
        "answers": {
            "total": figures.answers, "with_ad": figures.authentic, "with_signatures": figures.signed,
            "without_query": figures.stray, "spared": figures.spared, "stored": figures.stored,
            "refused": {text.partition(": ")[2]: figures.refused[code] for code, text in REFUSED.items()},
        },
        "zones": zones(figures, top), "over_time": over_time(figures), "held": held(figures),
        "ttls": [{"from": low, "below": high, "replies": figures.ttls[at]} for at, (low, high) in enumerate(TTLS)],
        "denied": {
            name: {"total": each.total, "names": dict(each.counts.most_common(top))}
            for name, each in (("own", figures.own), ("passed", figures.passed), ("changed", figures.changed))
        },
        "runs": {
            "count": trial.runs, "turns": trial.turns, "unsettled": trial.unsettled, "fed_anew": trial.fed,
            "not_fed_anew": report.held.left_out,
        }, "unused": unused(report),
    }  # fmt: skip

def zones(figures, top):
    """The zones with the most saved and those with the most missed, and all others in one."""
    every = figures.zones.items()
    named = {name for part in ("saved", "missed") for name, _ in most(every, part, top)}
    by_size = sorted(every, key=lambda each: -each[1].size())
    rows = [row(name, zone.saved, zone.missed) for name, zone in by_size if name in named]
    others = [zone for name, zone in every if name not in named]
    if others: rows.append(row(None, sum_of(each.saved for each in others), sum_of(each.missed for each in others)))
    return rows

def most(zones, part, top): return sorted(zones, key=lambda each: (-getattr(each[1], part).total(), each[0]))[:top]

def sum_of(counters):
    whole = Counter()
    for each in counters: whole.update(each)
    return whole

def row(name, saved, missed):
    """The name is null for all others; by its name alone where no answer told the zone."""
    return {
        "zone": name and name.removesuffix(BY_NAME), "by_name": bool(name and name.endswith(BY_NAME)),
        "answered": saved.total(), "asked": missed.total(), "by": dict(saved), "why": dict(missed),
    }  # fmt: skip

def over_time(figures):
    series, whats = figures.over_time, (*ANSWERED, *MISSED, TOLD)
    rows = [{"at": start, **{what: counts[what] for what in whats if counts[what]}} for start, counts in series.rows()]
    return {"step": series.step, "rows": rows}

def held(figures):
    series, last, rows = figures.held, 0, []
    for start, counts in series.rows():
        last = counts["held"] if counts else last
        rows.append({"at": start, "most": last})
    most = {"most": figures.most_held, "first_at": figures.most_held_at}
    return {"limit": LIMIT, **most, "step": series.step, "rows": rows}

def text(report, top): return json.dumps(of(report, top), indent=1, ensure_ascii=False) + "\n"
