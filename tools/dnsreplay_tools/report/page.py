"""A report as a page that stands alone: no script, no font, nothing from elsewhere."""
import time
from html import escape
from . import data, plots
from .kinds import ANSWERED, EXPIRED, MISSED, NAME_ERROR, NO_DATA, NOT_YET, TOLD, UNSIGNED, WITHOUT_DO
from .text import NO_ZONE, hints, percent, span

PAGE = """\
<!DOCTYPE html>
<html lang="en">
<head>
<meta charset="utf-8">
<meta name="viewport" content="width=device-width, initial-scale=1">
<meta name="color-scheme" content="light dark">
<title>{title}</title>
<style>
{colours}
{style}
</style>
</head>
<body>
<main>
<h1>{title}</h1>
{body}
</main>
</body>
</html>
"""
STYLE = """\
* { box-sizing: border-box; }
html { background: var(--paper); color: var(--ink); font: 16px/1.5 system-ui, sans-serif; }
body { margin: 0; }
main { max-width: 60rem; margin: 0 auto; padding: 1rem; overflow-wrap: anywhere; }
h1 { font-size: 1.5rem; line-height: 1.2; }
h2 { font-size: 1.15rem; margin: 2rem 0 .5rem; }
p { max-width: 42rem; margin: .5rem 0; }
.figures { display: flex; flex-wrap: wrap; gap: .5rem 2rem; margin: 1rem 0; padding: 0; list-style: none; }
.figures strong { display: block; font-size: 1.6rem; line-height: 1.2; }
figure { margin: .5rem 0; max-width: 44rem; }
figure svg { display: block; width: 100%; height: auto; }
table { border-collapse: collapse; width: 100%; font-size: .875rem; font-variant-numeric: tabular-nums; }
caption { text-align: left; font-weight: 600; padding: .25rem 0; }
th, td { padding: .2rem .4rem; border-bottom: 1px solid var(--faint); text-align: left; vertical-align: top; }
td.n, th.n { text-align: right; overflow-wrap: normal; }
summary { cursor: pointer; padding: .25rem 0; }
.wide { overflow-x: auto; max-height: 30rem; }
.wide th { overflow-wrap: normal; }
@media (max-width: 40rem) { table { font-size: .75rem; } th, td { padding: .15rem .2rem; } }
@media print {
  html { font-size: 11px; } .wide { overflow: visible; max-height: none; } figure, tr { break-inside: avoid; }
  details::details-content { display: block; content-visibility: visible; height: auto; }
}
"""
REST, SIGNATURES, OTHERS = "set, wildcard, other name", "asked: no signatures", "asked: other reasons; faulty"
LAYERS = {
    NAME_ERROR: [NAME_ERROR], NO_DATA: [NO_DATA], REST: ANSWERED[2:], "asked: " + NOT_YET: [NOT_YET],
    "asked: " + EXPIRED: [EXPIRED], SIGNATURES: [UNSIGNED, WITHOUT_DO],
}  # fmt: skip
LAYERS[OTHERS] = [each for each in (*MISSED, TOLD) if each not in sum(map(list, LAYERS.values()), [])]
SHORT = 30
OVER_TIME = "Queries a minute, by what became of them"

def table(caption, heads, rows, numbers=(), wide=False):
    """A table, whose columns with these places are numbers."""
    def cell(at, each, tag):
        kind = ' class="n"' if at in numbers else ""
        scope = {"th": ' scope="col"', "td": ""}[tag]
        text = f"{each:,}" if isinstance(each, int) else escape(str(each))
        return f"<{tag}{kind}{scope}>{text}</{tag}>"
    head = "".join(cell(at, each, "th") for at, each in enumerate(heads))
    body = "\n".join("<tr>" + "".join(cell(at, each, "td") for at, each in enumerate(row)) + "</tr>" for row in rows)
    made = f"<table><caption>{escape(caption)}</caption><thead><tr>{head}</tr></thead><tbody>\n{body}\n</tbody></table>"
    return f'<div class="wide" tabindex="0" role="region" aria-label="{escape(caption)}">{made}</div>' if wide else made

def behind(what, inner): return f"<details><summary>{escape(what)}</summary>\n{inner}\n</details>"
def plotted(drawn, caption, inner): return f"<figure>{drawn}</figure>\n{behind(caption, inner)}"
def clock(seconds): return time.strftime("%Y-%m-%d %H:%M:%S", time.gmtime(seconds))
def section(title, *parts): return "\n".join([f"<h2>{escape(title)}</h2>", *parts])
def paragraph(text): return f"<p>{escape(text)}</p>"

def page(report, top):
    """The whole page."""
    told = data.of(report, top)
    parts = [heading(report, told), *(part(told) for part in (queries, over_time, zones, ttls, held, denied, limits))]
    words = {"title": "What aggressive caching would have saved", "body": "\n".join(parts)}
    return PAGE.format(colours=plots.style(":root"), style=STYLE, **words)

def heading(report, told):
    total, saved = told["queries"]["total"], told["answered"]["total"]
    nx = told["nxdomain"]
    figures = (
        (f"{total:,}", "queries"), (f"{saved:,}", f"answered from the cache, {percent(saved, total)}"),
        (percent(nx["answered"], nx["total"]), f"of {nx['total']:,} NXDOMAIN answered from the cache"),
    )  # fmt: skip
    items = "".join(f"<li><strong>{escape(number)}</strong> {escape(what)}</li>" for number, what in figures)
    files = ", ".join(each["file"] for each in told["captures"])
    how = f"the resolver is {', '.join(told['resolver'])} ({told['guess'] or 'as told'})"
    parts = [f'<ul class="figures">{items}</ul>', paragraph(f"{files}: {span(report.figures)}; {how}.")]
    if hints(report.figures): parts.append(paragraph(" ".join(hints(report.figures))))
    return "\n".join(parts)

def queries(told):
    total = told["queries"]["total"]
    rows = [("answered from the cache", told["answered"]["total"])]
    rows += [(f"· {kind}", count) for kind, count in told["answered"]["by"].items() if count]
    rows += [("asked upstream", told["asked"]["total"])]
    rows += [(f"· {why}", count) for why, count in told["asked"]["why"].items() if count]
    rows += [("told that they are faulty", told["faulty"])] if told["faulty"] else []
    rows = [(what, count, percent(count, total)) for what, count in rows]
    made = table("Queries by what became of them", ("what became of them", "queries", "share"), rows, (1, 2))
    return section("What became of the queries", made)

def layers_of(told):
    """Queries in each step, by what became of them."""
    rows = told["over_time"]["rows"]
    some = {name: [sum(row.get(each, 0) for each in parts) for row in rows] for name, parts in LAYERS.items()}
    return {name: counts for name, counts in some.items() if any(counts)}

def drawn_over_time(told, alone=False):
    """The plot of queries over time, which can stand alone."""
    step, some, scale = told["over_time"]["step"], layers_of(told), 60 / told["over_time"]["step"]
    starts = [row["at"] for row in told["over_time"]["rows"]]
    text = "; ".join(f"{name}: {sum(each):,}" for name, each in some.items())
    layers = [(name, [count * scale for count in counts]) for name, counts in some.items()]
    return plots.stacked("time", OVER_TIME, text, starts, step, layers, "queries a minute", alone)

def over_time(told):
    step, some = told["over_time"]["step"], layers_of(told)
    lines = [(clock(row["at"]), *counts) for row, *counts in zip(told["over_time"]["rows"], *some.values())]
    caption = f"Queries in each {step:,} seconds from that moment (UTC)"
    inner = table(caption, ("from", *some), lines, range(1, 9), wide=True)
    return section(OVER_TIME, plotted(drawn_over_time(told), "The counts as a table", inner))

def zones(told):
    rows = told["zones"]
    labels = [short(name_of(row)) for row in rows]
    parts = ("answered from the cache", "answered"), ("asked upstream", "asked")
    layers = [(label, [row[part] for row in rows]) for label, part in parts]
    text = "; ".join(f"{name_of(row)}: {row['answered']:,} answered, {row['asked']:,} asked" for row in rows)
    drawn = plots.bars("zones", "Queries by zone", text, labels, layers, "queries")
    lines = [(name_of(row), row["answered"], row["asked"], why(row["by"]), why(row["why"])) for row in rows]
    heads = "zone", "answered", "asked", "answered by", "asked since"
    inner = table("Zones with the most saved and the most missed", heads, lines, (1, 2), wide=True)
    notes = [paragraph(f"*: {NO_ZONE}.")] if any(row["by_name"] for row in rows) else []
    return section("Zones", plotted(drawn, "The zones as a table", inner), *notes)

def name_of(row): return "all others" if row["zone"] is None else row["zone"] + " *" * row["by_name"]
def short(name): return name if len(name) <= SHORT else ".." + name[len(name) - SHORT + 2 :]

def why(counts):
    most_first = sorted(counts.items(), key=lambda each: -each[1])
    return ", ".join(f"{what} {count:,}" for what, count in most_first)

def ttls(told):
    rows = told["ttls"]
    if not any(row["replies"] for row in rows): return ""
    labels = [f"{row['from']:,}" for row in rows]
    lines = [(f"{row['from']:,} to {row['below'] - 1:,}", row["replies"]) for row in rows]
    text = "; ".join(f"{span} seconds: {count:,}" for span, count in lines)
    title = "TTLs that remained"
    counts = [row["replies"] for row in rows]
    drawn = plots.columns("ttls", title, text, labels, counts, "seconds, from", "replies from the cache")
    inner = table("Replies from the cache by their TTL in seconds", ("TTL", "replies"), lines, (1,))
    return section(title, plotted(drawn, "The TTLs as a table", inner))

def held(told):
    each = told["held"]
    rows, title, limit = each["rows"], "Held records", each["limit"]
    starts, counts = [row["at"] for row in rows], [row["most"] for row in rows]
    most = f"At most {each['most']:,} of {limit:,} records ({percent(each['most'], limit)}) were held at a time."
    drawn = plots.lines("held", title, most, starts, each["step"], counts, "records", limit)
    lines = [(clock(row["at"]), row["most"]) for row in rows]
    caption = f"The most records held at a time in each {each['step']:,} seconds from that moment (UTC)"
    inner = table(caption, ("from", "records"), lines, (1,), wide=True)
    return section(title, paragraph(most), plotted(drawn, "The records as a table", inner))

DENIED = (
    ("own", "To be passed", "though the resolver has an answer, without AD: names of its own, for `forward` --pass."),
    ("passed", "Passed without being told", "of names that `forward` passes on by itself."),
    ("changed", "Changed since", "though their zones had come to have an answer since."),
)  # fmt: skip

def denied(told):
    parts = []
    for which, title, text in DENIED:
        each = told["denied"][which]
        if not each["total"]: continue
        parts.append(paragraph(f"{each['total']:,} queries would have been denied {text}"))
        parts.append(table(title, ("name", "queries"), each["names"].items(), (1,)))
    return section("Names that were denied", *parts) if parts else ""

def limits(told):
    answers, runs = told["answers"], told["runs"]
    refused = ", ".join(f"{count:,} {why}" for why, count in answers["refused"].items() if count) or "none"
    parts = [
        f"{answers['total']:,} answers, {answers['with_ad']:,} with AD: {answers['spared']:,} spared, as the cache "
        f"answers their query, so that nothing of them is stored; {answers['stored']:,} stored; refused {refused}.",
    ]  # fmt: skip
    if runs["count"] > 1:
        left = f"; {runs['not_fed_anew']:,} were too many octets" if runs["not_fed_anew"] else ""
        parts.append(f"{runs['count']:,} runs; what was held came over by {runs['fed_anew']:,} answers{left}.")
    if runs["unsettled"]: parts.append(f"Of {runs['unsettled']:,} answers it isn't settled whether they were spared.")
    if told["unused"]: parts.append("Not used: " + "; ".join(told["unused"]) + ".")
    return section("What was read", *map(paragraph, parts))
