"""Plots as SVG that stand in a page or alone, in colours that the page sets, for light and for dark.

They are Debian's python3-matplotlib's; each colour is drawn as a mark, for which a variable of the style is put.
"""
import io, re, time
from html import escape
from ..wire import Fault

try:
    import matplotlib
    matplotlib.use("svg")
    from matplotlib.figure import Figure
except ImportError:
    matplotlib = None

LAYERS = 7
LIGHT = "#0b4f9c", "#14806f", "#7d3c98", "#b34e00", "#7a6600", "#6b7078", "#b03060"
DARK = "#6fb1ff", "#4fd1b5", "#c9a3e0", "#ff9c4a", "#d9c34a", "#a9b0bb", "#ff86aa"
INKS = {"ink": ("#1b1e23", "#e8eaee"), "faint": ("#c9cdd4", "#3d434c"), "paper": ("#ffffff", "#14161a")}
MARKS = {f"c{at}": f"#fe00d{at}" for at in range(LAYERS)} | {each: f"#fe00e{at}" for at, each in enumerate(INKS)}
WIDTH, HEIGHT, POINTS = 6.2, 3.3, 10.5  # inches, and the size of text
MINUTE, HOUR, DAY = 60, 3_600, 86_400
TICKS = 1, 2, 5, 10, 30, MINUTE, 120, 300, 600, 1_800, HOUR, 7_200, 14_400, 43_200, DAY, 172_800, 604_800, 2_592_000
COLOURS = [MARKS[f"c{at}"] for at in range(LAYERS)]

def palette(which):
    """The variables of the style, for light (0) or dark (1)."""
    colours = {f"c{at}": pair[which] for at, pair in enumerate(zip(LIGHT, DARK))}
    colours |= {name: pair[which] for name, pair in INKS.items()}
    return " ".join(f"--{name}: {colour};" for name, colour in colours.items())

def style(root):
    """The style that sets the colours of what is below a root."""
    light, dark = (f"{root} {{ {palette(which)} }}" for which in (0, 1))
    return f"{light} @media (prefers-color-scheme: dark) {{ {dark} }} @media print {{ {light} }}"

def figure(height=HEIGHT):
    """A figure and its one pair of axes."""
    if matplotlib is None: raise Fault("plots need python3-matplotlib: apt-get install python3-matplotlib")
    ink, faint = MARKS["ink"], MARKS["faint"]
    inked = ("text.color", "axes.labelcolor", "axes.edgecolor", "xtick.color", "ytick.color")
    matplotlib.rcParams.update({
        "svg.fonttype": "none", "svg.hashsalt": "dnsreplay", "font.family": "sans-serif", "font.size": POINTS,
        "grid.color": faint, "axes.spines.top": False, "axes.spines.right": False, "hatch.color": ink,
        "legend.frameon": False, "legend.fontsize": POINTS, **dict.fromkeys(inked, ink),
    })  # fmt: skip
    made = Figure(figsize=(WIDTH, height), layout="constrained")
    axes = made.subplots()
    axes.grid(axis="y", linewidth=0.6)
    axes.set_axisbelow(True)
    return made, axes

def svg(made, name, title, text, alone=False):
    """A figure as SVG, with a title and a text for who can't see it."""
    out = io.StringIO()
    made.savefig(out, format="svg", transparent=True, metadata={"Date": None, "Creator": None})
    drawn = out.getvalue()
    drawn = drawn[drawn.index("<svg") :]
    drawn = re.sub(r"<metadata>.*?</metadata>", "", drawn, flags=re.S)
    drawn = re.sub(r'(id="|href="#|url\(#)', rf"\g<1>{name}-", drawn)
    drawn = re.sub(r' d="[^"]*"', shortened, drawn)
    for each, mark in MARKS.items(): drawn = drawn.replace(mark, f"var(--{each})")
    if alone: drawn = re.sub(r"([a-z-]+): var\(--(\w+)\)", fallen_back, drawn)
    drawn = re.sub(r"font: ([\d.]+)px [^;\"]*", r"font: \1px sans-serif", drawn)
    head, rest = drawn.split(">", 1)
    head = re.sub(r' (width|height)="[^"]*"', "", head)
    label = f' role="img" aria-labelledby="{name}-title {name}-text"'
    told = f'<title id="{name}-title">{escape(title)}</title><desc id="{name}-text">{escape(text)}</desc>'
    if alone: told += f"<style>{style('svg')} svg {{ background: var(--paper); }}</style>"
    return f"{head}{label}>{told}{rest}"

def fallen_back(colour):
    """A colour with the light one before it, for programs that know no variables."""
    name = colour[2]
    light = INKS[name][0] if name in INKS else LIGHT[int(name[1:])]
    return f"{colour[1]}: {light}; {colour[0]}"

def shortened(path):
    """A path with a decimal of each number."""
    return re.sub(r"\d+\.\d+", lambda each: f"{float(each[0]):.1f}", path[0])

def stacked(name, title, text, starts, step, layers, ylabel, alone=False):
    """Layers of counts over time, each with its name."""
    made, axes = figure(HEIGHT + 0.22 * ((len(layers) + 1) // 2))
    places = [start - starts[0] for start in starts] + [starts[-1] - starts[0] + step]
    base, how = [0] * len(starts), {"step": "post", "edgecolor": MARKS["paper"], "linewidth": 0.3}
    for colour, (label, counts) in zip(COLOURS, layers):
        top = [low + count for low, count in zip(base, counts)]
        axes.fill_between(places, [*base, base[-1]], [*top, top[-1]], label=label, facecolor=colour, **how)
        base = top
    axes.set_ylim(bottom=0)
    axes.set_ylabel(ylabel)
    times(axes, starts[0], places[-1])
    legend(axes)
    return svg(made, name, title, text, alone)

def lines(name, title, text, starts, step, counts, ylabel, limit=None):
    """One count over time, beside its limit where that isn't far."""
    made, axes = figure()
    places = [start - starts[0] for start in starts]
    how = {"drawstyle": "steps-post", "color": COLOURS[0], "linewidth": 1.8}
    axes.plot([*places, places[-1] + step], [*counts, counts[-1]], **how)
    is_near = limit and max(counts) * 4 > limit
    if is_near: axes.axhline(limit, color=COLOURS[3], linestyle="--", label=f"limit, {limit:,}")
    axes.set_ylim(bottom=0)
    axes.set_ylabel(ylabel)
    times(axes, starts[0], places[-1] + step)
    if axes.get_legend_handles_labels()[1]: legend(axes)
    return svg(made, name, title, text)

def legend(axes): axes.legend(loc="lower left", bbox_to_anchor=(-0.1, 1.02), ncol=2, borderaxespad=0)

def count(number, _=None): return f"{number:,.0f}" if number == round(number) else f"{number:,.1f}"

def times(axes, start, span):
    """Ticks of the clock along the axis."""
    span = max(span, 1)
    step = next((each for each in TICKS if span / each <= 5), span)
    form = "%Y-%m-%d" if step >= DAY else "%H:%M" if step >= MINUTE else "%H:%M:%S"
    ticks = [at for at in range(-start % step, span + 1, step)]
    axes.set_xticks(ticks, [time.strftime(form, time.gmtime(start + at)) for at in ticks])
    axes.set_xlim(0, span)
    axes.set_xlabel("UTC, " + time.strftime("%Y-%m-%d", time.gmtime(start)))
    axes.yaxis.set_major_formatter(count)

def bars(name, title, text, labels, layers, xlabel):
    """Horizontal bars in layers, one a label."""
    made, axes = figure(1.2 + 0.28 * len(labels))
    axes.grid(axis="y", visible=False)
    axes.grid(axis="x", linewidth=0.6)
    base = [0] * len(labels)
    for at, (label, counts) in enumerate(layers):
        axes.barh(range(len(labels)), counts, left=base, label=label, color=COLOURS[(0, 3)[at]], height=0.7)
        base = [low + count for low, count in zip(base, counts)]
    axes.set_yticks(range(len(labels)), labels)
    axes.invert_yaxis()
    axes.set_xlabel(xlabel)
    axes.xaxis.set_major_formatter(count)
    axes.xaxis.set_major_locator(matplotlib.ticker.MaxNLocator(5, integer=True))
    legend(axes)
    return svg(made, name, title, text)

def columns(name, title, text, labels, counts, xlabel, ylabel):
    """Columns, one a label."""
    made, axes = figure()
    axes.bar(range(len(labels)), counts, color=COLOURS[0], width=0.7)
    axes.set_xticks(range(len(labels)), labels)
    axes.set_xlabel(xlabel)
    axes.set_ylabel(ylabel)
    axes.yaxis.set_major_formatter(count)
    return svg(made, name, title, text)

SHAPES = "osD^vPX"  # of points, so that not colour alone tells lines apart

def curves(name, title, text, panels):
    """Panels one below the other, each of lines over sizes: a label of each axis, and points by the lines' names."""
    made, first = figure(HEIGHT * len(panels) + 0.4)
    first.remove()
    for axes, (xlabel, ylabel, named) in zip(made.subplots(len(panels), squeeze=False)[:, 0], panels):
        axes.grid(axis="y", linewidth=0.6)
        for at, (label, points) in enumerate(named.items()):
            axes.plot(*zip(*points), marker=SHAPES[at], color=COLOURS[at], label=label, linewidth=1.8, markersize=5)
        axes.set_xscale("log")
        axes.margins(0.04, 0.08)
        places = sorted({x for points in named.values() for x, _ in points})
        axes.set_xticks(places, [count(place) for place in places])
        axes.minorticks_off()
        axes.set_ylim(0, 1.08 * max(y for points in named.values() for _, y in points))
        axes.set_xlabel(xlabel)
        axes.set_ylabel(ylabel)
        axes.yaxis.set_major_formatter(count)
        legend(axes)
    return svg(made, name, title, text, alone=True)
