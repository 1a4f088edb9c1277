"""Both floods in one plot."""
import os

SIZE, COLOURS = (8, 3.6), ("#c0392b", "#1f6fb2")
NAMES = "the resolver alone", "with dnsreplay before it"

def draw(path, rate, floods):
    """Writes the picture beside its place and renames it, so that it is whole or not there."""
    import matplotlib
    matplotlib.use("svg")
    matplotlib.rcParams.update({"svg.fonttype": "none", "svg.hashsalt": "dnsreplay", "font.family": "sans-serif"})
    from matplotlib import pyplot
    figure, axes = pyplot.subplots(figsize=SIZE, layout="constrained")
    axes.axhline(rate, color="#999999", linestyle=":", label=f"asked: {rate:,} random names a second")
    for (_, rows), name, colour in zip(floods, NAMES, COLOURS):
        seconds, reached = range(1, len(rows) + 1), [row.reached for row in rows]
        axes.plot(seconds, reached, color=colour, linewidth=2, label=f"{name}: {sum(reached):,} in all")
    axes.set(xlabel="seconds", ylabel="queries that reached\nthe authoritative server, a second", ylim=(0, None))
    axes.set_xlim(1, max(len(rows) for _, rows in floods))
    axes.grid(alpha=0.3)
    axes.legend(loc="center right")
    new = path.with_name(f".{path.name}.new")
    try:
        figure.savefig(new, format="svg", metadata={"Date": None})
        os.replace(new, path)
    finally:
        new.unlink(missing_ok=True)
        pyplot.close(figure)
