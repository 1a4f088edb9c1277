"""The table of a flood, a line each second, and what both came to."""
from collections import namedtuple
from .flood import NAME_ERROR, NO_DATA, RESOLVER, WILDCARD

# what columns have in common stands above them
GROUPS = f"{'':13}{'answered by the cache':>28}{'by the':>10}{'reached the':>12}{'milliseconds':>16}"
COLUMNS = "second", "asked", "name error", "no data", "wildcard", "resolver", "authority", "median", "99 %"
WIDTHS = 6, 7, 11, 8, 9, 10, 12, 8, 8

def line(cells): return "".join(str(each).rjust(width) for each, width in zip(cells, WIDTHS))

HEAD = f"{GROUPS}\n{line(COLUMNS)}"

# of a second: how many were asked, answered by the cache, and reached the authoritative server; the median of seconds
Row = namedtuple("Row", "asked cached reached median")

def part(numbers, share):
    """The number below which such a share lies; 0 where there is none."""
    return sorted(numbers)[min(int(share * len(numbers)), len(numbers) - 1)] if numbers else 0

def told(flood, authority):
    """Prints each second of a flood, and gives the rows."""
    rows, before = [], authority.asked()
    for number, second in enumerate(flood, 1):
        count = authority.asked() if number == flood.seconds else authority.count()
        reached, before = max(count - before, 0), max(count, before)
        median, late = (part(second.latencies, share) * 1_000 for share in (0.5, 0.99))
        kinds = [second.kinds[each] for each in (NAME_ERROR, NO_DATA, WILDCARD, RESOLVER)]
        cells = [number, second.asked, *kinds, reached, f"{median:.2f}", f"{late:.2f}"]
        print(line(cells), flush=True)
        rows.append(Row(second.asked, sum(kinds[:3]), reached, median))
    return rows

def summary(floods):
    """A line of each flood."""
    lines = []
    for title, rows in floods:
        asked, reached, cached = (sum(getattr(row, each) for row in rows) for each in ("asked", "reached", "cached"))
        lines.append(f"{title}: {asked:,} asked, {cached:,} answered by the cache, {reached:,} reached the authority")
    return "\n".join(lines)
