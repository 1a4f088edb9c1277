"""The status file: the text format of Prometheus, version 0.0.4, with whole numbers alone."""
import re
from ..wire import check

COMMENT = re.compile(r"# (HELP|TYPE) ([a-z_]+) (\S.*)")
SAMPLE = re.compile(r"([a-z_]+)(?:\{(.*)\})? (\d+)")
LABEL = re.compile(r'([a-z_]+)="((?:[^"\\\n]|\\[\\"n])*)"(?:,|$)')
KINDS = ("counter", "gauge")

def labels_of(text):
    """The labels of a sample by name."""
    found = LABEL.findall(text or "")
    check(LABEL.sub("", text or "") == "", f"labels {text}")
    return frozenset(found)

def read(text):
    """Each sample's number by its name and labels; a fault where the text isn't of the format."""
    check(text.endswith("\n"), "the status ends within a line")
    counts, family, order = {}, None, []
    for line in text.splitlines():
        comment, sample = COMMENT.fullmatch(line), SAMPLE.fullmatch(line)
        check(comment or sample, f"a line of the status: {line}")
        name = comment[2] if comment else sample[1]
        if name != family: order.append(name)
        family = name
        check(not comment or comment[1] != "TYPE" or comment[3] in KINDS, f"a kind of the status: {line}")
        if not sample: continue
        key = name, labels_of(sample[2])
        check(key not in counts, f"twice in the status: {line}")
        counts[key] = int(sample[3])
    check(len(order) == len(set(order)), "a family of the status is in two places")
    return counts

def total(counts, name, **labels):
    """The sum of a family's samples with these labels: of all workers, where none is named."""
    return sum(count for (of, has), count in counts.items() if of == name and has >= set(labels.items()))
