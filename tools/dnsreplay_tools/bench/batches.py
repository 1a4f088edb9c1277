"""Looks at the memory of a cache in which very many batches are placed, one behind the other, over the same records.

Each batch has three records. They bring a zone's records again and again, each round a second later, so that each batch
changes what is held. The program that places them, tools/programs/many_batches, is no part of the gate: `rt` proves and
builds it in a temporary folder, beside a copy of the crates that it stands on, with what this checkout has kept of their
proofs. Where nothing is kept, all these crates are proved first, which takes an hour or more.
"""
import re, shutil, subprocess, tempfile
from pathlib import Path
from .. import run as runs
from ..wire import check
from .zones import CHAINS, MOMENT, Zone, answer

NAME, USES = "many_batches", "intake replay_meaning resolver thiserror"
SOURCES = runs.ROOT / "tools" / "programs" / NAME  # each named .txt, since the gate refuses sources of no listed crate
BUILT = SOURCES / "out" / NAME
PARTS = ("src", "specs", "proofs", "out/rlib")  # of a crate, and what is kept of its proof
A_BATCH, FIRST = 3, 100_000  # records of a batch, and batches before the first look
MOST_GROWTH = 1_000_000  # octets

def copy(folder):
    """Makes a repository of the program and the crates below it."""
    text = (runs.ROOT / "crates.txt").read_text(encoding="utf-8")
    listed = {line.split()[0].rstrip(":"): line for line in text.splitlines() if ":" in line}
    lines, names = {NAME: f"{NAME}: {USES}"}, USES.split()
    while names:
        name = names.pop()
        if name in listed and name not in lines:
            lines[name] = listed[name]
            names += listed[name].partition(":")[2].split()
            crate = runs.ROOT / "crates" / name
            for part in (each for each in PARTS if (crate / each).is_dir()):
                shutil.copytree(crate / part, folder / "crates" / name / part)
    for path in SOURCES.rglob("*.txt"):
        to = (folder / "crates" / NAME / path.relative_to(SOURCES)).with_suffix("")
        to.parent.mkdir(parents=True, exist_ok=True)
        shutil.copyfile(path, to)
    (folder / "crates.txt").write_text("\n".join(lines.values()) + "\n", encoding="utf-8")
    shutil.copyfile(runs.ROOT / "HANDLES", folder / "HANDLES")

def build():
    """Proves the program, and leaves it at its place."""
    with tempfile.TemporaryDirectory() as made:
        copy(Path(made))
        crate = Path(made) / "crates" / NAME
        done = subprocess.run(["rt", "run", "--", "0"], cwd=crate, stdin=subprocess.DEVNULL, check=False)
        check(done.returncode == 0, f"rt run ended with status {done.returncode}")
        BUILT.parent.mkdir(exist_ok=True)
        shutil.copy(crate / "out" / NAME, BUILT)

def batches(zone):
    """Frames of so many records each, which bring all that the zone has."""
    sets = zone.sets()
    for at in range(0, len(sets), A_BATCH):
        yield answer([sets[(at + each) % len(sets)] for each in range(A_BATCH)], MOMENT)

def resident(process):
    """The octets of a process in memory."""
    found = re.search(r"VmRSS:\s*(\d+) kB", Path(f"/proc/{process}/status").read_text(encoding="ascii"))
    check(found, f"process {process} ended before its memory was looked at")
    return int(found[1]) * 1024

def looks(octets, count):
    """At each halt of the program, how many batches are placed and records held, and its octets in memory."""
    with runs.given(octets) as file:
        child = subprocess.Popen([BUILT, str(count)], stdin=file, stdout=subprocess.PIPE, text=True)
        try:
            for line in child.stdout: yield *map(int, line.split()), resident(child.pid)
            runs.checked(NAME, child.wait())
        finally: child.kill()

def words(parser):
    runs.takes_numbers(parser, 64, held=1_000)
    runs.takes_numbers(parser, FIRST + 1, batches=10_000_000)
    parser.add_argument("--built", help="with the program that an earlier call has built", action="store_true")

def run(args):
    if not args.built: build()
    octets = b"".join(batches(Zone(CHAINS["nsec"], args.held)))
    sizes = []
    print("| batches | records held | resident kB |\n|---:|---:|---:|", flush=True)
    for count, held, size in looks(octets, args.batches):
        print(f"| {count:,} | {held:,} | {size / 1_000:,.0f} |", flush=True)
        check(held == args.held, f"{held:,} records are held, and not {args.held:,}")
        sizes.append(size)
    grown = sizes[-1] - sizes[0]
    check(grown <= MOST_GROWTH, f"{grown:,} octets more are held after the last batch than after {FIRST:,}")
