"""Measures the memory that a replay holds beside its input and its output, by how many answers it stores.

A zone is held, and then each answer brings one of its denial records once more, with a later expiry, for the next worker. A
figure is the peak of resident memory less the octets of input and output; the output of a worker grows by doubling, so up
to as much again as the output is room that isn't used yet.
"""
import subprocess
from .. import run as runs
from .zones import CHAINS, LATER, Zone, answer

def words(parser):
    runs.takes_program(parser)
    runs.takes_numbers(parser, 1, workers=4, held=1_000, answers=250_000)

def answers(zone, count):
    """Answers of one record, at moments that never fall, within the life of what is held."""
    return [answer([zone.turn(number, zone.denials)], LATER + number * 5_000 // count) for number in range(count)]

def high_water(child):
    """The most octets of resident memory that a process has had, while it is there."""
    try:
        with open(f"/proc/{child.pid}/status") as file:
            return max(int(line.split()[1]) * 1024 for line in file if line.startswith("VmHWM"))
    except (OSError, ValueError):
        return 0

def peak(path, octets, workers):
    """Octets of output, and the peak of resident memory in octets: all is in memory before anything is written, and a full
    pipe holds the program up while it is looked at."""
    with runs.given(octets) as file:
        child = subprocess.Popen([path, "replay", "--workers", str(workers)], stdin=file, stdout=subprocess.PIPE)
        size = most = 0
        while piece := child.stdout.read(1 << 14):
            size, most = size + len(piece), max(most, high_water(child))
    runs.checked(path, child.wait())
    return size, most

def run(args):
    zone = Zone(CHAINS["nsec"], args.held)
    filling = [call.frame for call in zone.filling()]
    print("| workers | answers | input MB | output MB | beside them MB |\n|---:|---:|---:|---:|---:|")
    for workers in sorted({1, args.workers}):
        for count in (args.answers // 10, args.answers // 2, args.answers):
            frames = filling + answers(zone, count)
            octets = b"".join(f[:1] + bytes([number % workers]) + f[2:] for number, f in enumerate(frames))
            size, most = peak(args.program, octets, workers)
            rest = most - len(octets) - size
            print(f"| {workers} | {count:,} | {len(octets) / 1e6:.1f} | {size / 1e6:.1f} | {rest / 1e6:.1f} |", flush=True)
