"""Says whether an output of several workers fits its input, by what one worker does.

It looks at what docs/FRAMES.md asks: one output frame for each input frame, in order, with its worker; versions of
stored answers that are 1 to their number, each once; each worker's calls in its own order. Then it puts the calls in
order of version, at one version the stored answer first, gives them all to one worker of PROGRAM, and compares each
kind, version and body. Exit status 1 tells that it doesn't fit, and 2 what can't be read or run.
"""
import collections
from pathlib import Path

from . import run as runs
from .wire import FORWARD, REPLY, STORED, check, frame, frames

def look_at_frames(inputs, outputs):
    """Frames, workers and versions."""
    check(len(inputs) == len(outputs), f"{len(inputs)} input frames and {len(outputs)} output frames")
    newest = collections.Counter()
    for number, ((_, worker, _, _), (kind, told, version, _)) in enumerate(zip(inputs, outputs), 1):
        check(worker == told, f"frame {number} is worker {worker}'s and told as worker {told}'s")
        if kind in (REPLY, FORWARD, STORED):
            what = f"frame {number}: version {version} after {newest[worker]} of its worker"
            check(version >= newest[worker] + (kind == STORED), what)
            newest[worker] = version
    placed = sorted(each.number for each in outputs if each.kind == STORED)
    wanted = list(range(1, len(placed) + 1))
    check(placed == wanted, "the versions of stored answers aren't 1 to their number, each once")
    check(max(newest.values(), default=0) <= len(placed), "a version that nobody made")

def in_order(outputs):
    """The places of frames in order of version, at one version the stored answer first."""
    return sorted(range(len(outputs)), key=lambda at: (outputs[at].number, outputs[at].kind != STORED, at))

def look(program, inputs, outputs):
    """Raises a fault where the output doesn't fit."""
    look_at_frames(inputs, outputs)
    order = in_order(outputs)
    octets = b"".join(frame(inputs[at].kind, inputs[at].number, inputs[at].body) for at in order)
    alone = list(frames(runs.replay(program, octets)[0], "one worker's output: "))
    check(len(alone) == len(order), f"{len(alone)} frames of one worker for {len(order)}")
    for at, (kind, _, version, body) in zip(order, alone):
        is_equal = (kind, version, body) == (outputs[at].kind, outputs[at].number, outputs[at].body)
        check(is_equal, f"frame {at + 1} differs from one worker's")

def words(parser):
    parser.set_defaults(unreadable=2)
    runs.takes_program(parser)
    parser.add_argument("input", metavar="INPUT", type=Path)
    parser.add_argument("output", metavar="OUTPUT", type=Path)

def run(args):
    inputs, outputs = (list(frames(path.read_bytes(), f"{path}: ")) for path in (args.input, args.output))
    look(args.program, inputs, outputs)
    print(f"fits: {len(outputs)} frames, {sum(each.kind == STORED for each in outputs)} versions")
