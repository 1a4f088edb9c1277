"""Runs of the program over frames without end: one after the other, each begun with what the one before held.

The answer to a query that the cache answers wouldn't have come, so it is left out. Which these are a run itself tells,
and so it is done again until it agrees with what was left out: then it is what the program had done where it was
captured.
"""
import subprocess, tempfile
from .. import run as runs
from ..wire import HEAD, QUERY, REPLY, STORED, UPSTREAM, Unreadable, check, frame

INPUT_LIMIT = 67_108_864  # octets that a run takes
MOST_FRAMES = 100_000  # new ones of a run
MOST_TURNS = 16  # of a run
SPARED = 0  # in the place of an output's kind: the frame was left out

class Trial:
    """Gives each frame, with what it is about and what became of it, to the reading's `take` in order.

    What a query's frame is about has a `kind` once it was answered; an answer's has the query as `asked`, or none."""
    def __init__(self, program, command, reading, most=MOST_FRAMES):
        self.command, self.reading, self.most = [program, *command], reading, most
        self.carried, self.room = [], INPUT_LIMIT
        self.frames, self.spelled, self.size = [], [], 0
        self.count = self.fed = self.runs = self.turns = self.unsettled = 0

    def add(self, kind, moment, octets, about):
        size = HEAD.size + len(octets)
        if len(self.frames) >= self.most or self.size + size > self.room: self.run()
        self.frames.append((kind, moment, octets, about))
        self.spelled.append(frame(kind, moment, octets))
        self.size += size

    def run(self):
        """A run over what was added since the one before."""
        if not self.frames: return
        with tempfile.TemporaryFile() as output:
            left_out = self.settled(output)
            for number, (one, told) in enumerate(zip(self.frames, self.told(output, left_out)), self.count + 1):
                self.reading.take(number, *one, *told)
        self.runs, self.fed, self.count = self.runs + 1, self.fed + len(self.carried), self.count + len(self.frames)
        self.carried = self.reading.held.carried()
        self.room = INPUT_LIMIT - sum(HEAD.size + len(octets) for _, octets in self.carried)
        self.frames, self.spelled, self.size = [], [], 0

    def settled(self, output):
        """The places of answers that are left out, so that the output is that of the others."""
        left_out = frozenset()
        for turn in range(MOST_TURNS):
            self.replay(output, left_out)
            kinds = [kind for kind, _ in self.told(output, left_out)]
            answered = self.answered(kinds)
            self.turns += 1
            if answered == left_out or turn == MOST_TURNS - 1: break
            left_out = self.reading.foreseen(self.frames, kinds, answered) if turn == 0 else answered
        self.unsettled += len(answered ^ left_out)
        return left_out

    def replay(self, output, left_out):
        """Writes the program's output over what is carried and what isn't left out."""
        with tempfile.TemporaryFile() as file:
            for moment, octets in self.carried: file.write(frame(UPSTREAM, moment, octets))
            file.writelines(octets for at, octets in enumerate(self.spelled) if at not in left_out)
            file.seek(0)
            output.seek(0)
            output.truncate()
            done = subprocess.run(self.command, stdin=file, stdout=output, stderr=subprocess.PIPE, check=False)
        runs.checked(self.command[0], done.returncode, done.stderr)

    def answered(self, kinds):
        """The places of answers whose query was answered from the cache."""
        replied, places = {}, set()
        for at, ((kind, _, _, about), told) in enumerate(zip(self.frames, kinds)):
            if kind == QUERY: replied[about] = told == REPLY
            elif about.asked and replied.get(about.asked, about.asked.kind is not None): places.add(at)
        return frozenset(places)

    def told(self, output, left_out):
        """Kind and body of the output for each new frame."""
        output.seek(0)
        outputs = outputs_of(output)
        for _, octets in self.carried:
            check(next(outputs)[0] == STORED, f"an answer wasn't stored when it was fed anew: {octets.hex()}")
        for at in range(len(self.frames)): yield (SPARED, b"") if at in left_out else next(outputs)
        check(next(outputs, None) is None, "more output frames than input frames")

def outputs_of(file):
    """Kind and body of each frame that the program has written; a fault where one is missing."""
    while head := file.read(HEAD.size):
        if len(head) < HEAD.size: raise Unreadable("the program's output ends within a frame")
        kind, _, _, size = HEAD.unpack(head)
        yield kind, file.read(size)
