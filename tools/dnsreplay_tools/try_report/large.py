"""A capture of 2 GB: its figures, the memory that a report takes, and its progress on a terminal."""
import os, pty, random, re, struct, subprocess, sys, time
from ..captures.packets import UDP
from ..wire import check
from . import drawn, written
from .files import COMMAND, reporting
from .figures import RESOLVER

OCTETS, FILLING = 2 << 30, 62_000  # of the capture; of the packets between its messages, which are holes of the file
MOST_MEMORY = 400 << 20

def write(lab, path):
    """Exchanges over and over, with packets of other ports between them; how many queries there are."""
    rng = random.Random(f"{lab.args.seed} large")
    file, count = written.File(), 0
    some = list(drawn.exchanges(rng, 400))
    drawn.write(rng, file, some)
    head, *packets = packets_of(file.pcap())
    end = written.end("192.0.2.9", 9)
    other = written.framed(written.ETHERNET, written.ip(end, end, UDP, written.udp(end, end, bytes(FILLING)))[0])
    with open(path, "wb") as out:
        out.write(head)
        while out.tell() < OCTETS:
            for packet in packets:
                out.write(packet)
                out.write(packet[:8] + struct.pack("<2I", len(other), len(other)) + other[:60])
                out.seek(len(other) - 60, 1)
            count += sum(each.query is not None for each in some)
        out.truncate()
    return count

def packets_of(octets):
    """The head of a pcap file, and then each packet with its own."""
    yield octets[:24]
    at = 24
    while at < len(octets):
        size = 16 + int.from_bytes(octets[at + 8 : at + 12], "little")
        yield octets[at : at + size]
        at += size

def on_terminal(command):
    """What a program writes to a terminal, and its status and most octets of resident memory."""
    ours, its = pty.openpty()
    child = subprocess.Popen(command, stdout=subprocess.DEVNULL, stderr=its)
    os.close(its)
    said = b""
    while True:
        try:
            said += os.read(ours, 1 << 16)
        except OSError:  # as Linux has it where the other end is closed
            break
    _, status, usage = os.wait4(child.pid, 0)
    child.returncode = os.waitstatus_to_exitcode(status)
    os.close(ours)
    return said.decode(), child.returncode, usage.ru_maxrss * 1024

def run(lab, tally):
    path = lab.folder / "large"
    count = write(lab, path)
    options = [word for each in RESOLVER for word in ("--resolver", each)]
    command = [sys.executable, COMMAND, "report", "--program", lab.program, path, *options]
    command += ["--json", lab.folder / "large.json"]
    with tally.check(f"a capture of {path.stat().st_size:,} octets") as tell:
        start = time.monotonic()
        said, status, most = on_terminal(list(map(str, command)))
        took = time.monotonic() - start
        check(status == 0, said[-500:])
        found = re.search(r'"total": (\d+)', (lab.folder / "large.json").read_text())
        check(int(found[1]) == count, f"{found[1]} queries, and {count:,} were written")
        check(most <= MOST_MEMORY, f"{most:,} octets of memory")
        parts = [int(each) for each in re.findall(r"(\d+)%, [\d:]+ left", said)]
        check(parts == sorted(parts) and parts and parts[0] < 20 and parts[-1] > 80, f"progress {parts}")
        tell(f"{count:,} queries, {took:.0f} s, {most >> 20:,} MB, progress {parts[0]} to {parts[-1]} %")
    with tally.check("no progress where standard error is no terminal"):
        small = lab.folder / "small"
        file = written.File()
        drawn.write(random.Random(1), file, list(drawn.exchanges(random.Random(1), 20)))
        small.write_bytes(file.pcap())
        done = reporting(lab, small)
        check(done.returncode == 0 and not done.stderr, done.stderr)
    path.unlink()
