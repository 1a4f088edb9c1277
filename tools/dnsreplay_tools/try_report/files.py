"""Files that aren't as they should be, through the command itself: what it says, and how it ends."""
import gzip, random, subprocess, sys
from .. import run as runs, wire
from ..wire import check
from . import drawn, written

COMMAND = runs.ROOT / "tools" / "dnsreplay-tools"
SECONDS = 120
WIRELESS = 127  # a link type that isn't read

def plain(lab, count=60, **how):
    """A capture file in memory."""
    rng = random.Random(f"{lab.args.seed} files")
    file = written.File(**how)
    drawn.write(rng, file, list(drawn.exchanges(rng, count)))
    return file

def reporting(lab, *words, resolver="192.0.2.53"):
    """How `report` ends by itself, and what it writes."""
    command = [sys.executable, COMMAND, "report", "--program", lab.program, *map(str, words)]
    if resolver: command += ["--resolver", resolver]
    return subprocess.run(command, capture_output=True, text=True, check=False, timeout=SECONDS)

def cases(lab):
    """A name, the octets, and the status and the words with which it ends."""
    file = plain(lab)
    whole, sections, zipped, radio = file.pcap(), file.pcapng(), file.zipped(), written.File(WIRELESS)
    radio.add(0, b"x")
    first = whole[24:40]
    yield "cut in a packet", whole[:-5], 0, "breaks off"
    yield "cut in a packet's head", whole[: 24 + 16 + int.from_bytes(first[8:12], "little") + 7], 1, "no query"
    yield "cut between two blocks", sections[: sections.rindex(b"\6\0\0\0")], 0, "answered from the cache"
    yield "pcapng cut in a block", sections[:-7], 0, "breaks off"
    yield "gzip cut", zipped[: len(zipped) // 2], 0, "breaks off"
    yield "gzip with an octet changed", zipped[:-30] + b"\0" + zipped[-29:], 0, "breaks off"
    yield "empty", b"", 2, "is empty"
    yield "without packets", whole[:24], 1, "no query to the resolver"
    yield "a header cut", whole[:20], 1, "no query to the resolver"
    yield "another link type", radio.pcap(), 2, "link type 127"
    yield "another link type, pcapng", radio.pcapng(), 2, "link type 127"
    yield "no capture", b"query 1\n" * 100, 2, "isn't a pcap or pcapng file"
    yield "a gzip file of no capture", gzip.compress(b"query 1\n"), 2, "isn't a pcap or pcapng file"
    yield "a length that no packet has", whole[:32] + b"\xff\xff\xff\x7f" + whole[36:], 1, "breaks off"
    yield "octets at random", whole[:24] + random.Random(1).randbytes(5_000), 1, "no query"
    yield "cut by the snap length", plain(lab, snap=60).pcap(), 1, "cut by the snap length"
    yield "another resolver's", exchange(b"", written.end("192.0.2.54", 53)), 1, "of others than the resolver"
    yield "no signatures", exchange(b""), 0, "No answer has signatures"
    signed = wire.signature(wire.TO_QUESTION, wire.A, 1, wire.name(b"example"))
    yield "no AD", exchange(signed), 0, "No answer has AD"

def exchange(more, resolver=written.end("192.0.2.53", 53)):
    """A capture of a query and its answer without AD, which has further records."""
    client, file = written.end("192.0.2.1", 4_000), written.File()
    asked, address = wire.question(wire.name(b"example"), wire.A), wire.record(wire.TO_QUESTION, wire.A, bytes(4))
    file.datagram(1, client, resolver, wire.query(wire.name(b"example"), wire.A))
    records = [address, more] if more else [address]
    file.datagram(1, resolver, client, wire.message(0x8180, asked, records, identity=0x1234))
    return file.pcap()

def odd_files(lab, tally):
    for name, octets, status, words in cases(lab):
        with tally.check(f"{name}: status {status}, {words!r}"):
            path = lab.folder / "odd"
            path.write_bytes(octets)
            done = reporting(lab, path)
            said = done.stdout + done.stderr
            check("Traceback" not in said, said[-1_000:])
            check(done.returncode == status and words in said, f"status {done.returncode}: {said[-500:]}")
    with tally.check("no file there: status 2"):
        check(reporting(lab, lab.folder / "none").returncode == 2, "another status")
