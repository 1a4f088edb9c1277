"""Running the program, and the words that commands have in common."""
import argparse, contextlib, os, re, shutil, socket, subprocess, tempfile, time
from pathlib import Path
from .wire import Fault

ROOT = Path(__file__).resolve().parents[2]  # of the repository
CRATE = ROOT / "crates" / "dnsreplay"
BUILT = CRATE / "out" / "dnsreplay"  # what `rt run` leaves
LOOPBACK = "127.0.0.1"

# Its differences are callgrind's but for a few instructions a call, in a third of the time.
COUNTER = ("valgrind", "--tool=cachegrind", "--cache-sim=no", "--cachegrind-out-file=/dev/null")

def program(word):
    """The absolute path of a program."""
    if os.path.isfile(word) and os.access(word, os.X_OK): return os.path.abspath(word)
    raise argparse.ArgumentTypeError(f"{word} is no program")

def built():
    """What `rt run` leaves, where nothing else is named."""
    try:
        return program(str(BUILT))
    except argparse.ArgumentTypeError as why:
        raise Fault(str(why)) from why

def takes_program(parser):
    text = "a built dnsreplay (default: crates/dnsreplay/out/dnsreplay, which `rt run` leaves)"
    parser.add_argument("program", metavar="PROGRAM", nargs="?", default=str(BUILT), type=program, help=text)

def number(least, most=1 << 64):
    """A reader of whole numbers."""
    def read(text):
        if text.isdecimal() and least <= int(text) <= most: return int(text)
        end = f"to {most}" if most < 1 << 64 else "on"
        raise argparse.ArgumentTypeError(f"{text} isn't a number from {least} {end}")
    return read

def takes_numbers(parser, least=0, **defaults):
    """Options with a number each."""
    for name, default in defaults.items():
        how = {"type": number(least), "default": default, "metavar": "N", "help": f"(default: {default:,})"}
        parser.add_argument("--" + name.replace("_", "-"), **how)

def need(packages, *programs):
    """Each of the programs must be there."""
    missing = [each for each in programs if not shutil.which(each)]
    if missing: raise Fault(f"{', '.join(missing)} is missing: apt-get install {packages}")

def need_kit():
    if not shutil.which("rt"): raise Fault("rt is missing: put Rattle's kit on the path")

def moment():
    """The moment of what is made of these sources: SOURCE_DATE_EPOCH, or that of the commit, or now."""
    if "SOURCE_DATE_EPOCH" in os.environ: return int(os.environ["SOURCE_DATE_EPOCH"])
    asked = ["git", "-C", ROOT, "log", "-1", "--format=%ct"]
    with contextlib.suppress(OSError, ValueError):
        return int(subprocess.run(asked, capture_output=True, check=False).stdout)
    return int(time.time())

def date(seconds): return time.strftime("%Y-%m-%d", time.gmtime(seconds))

@contextlib.contextmanager
def given(octets):
    with tempfile.TemporaryFile() as file:
        file.write(octets)
        file.seek(0)
        yield file

def checked(path, status, said=b""):
    if status:
        told = said.decode(errors="replace").strip()[-500:]
        raise Fault(f"{path} ended with status {status}" + f": {told}" * bool(told))

def ended(words, octets, seconds=None):
    """How a program ends that is given the octets, with what it wrote."""
    with given(octets) as file:
        try:
            return subprocess.run(words, stdin=file, capture_output=True, check=False, timeout=seconds)
        except subprocess.TimeoutExpired as late:
            raise Fault(f"{words[0]} hasn't ended after {seconds} seconds") from late

def ran(words, octets, seconds=None):
    """Standard output and standard error of a program that has to do it."""
    done = ended(words, octets, seconds)
    checked(words[0], done.returncode, done.stderr)
    return done.stdout, done.stderr

def of_replay(workers=1): return ["replay", "--workers", str(workers)]

def replay(path, octets, workers=1):
    """Standard output and standard error of a replay."""
    return ran([path, *of_replay(workers)], octets)

def counted(path, octets, words=None):
    """The instructions of a whole run, that of a replay by one worker where no words are given, and its output."""
    need("valgrind", "valgrind")
    output, said = ran([*COUNTER, path, *(words or of_replay())], octets)
    found = re.search(rb"I +refs: +([\d,]+)", said)
    if not found: raise Fault(f"valgrind told no count: {said.decode(errors='replace')}")
    return int(found[1].replace(b",", b"")), output

def timed(path, octets, workers=1, env=None):
    """Seconds of a replay: of processor time, the system's share included, and by the clock."""
    with given(octets) as file:
        start = time.perf_counter()
        child = subprocess.Popen([path, *of_replay(workers)], stdin=file, stdout=subprocess.DEVNULL, env=env)
        _, status, usage = os.wait4(child.pid, 0)
        took = time.perf_counter() - start
    child.returncode = os.waitstatus_to_exitcode(status)
    checked(path, child.returncode)
    return usage.ru_utime + usage.ru_stime, took

def wait(process, done, told, seconds=30):
    """Waits until `done` says that a started program is up; `told` gives what it wrote otherwise."""
    end = time.monotonic() + seconds
    while not done():
        if process.poll() is not None or time.monotonic() > end:
            raise Fault(f"{process.args[0]} isn't up (status {process.poll()}): {told()}")
        time.sleep(0.1)

def free_ports(count):
    """The first of so many ports of loopback that nothing is bound to."""
    for start in range(20_000, 60_000, 50):
        with contextlib.ExitStack() as stack, contextlib.suppress(OSError):
            for port in range(start, start + count):
                for kind in (socket.SOCK_DGRAM, socket.SOCK_STREAM):
                    stack.enter_context(socket.socket(socket.AF_INET, kind)).bind((LOOPBACK, port))
            return start
    raise Fault("no free ports on loopback")
