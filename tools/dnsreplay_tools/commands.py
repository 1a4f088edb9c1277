"""Makes, measures, attacks and compares what dnsreplay reads and writes; `COMMAND --help` tells more."""
import argparse, os, signal, sys
from . import audit_explain, audit_input, bench, demo, differential, fits, frames, hostile, library
from . import packages, report, try_forward, try_kresd, try_library, try_packages, try_report, try_serve, try_tcp, twice
from .wire import Fault, Unreadable

TRIES = (try_forward, try_kresd, try_library, try_packages, try_report, try_serve, try_tcp)
MODULES = (demo, report, frames, fits, differential, bench, hostile, library, packages, *TRIES, twice)
COMMANDS = {each.__name__.rpartition(".")[2]: each for each in MODULES}
COMMANDS |= {"audit-input": audit_input, "audit-explain": audit_explain}

def add(parsers, module, name):
    """A module's command: its `words` say what it takes and `run` does it; it may have `COMMANDS` below it."""
    text = module.__doc__
    how = {"help": text.split("\n", 1)[0], "description": text, "formatter_class": argparse.RawDescriptionHelpFormatter}
    made = parsers.add_parser(name, **how)
    made.set_defaults(command=made.prog.split(" ", 1)[1])
    is_alone = hasattr(module, "words")
    if is_alone:
        made.set_defaults(run=getattr(module, "run", None))
        module.words(made)
    if hasattr(module, "COMMANDS"):
        below = made.add_subparsers(required=not is_alone, metavar="COMMAND")
        for name, each in module.COMMANDS.items(): add(below, each, name)

def main():
    signal.signal(signal.SIGTERM, lambda number, _: sys.exit(128 + number))  # so that what was started is ended
    parser = argparse.ArgumentParser(prog="dnsreplay-tools", description=__doc__)
    parser.set_defaults(unreadable=1)
    parsers = parser.add_subparsers(required=True, metavar="COMMAND")
    for name, module in COMMANDS.items(): add(parsers, module, name)
    args = parser.parse_args()
    try:
        status = args.run(args)
        sys.stdout.flush()
    except BrokenPipeError:  # as `| head` makes it
        os.dup2(os.open(os.devnull, os.O_WRONLY), 1)
        status = 141
    except KeyboardInterrupt:
        status = 130
    except (Fault, OSError) as why:
        sys.stdout.flush()
        print(f"{args.command}: {why}", file=sys.stderr)
        status = args.unreadable if isinstance(why, (Unreadable, OSError)) else 1
    sys.exit(status)
