"""Measures what calls and audits cost: by count, in time, over datagrams, in dear messages, in octets held."""
from ..wire import check
from . import audits, batches, calls, drawn, intake, memory, messages, peers, serve, store, streams, workers

MODULES = (calls, serve, peers, streams, workers, messages, intake, store, memory, batches, audits)
COMMANDS = {each.__name__.rpartition(".")[2]: each for each in MODULES}
words = drawn.words

def run(args):
    check(args.svg, "a command, or --svg FILE")
    drawn.run(args)
