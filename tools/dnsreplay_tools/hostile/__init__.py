"""Attacks the program: dear answers, a dear store (`bench` has both too), and runs whose calls to the system fail."""
from ..bench import intake, store
from . import runs

COMMANDS = {"intake": intake, "runs": runs, "store": store}
