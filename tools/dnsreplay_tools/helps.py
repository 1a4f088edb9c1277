"""What `dnsreplay --help` and `dnsreplay COMMAND --help` tell, for the pages and the completion that are made of it."""
import re
from collections import namedtuple
from .library import done
from .wire import check

# the text, the usage without its head, and the rows of its tables, each of a term and what is said of it
Help = namedtuple("Help", "text usage tables")
# a command with its row in the program's table, and its own help
Command = namedtuple("Command", "name summary help")
ROW = re.compile(r"^  (\S.*?)  +(\S.*(?:\n {3,}.*)*)", re.M)

def one_line(text): return " ".join(text.split())

def read(text):
    said, usage, *tables = text.strip().split("\n\n")
    check(usage.startswith("Usage: "), f"a help without its usage: {usage[:60]}")
    rows = [[(term, one_line(what)) for term, what in ROW.findall(each)] for each in tables]
    return Help(one_line(said), one_line(usage.removeprefix("Usage:")), rows)

def options(help_text):
    """The options of a command: the word, its value or nothing, and what is said of it."""
    rows = help_text.tables[0] if help_text.tables else []
    return [(*(term.split(" ", 1) + [""])[:2], what) for term, what in rows]

def of_program(path):
    """The program's help, and that of each command that it names."""
    whole = read(done(path, "--help"))
    return whole, [Command(name, said, read(done(path, name, "--help"))) for name, said in whole.tables[0]]

def version(path):
    """What `--version` says behind the program's name."""
    said = done(path, "--version").split()
    check(len(said) == 2 and said[0] == "dnsreplay", f"{path} --version says {' '.join(said)}")
    return said[1]
