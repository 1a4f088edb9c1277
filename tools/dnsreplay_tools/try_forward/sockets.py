"""The system's tables of sockets (Linux, Documentation/networking/proc_net_tcp.rst)."""
import re
from collections import namedtuple

LISTEN = 0x0A
# ports of this end and of the other, the state, octets that aren't acknowledged, and 0 where no process has it
Socket = namedtuple("Socket", "local remote state unsent inode")
LINE = re.compile(r"^ *\d+: \w+:(\w{4}) \w+:(\w{4}) (\w\w) (\w+):\w+ \w+:\w+ \w+ +\d+ +\d+ (\d+) ", re.M)

def read(text):
    return [Socket(*(int(each, 16) for each in found[:4]), int(found[4])) for found in LINE.findall(text)]
