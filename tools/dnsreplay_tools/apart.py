"""A network with loopback alone, and mounts, that this process and what it starts see; they go with the last of these."""
import ctypes, os
from .library import done
from .wire import check

NETWORK, MOUNTS = 0x40000000, 0x00020000  # CLONE_NEWNET and CLONE_NEWNS of unshare(2)

def go(kinds):
    refused = ctypes.CDLL(None, use_errno=True).unshare(kinds)
    check(not refused, f"no network of its own: {os.strerror(ctypes.get_errno())}")
    if kinds & MOUNTS: done("mount", "--make-rprivate", "/")
    done("ip", "link", "set", "lo", "up")
