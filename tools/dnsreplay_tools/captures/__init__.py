"""DNS messages of captures: files, packets, fragments, streams. Each is read as it comes, in a bounded memory."""
import heapq
from .files import Capture
from .messages import Message, messages

def merged(captures, passed, ports):
    """The messages of all captures in order of time."""
    each = [messages(capture.packets(), passed, ports) for capture in captures]
    return each[0] if len(each) == 1 else heapq.merge(*each, key=lambda message: message.time)
