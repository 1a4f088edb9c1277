"""What stands between the forwarder and its resolver, or in the resolver's place, as threads."""
import collections, contextlib, selectors, socket, threading
from .. import wire
from .lab import V4

THIRD, FIFTH = 3, 5
MOST_ASKINGS = 500  # that wait at a proxy
ROOM = 4 << 20  # octets of a socket's buffer

def bound():
    made = socket.socket(socket.AF_INET, socket.SOCK_DGRAM)
    made.setsockopt(socket.SOL_SOCKET, socket.SO_RCVBUF, ROOM)
    made.bind((V4, 0))
    return made

def question_in(octets):
    """The octets of a message's question."""
    return octets[12 : wire.read_name(octets, 12)[1] + 4]

def key_of(octets):
    """A message's question, whatever its letters."""
    return question_in(octets).lower()

class Background:
    """A thread with a UDP socket, at each of whose datagrams `take` is called."""
    def __init__(self):
        self.socket, self.selector, self.stopped = bound(), selectors.DefaultSelector(), False
        self.port = self.socket.getsockname()[1]
        self.selector.register(self.socket, selectors.EVENT_READ, self.take)
        self.thread = threading.Thread(target=self.serve, daemon=True)

    def __enter__(self):
        self.thread.start()
        return self

    def __exit__(self, *_):
        self.stopped = True
        self.thread.join()
        self.socket.close()
        self.selector.close()

    def serve(self):
        while not self.stopped:
            for key, _ in self.selector.select(0.1):
                with contextlib.suppress(ConnectionError): key.data(*key.fileobj.recvfrom(65_535))

class Proxy(Background):
    """It hands askings on to a resolver, but for each third, and answers back, each fifth of them twice."""
    def __init__(self, resolver):
        super().__init__()
        self.resolver, self.askings, self.answers = (V4, resolver), 0, 0
        self.lost = collections.Counter()  # by question
        self.waiting = collections.deque()

    def take(self, octets, source):
        self.askings += 1
        if self.askings % THIRD == 0:
            self.lost[key_of(octets)] += 1
            return
        one = bound()
        one.connect(self.resolver)
        one.send(octets)
        self.selector.register(one, selectors.EVENT_READ, lambda answer, _: self.answer(one, answer, source))
        self.waiting.append(one)
        if len(self.waiting) > MOST_ASKINGS: self.close(self.waiting.popleft())

    def answer(self, one, octets, source):
        self.answers += 1
        for _ in range(1 + (self.answers % FIFTH == 0)): self.socket.sendto(octets, source)
        self.waiting.remove(one)
        self.close(one)

    def close(self, one):
        self.selector.unregister(one)
        one.close()

    def __exit__(self, *how):
        super().__exit__(*how)
        for one in self.waiting: one.close()

class Upstream(Background):
    """A server of ours: `say` gives for an asking the datagrams that it sends, each with whether from another port."""
    def __init__(self, say):
        super().__init__()
        self.say, self.other, self.seen = say, bound(), collections.Counter()

    def take(self, octets, source):
        self.seen[key_of(octets)] += 1
        for is_elsewhere, datagram in self.say(octets):
            (self.other if is_elsewhere else self.socket).sendto(datagram, source)

    def __exit__(self, *how):
        super().__exit__(*how)
        self.other.close()
