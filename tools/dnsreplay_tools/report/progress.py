"""How much of the captures is read, and the time that is left, on a terminal."""
import sys, time

EVERY = 0.25  # seconds
WIDTH = 30

def clock(seconds):
    minutes, seconds = divmod(int(seconds), 60)
    return f"{minutes // 60}:{minutes % 60:02d}:{seconds:02d}" if minutes >= 60 else f"{minutes}:{seconds:02d}"

class Progress:
    """Nothing where standard error is no terminal."""
    def __init__(self, captures):
        self.captures, self.total = captures, sum(each.size for each in captures)
        self.is_shown = sys.stderr.isatty() and self.total > 0
        self.start = self.last = time.monotonic()

    def __enter__(self): return self

    def look(self):
        if not self.is_shown: return
        now = time.monotonic()
        if now - self.last < EVERY: return
        self.last = now
        part = min(1, sum(each.done() for each in self.captures) / self.total)
        left = (now - self.start) * (1 - part) / part if part else 0
        bar = "#" * round(part * WIDTH)
        print(f"\r[{bar:<{WIDTH}}] {part:4.0%}, {clock(left)} left ", end="", file=sys.stderr, flush=True)

    def __exit__(self, *_):
        if self.is_shown: print("\r" + " " * (WIDTH + 30) + "\r", end="", file=sys.stderr, flush=True)
