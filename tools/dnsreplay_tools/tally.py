"""Lines of checks, and how many there were."""
import contextlib
from .wire import Fault

class Tally:
    def __init__(self): self.done = self.failed = 0

    @contextlib.contextmanager
    def check(self, what):
        """One check, which fails by any error: its line, with what it told."""
        told = []
        with self.guard(what):
            yield told.append
            self.done += 1
            print("; ".join([f"ok {what}", *told]), flush=True)

    @contextlib.contextmanager
    def guard(self, what):
        """Where something fails that no check is for, such as the start of a server, that counts as one."""
        try:
            yield
        except Exception as why:
            self.done, self.failed = self.done + 1, self.failed + 1
            kind = "" if isinstance(why, Fault) else f"{type(why).__name__}: "
            print(f"FAILED {what}: {kind}{' '.join(str(why).split())}", flush=True)

    def end(self):
        print(f"{self.done} checks, {self.failed} failed" if self.failed else f"{self.done} checks, all ok")
        return int(self.failed > 0)
