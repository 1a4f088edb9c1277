"""A report of a capture, made in this process."""
from types import SimpleNamespace
from .. import report
from ..captures.files import opened

class Lab:
    """The words, and a folder."""
    def __init__(self, args, folder): self.args, self.program, self.folder = args, args.program, folder

def reported(lab, paths, resolvers, follow=False, port=53, **how):
    captures = opened(paths)
    try:
        words = SimpleNamespace(resolver=list(resolvers), port=port, program=lab.program, follow=follow)
        return report.made(words, captures, **how)
    finally:
        for each in captures: each.close()
