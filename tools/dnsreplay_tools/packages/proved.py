"""The program and the archive of the library that were proved."""
import sys
from collections import namedtuple
from .. import library, run as runs
from ..library import done
from ..wire import check

Built = namedtuple("Built", "program archive")
STAMP = runs.BUILT.with_suffix(".stamp")  # of rt, over the sources, the kit and the program

def built():
    """Both, once rt has said that they are what it proved of the sources as they stand."""
    runs.need_kit()
    is_stamped = runs.BUILT.is_file() and STAMP.is_file()
    check(is_stamped, f"{runs.BUILT} isn't proved: run `rt run -- --version` in {runs.CRATE}")
    check(library.ARCHIVE.is_file(), f"{library.ARCHIVE} isn't proved: run `rt lib` in {library.CRATE}")
    print("rt looks what has changed since, and proves that", file=sys.stderr)
    done("rt", "run", "--", "--version", cwd=runs.CRATE)
    return Built(runs.BUILT, library.built_archive())
