"""Makes Debian packages of what was proved: dnsreplay, libdnsreplay1, libdnsreplay-dev, knot-resolver-module-dnsreplay.

    dnsreplay                       the program, its service and /etc/default/dnsreplay, pages, completion, docs
    libdnsreplay1                   the shared object
    libdnsreplay-dev                header, archive, pkg-config file, the page of the calls
    knot-resolver-module-dnsreplay  the module of Knot Resolver

It packs what `rt run` and `rt lib` leave in crates/dnsreplay and crates/dnsreplay_c. Each must have been there, and is
asked again: they look by their own stamps whether anything has changed since it was proved, and prove that. A program
without rt's stamp is refused. A stamp holds off mistakes, and nobody who can write to these folders.

The version is that of `--version`, all moments are that of the commit or SOURCE_DATE_EPOCH, and the maintainer is by
DEBFULLNAME and DEBEMAIL. FOLDER gets the packages when all are made, and nothing where one isn't. It needs Debian's
dpkg-dev, gcc and binutils. `try_packages FOLDER` tries them.
"""
import shutil, tempfile
from pathlib import Path
from .. import helps, library, run as runs
from . import contents, deb, proved

NEEDED = "dpkg-deb", "dpkg-shlibdeps", "dpkg-architecture", "cc", "objcopy"

def words(parser): parser.add_argument("folder", metavar="FOLDER", type=Path, help="where they are put")

def make(folder, built):
    """The packages of what was built, in a folder; their names."""
    runs.need("dpkg-dev gcc binutils", *NEEDED)
    with tempfile.TemporaryDirectory() as name:
        scratch = Path(name)
        library.install(built.archive, scratch / "prefix")
        made = contents.Made(built.program, scratch / "prefix", helps.version(built.program), runs.moment())
        (scratch / "packed").mkdir()
        files = [deb.pack(each, made, scratch) for each in contents.every(made, scratch)]
        folder.mkdir(parents=True, exist_ok=True)
        for each in files: shutil.move(each, folder / each.name)
    return [each.name for each in files]

def run(args):
    for each in make(args.folder, proved.built()): print(args.folder / each)
