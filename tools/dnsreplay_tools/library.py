"""Builds the C library from what was proved: archive, shared object, header, pkg-config file, man page, kresd's module.

It runs `rt lib` in crates/dnsreplay_c, which proves what isn't proved yet and refuses what can't be, and puts into
FOLDER, laid out as a prefix (/usr/local, say):

    include/dnsreplay.h
    lib/libdnsreplay.a        one object, of which only the seven calls are seen
    lib/libdnsreplay.so.1     the same, shared; lib/libdnsreplay.so leads to it
    lib/pkgconfig/dnsreplay.pc
    share/man/man3/dnsreplay.3, with a page that leads to it for each call
    share/dnsreplay/kres_modules/dnsreplay.lua

`cc program.c $(pkg-config --cflags --libs FOLDER/lib/pkgconfig/dnsreplay.pc)` builds a program over it. It needs
Debian's gcc and binutils.
"""
import re, shutil, subprocess, tempfile
from pathlib import Path
from . import run as runs
from .roff import filled
from .wire import Fault, check

CRATE = runs.ROOT / "crates" / "dnsreplay_c"
ARCHIVE = CRATE / "out" / "libdnsreplay_c.a"
HEADER = runs.ROOT / "include" / "dnsreplay.h"
MODULE = runs.ROOT / "kresd" / "kres_modules" / "dnsreplay.lua"
CALLS = [f"dnsreplay_{each}" for each in ("close", "copy", "insert", "open", "query", "records", "version")]
TAKEN = {"malloc", "realloc", "free", "memcpy", "memmove", "memset"}
MOST_OCTETS = 600_000

PKG_CONFIG = """\
prefix={prefix}
libdir={libdir}
Name: dnsreplay
Description: The aggressive cache of a validating DNS resolver (RFC 8198), proved
Version: {version}
Cflags: -I${{prefix}}/include
Libs: -L${{libdir}} -ldnsreplay
"""

def pkg_config(version, prefix, libdir): return PKG_CONFIG.format(version=version, prefix=prefix, libdir=libdir)

def words(parser):
    parser.add_argument("folder", metavar="FOLDER", type=Path, help="where it is put")
    parser.add_argument("--archive", metavar="FILE", type=Path, help="an archive of the crate, in place of rt lib's")

def done(*command, **how):
    said = subprocess.run(command, capture_output=True, text=True, check=False, **how)
    runs.checked(command[0], said.returncode, (said.stdout + said.stderr).encode())
    return said.stdout

def kit_archive():
    """What calls malloc, realloc and free for proved code: of the kit, beside the page that `rt doc` names."""
    runs.need_kit()
    return Path(done("rt", "doc", cwd=CRATE).strip()).parent / "c" / "liblibc_c.a"

def built_archive():
    done("rt", "lib", cwd=CRATE)
    return ARCHIVE

def symbols(path, *options):
    """The names of an object by their letter: T those that it has, U those that it wants."""
    lines = (line.split() for line in done("nm", "-g", *options, path).splitlines())
    found = {}
    for line in lines:
        if len(line) >= 2 and line[-2] in "TU": found.setdefault(line[-2], set()).add(line[-1].partition("@")[0])
    return found

def one_object(folder, *archives):
    """All objects of the archives as one, of which the calls alone are seen."""
    whole = folder / "dnsreplay.o"
    done("ld", "-r", "-o", whole, "--whole-archive", *archives)
    done("objcopy", *(f"--keep-global-symbol={call}" for call in CALLS), whole)
    found = symbols(whole)
    check(found.get("T") == set(CALLS), f"the object has {sorted(found.get('T', ()))}")
    check(found.get("U", set()) <= TAKEN, f"the object wants {sorted(found['U'] - TAKEN)}")
    check(whole.stat().st_size <= MOST_OCTETS, f"the object has {whole.stat().st_size:,} octets")
    return whole

def shared(whole, path, version):
    script = whole.with_name("calls.map")
    script.write_text("{ global: " + " ".join(f"{call};" for call in CALLS) + " local: *; };\n")
    name = f"libdnsreplay.so.{version}"
    options = f"-Wl,-soname,{name},--gc-sections,-z,relro,-z,now,--version-script={script}"
    done("cc", "-shared", "-nostartfiles", options, "-s", "-o", path / name, whole)
    found = symbols(path / name, "-D")
    check(found.get("T") == set(CALLS), f"{name} has {sorted(found.get('T', ()))}")
    link = path / "libdnsreplay.so"
    link.unlink(missing_ok=True)
    link.symlink_to(name)

# ---- the man page, which is the header's text

COMMENT = re.compile(r"/\*(.*?)\*/\s*([^\n]*(?:\n {8,}[^\n]*)*)", re.S)

def comments(text):
    """The comments of the header, each with the lines that follow it."""
    for found in COMMENT.finditer(text):
        yield re.sub(r"\n\s*\* ?", "\n", found[1]).strip(), found[2]

def roff(text):
    """Lines of a page: names of the calls in bold, what stands between backquotes in italics."""
    escaped = text.replace("\\", "\\e").replace("-", "\\-")
    escaped = re.sub(r"`([^`]+)`", r"\\fI\1\\fP", escaped)
    return filled(re.sub(r"\b(dnsreplay_(?!counts)[a-z]+)(\(\))?(?!\()", r"\\fB\1\\fP()", escaped))

def verbatim(text): return "\n".join((".PP", ".EX", text.replace("\\", "\\e").replace("-", "\\-"), ".EE"))

def synopsis(calls, structs):
    return [".nf", ".B #include <dnsreplay.h>", ".fi", *map(verbatim, (*structs, *(after for _, after in calls)))]

def codes(text):
    """Each code of the header, with its comment."""
    for said, code, number in re.findall(r"\t/\* ([^/]*) \*/\n\t(DNSREPLAY_\w+) = (-?\d+)", text):
        yield from (".TP", f".BR {code} \" ({roff(number)})\"", roff(said))

def man_page(text, date):
    """Sections by the words in capitals of the header's first comment; then calls and codes, each with its comment."""
    (first, _), *rest = comments(text)
    summary, *parts = first.split("\n\n")
    calls = [each for each in rest if re.match(r"[\w ]+\*?dnsreplay_\w+\(", each[1])]
    structs = re.findall(r"typedef struct.*?\n} \w+;", text.replace("\t", "    "), re.S)
    page = [f'.TH DNSREPLAY 3 {date} "dnsreplay {version_of(text)}" "Library Functions Manual"', ".SH NAME"]
    page += [roff("dnsreplay - " + summary.partition(": ")[2].rstrip("."))]
    page += [".SH LIBRARY", roff("The library libdnsreplay, -ldnsreplay"), ".SH SYNOPSIS", *synopsis(calls, structs), ".SH DESCRIPTION"]
    example = []
    for part in parts:
        title = re.match(r"([A-Z][A-Z, ]+)\. ", part)
        if part.startswith("    "): example.append(part)
        elif title: page += [f'.SS "{title[1].capitalize()}"', roff(part[title.end():])]
        else: page += [".PP", roff(part)]
    page += ['.SS "The calls"']
    for said, after in calls: page += [".TP", f".BR {re.search(r'dnsreplay_[a-z]+', after)[0]} ()", roff(said)]
    said = next(said for said, after in rest if after.startswith("enum"))
    page += ['.SH "RETURN VALUE"', roff(said), *codes(text), ".SH EXAMPLES", verbatim("\n\n".join(example))]
    page += [".SH SEE ALSO", '.BR pkg\\-config " (1), RFC 8198"', ""]
    return re.sub(r"(\n\.SH [^\n]*)\n\.PP\b", r"\1", "\n".join(page))

def version_of(text):
    found = re.search(r"#define DNSREPLAY_VERSION (\d+)", text)
    if not found: raise Fault(f"{HEADER} tells no version")
    return found[1]

def install(archive, folder):
    runs.need("gcc binutils", "cc", "ld", "objcopy", "nm", "ar")
    text = HEADER.read_text()
    version = version_of(text)
    include, library, modules = folder / "include", folder / "lib", folder / "share" / "dnsreplay" / "kres_modules"
    pages, configs = folder / "share" / "man" / "man3", folder / "lib" / "pkgconfig"
    for each in (include, library, modules, pages, configs): each.mkdir(parents=True, exist_ok=True)
    with tempfile.TemporaryDirectory() as scratch:
        whole = one_object(Path(scratch), archive, kit_archive())
        static = library / "libdnsreplay.a"
        static.unlink(missing_ok=True)
        done("ar", "rcsD", static, whole)
        shared(whole, library, version)
        size = whole.stat().st_size
    shutil.copy(HEADER, include)
    shutil.copy(MODULE, modules)
    (configs / "dnsreplay.pc").write_text(pkg_config(version, "${pcfiledir}/../..", "${prefix}/lib"))
    (pages / "dnsreplay.3").write_text(man_page(text, runs.date(runs.moment())))
    for call in CALLS: (pages / f"{call}.3").write_text(".so man3/dnsreplay.3\n")
    return size

def run(args):
    size = install(args.archive or built_archive(), args.folder)
    print(f"{args.folder}: dnsreplay {version_of(HEADER.read_text())}, an object of {size:,} octets")
