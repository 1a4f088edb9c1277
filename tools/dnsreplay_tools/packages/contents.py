"""What goes into each package, and where."""
from collections import namedtuple
from .. import completion, helps, pages, run as runs
from ..library import CALLS, HEADER, MODULE, man_page, pkg_config, version_of
from .deb import Package, Tree, documents, triplet
from .scripts import SCRIPTS

# the program, the library as a prefix, the version, and the moment of all files
Made = namedtuple("Made", "program prefix version moment")

DOCS = runs.ROOT / "docs"
SHARE, UNIT, DEFAULTS = "/usr/share", "/lib/systemd/system/dnsreplay.service", "/etc/default/dnsreplay"
DOCUMENTS = "FORWARD.md", "FRAMES.md", "LIBRARY.md", "SERVE.md", "TCP.md"
EXAMPLES = {"frames": runs.CRATE / "stdin"} | {name: DOCS / name for name in ("grafana.json", "alerts.yml", "dnsdist.conf")}

COPYRIGHT = """\
Made of the sources of dnsreplay by their own command `dnsreplay-tools packages`.

The sources name no license, and neither does the prover's kit, parts of which are linked in. So nothing here allows
anyone to hand the packages on: they are for the machines of whoever may build them.

Copyright {year} the authors of dnsreplay
"""
AS_LINKED = "the octets are those that were proved and linked: nothing is stripped or changed afterwards"
NOT_FORTIFIED = "it is compiled by a prover's compiler, which knows no fortified functions of C"

def program(made, tree):
    """dnsreplay: the program, the service, pages, completion and docs."""
    whole, commands = helps.of_program(made.program)
    date, documents_at = runs.date(made.moment), f"{SHARE}/doc/dnsreplay"
    tree.copy(made.program, "/usr/bin/dnsreplay", 0o755)
    tree.copy(DOCS / "dnsreplay.service", UNIT)
    tree.copy(DOCS / "dnsreplay.default", DEFAULTS)
    tree.packed(f"{SHARE}/man/man1/dnsreplay.1", pages.of_program(made.program, date))
    tree.packed(f"{SHARE}/man/man8/dnsreplay-forward.8", pages.of_forward(made.program, date))
    tree.write(f"{SHARE}/bash-completion/completions/dnsreplay", completion.text(whole, commands))
    for name in DOCUMENTS: tree.copy(DOCS / name, f"{documents_at}/{name}")
    for each in sorted((DOCS / "rules").glob("*.md")): tree.copy(each, f"{documents_at}/rules/{each.name}")
    for name, path in EXAMPLES.items(): tree.copy(path, f"{documents_at}/examples/{name}")

def shared(made, tree):
    """libdnsreplay1: the shared object."""
    name = f"libdnsreplay.so.{version_of(HEADER.read_text())}"
    tree.copy(made.prefix / "lib" / name, f"/usr/lib/{triplet()}/{name}")

def development(made, tree):
    """libdnsreplay-dev: header, archive, link, pkg-config file, and a page for each call."""
    text, folder = HEADER.read_text(), f"/usr/lib/{triplet()}"
    version = version_of(text)
    tree.copy(HEADER, "/usr/include/dnsreplay.h")
    tree.copy(made.prefix / "lib" / "libdnsreplay.a", f"{folder}/libdnsreplay.a")
    tree.link(f"{folder}/libdnsreplay.so", f"libdnsreplay.so.{version}")
    tree.write(f"{folder}/pkgconfig/dnsreplay.pc", pkg_config(version, "/usr", f"${{prefix}}/lib/{triplet()}"))
    tree.packed(f"{SHARE}/man/man3/dnsreplay.3", man_page(text, runs.date(made.moment)))
    for call in CALLS: tree.link(f"{SHARE}/man/man3/{call}.3.gz", "dnsreplay.3.gz")
    tree.copy(runs.ROOT / "examples" / "threads.c", f"{SHARE}/doc/libdnsreplay-dev/examples/threads.c")

def module(_, tree): tree.copy(MODULE, f"/usr/lib/{triplet()}/knot-resolver/kres_modules/dnsreplay.lua")

def packages(version):
    """Each package without its files, and what puts these there."""
    exact = f"libdnsreplay1 (= {version})"
    suggested = {"Suggests": "unbound | knot-resolver, prometheus-node-exporter, bash-completion"}
    of_library = {"triggers": "activate-noawait ldconfig\n", "shlibs": f"libdnsreplay 1 libdnsreplay1 (>= {version})\n"}
    of_module = {"Depends": f"{exact}, knot-resolver (>= 5.6), knot-resolver (<< 5.7)"}
    named = lambda name, section, **how: Package(name, None, section, ABOUT[name], **how)
    service = {"scripts": SCRIPTS, "conffiles": (DEFAULTS,), "overrides": OVERRIDES}
    yield program, named("dnsreplay", "net", fields=suggested, **service)
    yield shared, named("libdnsreplay1", "libs", fields={"Multi-Arch": "same"}, scripts=of_library)
    yield development, named("libdnsreplay-dev", "libdevel", fields={"Depends": exact, "Multi-Arch": "same"})
    yield module, named("knot-resolver-module-dnsreplay", "net", fields=of_module)

def every(made, scratch):
    """All packages, with their files in a folder each."""
    for fill, package in packages(made.version):
        whole = package._replace(tree=Tree(scratch / package.name))
        fill(made, whole.tree)
        documents(whole, made, COPYRIGHT.format(year=runs.date(made.moment)[:4]))
        yield whole

ABOUT = {
    "dnsreplay": """
aggressive answering cache before a validating DNS resolver
dnsreplay forward answers from its cache what validated denials, sets and
wildcards prove (RFC 8198), so that floods of random names don't reach the
authoritative servers, and asks a validating resolver the rest.

Its rules are contracts that a machine has checked.
""",
    "libdnsreplay1": """
aggressive answering cache of a validating DNS resolver, as a library
Seven calls over snapshots of a cache of validated answers (RFC 8198): what
the records held prove is answered at once.
""",
    "libdnsreplay-dev": """
aggressive answering cache of a validating DNS resolver, to build with
The header, the archive and the page of the seven calls of libdnsreplay1, with
an example of a host with threads.
""",
    "knot-resolver-module-dnsreplay": """
aggressive answering cache as a module of Knot Resolver
The module puts the cache of libdnsreplay1 before the resolving of Knot
Resolver: modules = { 'dnsreplay' } in kresd.conf.
""",
}
OVERRIDES = ("unstripped-binary-or-object", AS_LINKED), ("hardening-no-fortify-functions", NOT_FORTIFIED)
