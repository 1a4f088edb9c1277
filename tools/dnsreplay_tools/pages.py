"""The manual pages dnsreplay(1) and dnsreplay-forward(8), made of docs/ and of what the program's `--help` tells."""
from . import helps, run as runs
from .roff import body, escaped, filled, marked, page, sections, term
from .wire import Fault

DOCS = runs.ROOT / "docs"
MANUALS = {1: "User Commands", 8: "System Manager's Manual"}
# sections of docs/FORWARD.md that are about a checkout, or go elsewhere on the page
APART = "", "Try it", "Examples"
FILES = {
    "/etc/default/dnsreplay": "the upstream and the other words of the service",
    "/lib/systemd/system/dnsreplay.service": "the service",
    "/run/dnsreplay/status.prom": "the status file of the service",
    "/usr/share/doc/dnsreplay": "the files to which these pages lead; `examples` has the board, the alerts and dnsdist.conf",
}

def parts_of(name):
    """The sections of a file of docs, by their titles."""
    return {each.title: each.blocks for each in sections((DOCS / name).read_text())}

def section(name, title):
    try:
        return body(parts_of(name)[title])
    except KeyError:
        raise Fault(f"docs/{name} has no section {title!r}") from None

def named(name, summary): return [f"{escaped(name)} \\-", filled(escaped(summary))]

def usage(help_text):
    name, *rest = help_text.usage.split()
    return [f".B {escaped(name)}", filled(escaped(" ".join(rest)))]

def rows(terms): return [line for word, said in terms for line in (*term(word), marked(said))]

def command(each):
    """A command with its usage and its options in short."""
    options = [(f"{word} {value}".strip(), said) for word, value, said in helps.options(each.help)]
    nested = [".RS", *rows(options), ".RE"] if options else []
    return [*term(each.help.usage.removeprefix("dnsreplay ")), marked(each.help.text), *nested]

def small(text): return text[:1].lower() + text[1:].rstrip(".")

def of_program(path, date):
    """dnsreplay(1): all commands; frames, statuses and examples by docs/FRAMES.md."""
    whole, commands = helps.of_program(path)
    parts = [
        ("NAME", named("dnsreplay", small(whole.text))),
        ("SYNOPSIS", usage(whole)),
        ("COMMANDS", [line for each in commands for line in command(each)]),
        ("OPTIONS", rows(whole.tables[1])),
        ("FRAMES", section("FRAMES.md", "Frames in and out")),
        ("AUDITS", section("FRAMES.md", "What an audit reads, and its line")),
        ('EXIT STATUS', section("FRAMES.md", "Statuses")),
        ("EXAMPLES", section("FRAMES.md", "Examples")),
        ("FILES", rows(FILES.items())),
        ("SEE ALSO", [".BR dnsreplay\\-forward (8),", ".BR dnsreplay (3),", "RFC 8198"]),
    ]
    return page("dnsreplay", 1, date, f"dnsreplay {helps.version(path)}", MANUALS[1], parts)

def of_forward(path, date):
    """dnsreplay-forward(8): docs/FORWARD.md."""
    _, commands = helps.of_program(path)
    forward = next(each for each in commands if each.name == "forward")
    parts = parts_of("FORWARD.md")
    title = next(each for each in parts if each and each not in APART)  # the heading of the file stands before its text
    table = next(at for at, block in enumerate(parts[title]) if block.kind == "table")
    rest = [(name.upper(), body(blocks)) for name, blocks in parts.items() if name not in (*APART, title)]
    made = [
        ("NAME", named("dnsreplay-forward", small(forward.summary))),
        ("SYNOPSIS", usage(forward.help)),
        ("DESCRIPTION", body(parts[title][:table])),
        ("OPTIONS", body(parts[title][table:])),
        *rest,
        ("EXAMPLES", section("FORWARD.md", "Examples")),
        ("FILES", rows(FILES.items())),
        ("SEE ALSO", [".BR dnsreplay (1),", "RFC 2181, RFC 5452, RFC 7766, RFC 8198, RFC 8914"]),
    ]
    return page("dnsreplay-forward", 8, date, f"dnsreplay {helps.version(path)}", MANUALS[8], made)
