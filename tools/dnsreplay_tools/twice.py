"""Lists lemmas that stand in more than one crate, by the text of what they state.

Read are the .antt files of specs/ and proofs/. Definitions are passed over: what is declared by `abbrev`, `unfoldable`,
`record` or `data`, and what gives a type, a truth value, a number, a list or an option, without an equation. Status 1
if the crate `facts` states a lemma that another crate states too.
"""
import collections, re
from pathlib import Path
from .run import ROOT

LEMMA = re.compile(r"( *)(?:opaque +)?(?:pub +)?(?:opaque +)?([^\s:(){}.,]+) : (.*)")
DEFINED = re.compile(r" *(?:pub +)?(?:abbrev|unfoldable|record|data)\b")
TYPES = re.compile(r"(Type \d+|Bool|ℕ|List .*|Option .*)$")
SPEAKING = (" : ", "≡", "↔", "≤", "<")  # what a statement of something has: a variable or a relation

def statements(text):
    """The names and statements of a file's declarations, each with lines that are further in joined to its first."""
    lines, at = text.split("\n"), 0
    while at < len(lines):
        first, at = lines[at], at + 1
        found, is_definition = LEMMA.fullmatch(first), DEFINED.match(first)
        if found or is_definition:
            start = at
            while at < len(lines) and lines[at].strip() and indent(lines[at]) > indent(first): at += 1
            if not is_definition: yield found[2], " ".join(" ".join([found[3], *lines[start:at]]).split())

def indent(line): return len(line) - len(line.lstrip())

def outcome(statement):
    """What stands behind the last arrow that is in no parentheses."""
    depth = start = 0
    for at, sign in enumerate(statement):
        depth += (sign in "({") - (sign in ")}")
        start = at + 1 if sign == "→" and not depth else start
    return statement[start:].strip()

def is_lemma(statement):
    """It speaks of something, gives no plain type, and isn't a clause of an invariant."""
    result = outcome(statement)
    speaks = any(sign in statement for sign in SPEAKING) and not statement.endswith(";")
    return speaks and ("≡" in result or not TYPES.match(result))

def places(top):
    """The places of each statement: the crate, the name and the file."""
    found = collections.defaultdict(list)
    for path in sorted(top.glob("crates/*/*/**/*.antt")):
        parts = path.relative_to(top).parts
        if parts[2] in ("specs", "proofs"):
            for name, statement in statements(path.read_text(encoding="utf-8")):
                if is_lemma(statement): found[statement].append((parts[1], name, "/".join(parts)))
    return found

def words(parser):
    parser.add_argument("folder", metavar="FOLDER", nargs="?", type=Path, default=ROOT, help="(default: this one)")

def run(args):
    several = [(statement, at) for statement, at in places(args.folder).items() if len({crate for crate, *_ in at}) > 1]
    several.sort(key=lambda each: -len(each[1]))
    print(f"{len(several)} lemmas in {sum(len(at) for _, at in several)} places")
    for statement, at in several:
        print(f"\n* {statement[:300]}")
        for _, name, file in at: print(f"    {name} {file}")
    of_facts = sum(any(crate == "facts" for crate, *_ in at) for _, at in several)
    print(f"\n{of_facts} of these are stated by facts")
    return int(of_facts > 0)
