"""Pages of man(7) from the markdown of docs/: headings, paragraphs, lists, tables, text as it stands, and marks in lines."""
import itertools, re, textwrap
from collections import namedtuple

# its kind, and of a heading its level; the lines of it, of a table its cells
Block = namedtuple("Block", "kind level lines")
Section = namedtuple("Section", "title blocks")
FENCE, ITEM, NUMBERED, AS_IT_STANDS = "```", "- ", re.compile(r"\d+\. "), "    "
WIDTH = 78

# ---- blocks

def kind_of(line):
    if line.startswith(AS_IT_STANDS): return "code"
    if line.startswith("#"): return "heading"
    if line.startswith("|"): return "table"
    if line.startswith(ITEM) or NUMBERED.match(line): return "item"
    return "text"

def blocks(text):
    """The blocks of a markdown text. A paragraph or an item goes on until a line that is empty or begins another."""
    made, lines = [], iter(text.splitlines())
    was = ""
    for line in lines:
        if line.startswith(FENCE):
            made.append(Block("shown", 0, list(itertools.takewhile(lambda each: not each.startswith(FENCE), lines))))
            was = ""
            continue
        kind = kind_of(line) if line.strip() else ""
        if kind == "code" and was == "item": kind = "text"
        goes_on = kind == was != "heading" and kind != "item" or kind == "text" and was == "item"
        if kind and goes_on: made[-1].lines.append(line)
        elif kind: made.append(Block(kind, len(line) - len(line.lstrip("#")), [line]))
        was = "item" if goes_on and was == "item" else kind
    return made

def sections(text, level=2):
    """The parts of a text by its headings of a level; what stands before the first has no title."""
    parts = [Section("", [])]
    for block in blocks(text):
        if block.kind == "heading" and block.level <= level: parts.append(Section(block.lines[0].lstrip("# "), []))
        else: parts[-1].blocks.append(block)
    return parts

def cells(line): return [each.strip() for each in line.strip().strip("|").split("|")]

# ---- lines

def escaped(text): return text.replace("\\", "\\e").replace("-", "\\-").replace("'", "\\(aq")

def guarded(line): return "\\&" + line if line[:1] in (".", "'") else line

def link(found):
    """A link is its text, and where that doesn't say it, the file to which it leads."""
    text, file = found[1], found[2].partition("#")[0]
    is_named = not file or file in text or file.startswith("http")
    return text if is_named else f"{text} ({file.removeprefix('../')})"

def filled(text):
    """Each sentence begins a line, and no line is long."""
    sentences = re.split(r"(?<=[a-z)][.:;?]) (?=[A-Z`\\])", text)
    lines = [line for each in sentences for line in textwrap.wrap(each, WIDTH, break_long_words=False, break_on_hyphens=False)]
    return "\n".join(map(guarded, lines))

def marked(text):
    """What stands between stars or backquotes in bold."""
    plain = re.sub(r"\[([^\]]+)\]\(([^)]+)\)", link, " ".join(text.split()))
    parts = re.split(r"(\*\*.+?\*\*|`[^`]+`)", plain)
    is_marked = lambda part: part[:1] == "`" or part.startswith("**")
    return filled("".join(f"\\fB{escaped(each.strip('*`'))}\\fP" if is_marked(each) else escaped(each) for each in parts))

def verbatim(lines, begin, end):
    cut = min((len(each) - len(each.lstrip()) for each in lines if each.strip()), default=0)
    return [".PP", ".RS 4", begin, *(guarded(escaped(each[cut:])) or "\\&" for each in lines), end, ".RE"]

def examples(text):
    """The commands that a page has below EXAMPLES; what they write, between fences in markdown, is none."""
    part = text.partition("\n.SH EXAMPLES\n")[2].partition("\n.SH ")[0]
    plain = lambda lines: lines.replace("\\&", "").replace("\\-", "-").replace("\\(aq", "'").replace("\\e", "\\")
    return [plain(each) for each in re.findall(r"^\.EX\n(.*?)^\.EE$", part, re.S | re.M)]

def term(words): return [".TP", f".B {escaped(words)}"]

# ---- a page

def row(head, line):
    """A row of a table as a term with its text; cells between them stand in parentheses behind their heads."""
    first, *middle, last = cells(line)
    notes = [f"{name.lower()}: {cell}" if name else cell for name, cell in zip(head[1:-1], middle) if cell]
    said = f"({'; '.join(notes)}) {last}" if notes else last
    return [".TP", marked(first) or "\\&", marked(said) or "\\&"]

def table(lines):
    head, _, *rows = lines
    return [line for each in rows for line in row(cells(head), each)]

def block_lines(block):
    if block.kind == "heading": return [f".SS {escaped(block.lines[0].lstrip('# '))}"]
    if block.kind == "table": return table(block.lines)
    if block.kind == "code": return verbatim(block.lines, ".EX", ".EE")
    if block.kind == "shown": return verbatim(block.lines, ".nf", ".fi")
    text = " ".join(block.lines)
    if block.kind == "text": return [".PP", marked(text)]
    number = NUMBERED.match(text)
    mark, text = (number[0].strip(), text[number.end() :]) if number else ("\\(bu", text.removeprefix(ITEM))
    return [f".IP {mark} 3", marked(text)]

def body(blocks_of):
    made = [line for each in blocks_of for line in block_lines(each)]
    return made[1:] if made[:1] == [".PP"] else made

def page(name, number, date, source, manual, parts):
    """The page of so many sections, each a title and its lines."""
    lines = [f".TH {escaped(name.upper())} {number} {date} \"{source}\" \"{manual}\""]
    for title, said in parts: lines += [f".SH {title}" if " " not in title else f'.SH "{title}"', *said]
    return "\n".join(lines) + "\n"
