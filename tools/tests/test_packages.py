"""What packages are made of: the pages of markdown and of help texts, the completion, trees of files, and the refusal."""
import contextlib, io, shutil, subprocess, tempfile, unittest
from pathlib import Path
from unittest import mock

from dnsreplay_tools import completion, helps, pages, roff
from dnsreplay_tools.packages import deb, proved
from dnsreplay_tools.wire import Fault

PROGRAM = """\
The cache.

Usage: dnsreplay COMMAND [OPTION]..

Commands:
  replay   Answer frames
  forward  Answer clients without end,
           and ask the rest

Options, alone or behind a command:
  --help     Tell this
  --version  Tell the version
"""
FORWARD = """\
Answers clients.

Usage: dnsreplay forward --listen ADDRESS:PORT..
                         [--status FILE]

Options:
  --listen ADDRESS:PORT  Where it listens, as
                         127.0.0.1:53
  --status FILE          Where it writes
"""
REPLAY = "Reads frames.\n\nUsage: dnsreplay replay\n"
MARKDOWN = """\
# Title

First, of `a-b` and **c**.
.dotted

## Part

- one item
  goes on
- another ([rules](rules/a.md), [here](#x))

| Option | How often | Meaning |
|---|---|---|
| `--x N` | once | it's so |

## Examples

    echo 'a\\b' -c
    .x

```
shown
```
"""
WHOLE, COMMANDS = helps.read(PROGRAM), [helps.Command("replay", "Answer frames", helps.read(REPLAY))]
COMMANDS.append(helps.Command("forward", "Answer clients", helps.read(FORWARD)))

def completed(*words):
    """What bash offers for the last of the words."""
    texts = " ".join(f"'{each}'" for each in ("dnsreplay", *words))
    asked = f"compopt() {{ :; }}; COMP_WORDS=({texts}); COMP_CWORD={len(words)}; _dnsreplay; echo \"${{COMPREPLY[*]}}\""
    text = f"{completion.text(WHOLE, COMMANDS)}\n{asked}"
    return subprocess.run(["bash", "-eu", "-c", text], capture_output=True, text=True, check=True, cwd="/").stdout.split()

class Helps(unittest.TestCase):
    def test_tables(self):
        self.assertEqual(WHOLE.tables[0][1], ("forward", "Answer clients without end, and ask the rest"))
        wanted = [("--listen", "ADDRESS:PORT", "Where it listens, as 127.0.0.1:53"), ("--status", "FILE", "Where it writes")]
        self.assertEqual(helps.options(COMMANDS[1].help), wanted)
        self.assertEqual(COMMANDS[1].help.usage, "dnsreplay forward --listen ADDRESS:PORT.. [--status FILE]")
        self.assertEqual(helps.options(COMMANDS[0].help), [])

class Completion(unittest.TestCase):
    def test_words(self):
        self.assertEqual(completed("f"), ["forward"])
        self.assertEqual(completed("forward", "--"), ["--listen", "--status", "--help", "--version"])
        self.assertEqual(completed("replay", "--"), ["--help", "--version"])

    def test_values(self):
        self.assertEqual(completed("forward", "--listen", ""), [])
        self.assertEqual(completed("forward", "--status", "/et"), ["/etc"])

class Pages(unittest.TestCase):
    def test_blocks(self):
        kinds = [each.kind for each in roff.blocks(MARKDOWN)]
        self.assertEqual(kinds, ["heading", "text", "heading", "item", "item", "table", "heading", "code", "shown"])

    def test_lines(self):
        """A word at the front of a line is no request, and a link tells where it leads."""
        self.assertEqual(roff.marked(".a [rules](rules/a.md) [x](#x) `a-b`"), r"\&.a rules (rules/a.md) x \fBa\-b\fP")
        self.assertTrue(all(len(line) <= 80 for line in roff.marked("word " * 99).splitlines()))

    def test_rows(self):
        said = roff.table(["| Option | How often | Meaning |", "|---|---|---|", "| `--x N` | once | it's so |"])
        self.assertEqual(said, [".TP", r"\fB\-\-x N\fP", r"(how often: once) it\(aqs so"])

    def test_examples_come_back_as_they_were(self):
        parts = [(each.title.upper(), roff.body(each.blocks)) for each in roff.sections(MARKDOWN) if each.title]
        text = roff.page("x", 1, "2026-01-01", "x", "x", parts)
        self.assertEqual(roff.examples(text), ["echo 'a\\b' -c\n.x\n"])

    @unittest.skipUnless(shutil.which("mandoc"), "it needs mandoc")
    def test_they_have_no_faults(self):
        with mock.patch.object(helps, "of_program", return_value=(WHOLE, COMMANDS)), mock.patch.object(helps, "version", return_value="1"):
            made = [make("program", "2026-01-01") for make in (pages.of_program, pages.of_forward)]
        for text in made:
            said = subprocess.run(["mandoc", "-T", "lint"], input=text, capture_output=True, text=True, check=False)
            self.assertEqual(said.stdout, "")

class Packages(unittest.TestCase):
    def test_what_was_not_proved_is_refused(self):
        """A program without rt's stamp is none that it has proved."""
        with tempfile.TemporaryDirectory() as name:
            program = Path(name) / "dnsreplay"
            program.write_text("")
            paths = mock.patch.object(proved.runs, "BUILT", program), mock.patch.object(proved, "STAMP", Path(name) / "stamp")
            with paths[0], paths[1], mock.patch.object(proved.runs, "need_kit"), mock.patch.object(proved, "done") as asked:
                self.assertRaisesRegex(Fault, "isn't proved: run", proved.built)
                asked.assert_not_called()

    def test_what_was_proved_is_asked_again(self):
        """rt looks whether the stamp still holds."""
        with tempfile.TemporaryDirectory() as name, contextlib.ExitStack() as stack:
            for each in ("dnsreplay", "stamp", "archive"): (Path(name) / each).write_text("")
            stack.enter_context(contextlib.redirect_stderr(io.StringIO()))
            for module, word, value in (
                (proved.runs, "BUILT", Path(name) / "dnsreplay"), (proved, "STAMP", Path(name) / "stamp"),
                (proved.library, "ARCHIVE", Path(name) / "archive"), (proved.runs, "need_kit", mock.Mock()),
            ): stack.enter_context(mock.patch.object(module, word, value))  # fmt: skip
            asked, lib = (stack.enter_context(mock.patch.object(module, "done")) for module in (proved, proved.library))
            built = proved.built()
        self.assertEqual((built.program.name, built.archive.name), ("dnsreplay", "archive"))
        self.assertEqual([each.args[:2] for each in (asked.call_args, lib.call_args)], [("rt", "run"), ("rt", "lib")])

    @unittest.skipUnless(shutil.which("dpkg-deb"), "it needs dpkg-deb")
    def test_a_package(self):
        made = mock.Mock(version="1.0", moment=1_000_000_000)
        with tempfile.TemporaryDirectory() as name:
            tree = deb.Tree(Path(name) / "x")
            tree.write("/etc/x", "text\n")
            (Path(name) / "packed").mkdir()
            package = deb.Package("x", tree, "net", "short\nlong\n\nrest", {"Depends": "y (= 1)"}, {}, ("/etc/x",))
            file = deb.pack(package, made, Path(name))
            said = deb.done("dpkg-deb", "-f", file)
            listed = deb.done("dpkg-deb", "-c", file)
        self.assertIn("Depends: y (= 1)\n", said)
        self.assertTrue(said.endswith("Description: short\n long\n .\n rest\n"), said)
        self.assertIn("-rw-r--r-- root/root         5 2001-09-09 01:46 ./etc/x", listed)
