"""The man pages of the tools and the completions of their arguments, against the help texts; the tables of crates and
of definitions."""

import functools
import re
import shutil
import subprocess
import tempfile
from pathlib import Path
from unittest import TestCase

from chordsim_tools import __version__
from chordsim_tools.pages import definitions
from chordsim_tools.pages.crates import PAGE, crates_of, with_table
from tests.support.programs import TOOLS

TOP = Path(__file__).resolve().parents[2]
MADE = sorted([*TOP.glob("docs/chordsim-*.1"), *TOP.glob("completions/*chordsim-tools*")])
COMMANDS = ("run", "search", "merge", "plot", "report", "compare")
"""The commands of `tools/study`."""
SPECS = """\
-- What the file has.
use Rattle.std.specs.Prelude.{ℕ}

-- twice
-- the number
abbrev pub twice : ℕ → ℕ
twice n = n + n

-- Others

module _ {A : Type 0} where
  -- One number is
  -- below another
  pub record IsSmall (m : ℕ)
      (n : ℕ) : Type 0 where
    pub above : m < n
    -- and not far.
    pub below : n < 2 * m

  -- how many there are.
  unfoldable pub many : (list : List A)
      → ℕ
  many list =
      length list

  -- of this file alone
  abbrev hidden : ℕ
  hidden = 1
"""


def printed(*command: str) -> str:
    """What a command prints."""
    return subprocess.run(command, capture_output=True, text=True, check=True).stdout


@functools.cache
def options_of(*command: str) -> set[str]:
    """The options that the help of a tool lists."""
    listed = printed(str(TOP / "tools" / command[0]), *command[1:], "--help").partition("\noptions:\n")[2]
    return set(re.findall(r"^  (?:-h, )?(--?[a-z-]+)", listed.partition("\n\n")[0], re.MULTILINE))


def page_of(tool: str) -> str:
    """The man page of a tool, whose letters mean themselves. Backquotes are left out."""
    text = (TOP / "docs" / f"chordsim-{tool}.1").read_text(encoding="utf-8")
    for escape, letter in (("\\-", "-"), ("\\(aq", "'"), ("\\(ha", "^"), ("\\e", "\\")):
        text = text.replace(escape, letter)
    return re.sub(r"\\fB|\\fR|\\&|\\\(ga", "", text)


def prose_of(*command: str) -> list[str]:
    """The words of a help text but for its usage, its options and two headings, with the names of installed tools.

    Which Python draws plots is left out: an installed tool is started by one of its own."""
    text = printed(str(TOP / "tools" / command[0]), *command[1:], "--help").replace("`", "")
    before, _, after = text.replace("tools/", "chordsim-").partition("\n\n")[2].partition("\noptions:\n")
    before = before.partition("\npositional arguments:\n")[0].partition("It needs Debian's packages")[0]
    told = before + after.partition("\n\n")[2]
    return [word for word in told.split() if word not in ("examples:", "status:")]


def entries_of(text: str) -> set[str]:
    """The options that have an entry in a part of a page."""
    return set(re.findall(r'^\.TP\n\.BI? "(?:-h, )?(--?[a-z-]+)"', text, re.MULTILINE))


class PagesTest(TestCase):
    """What packaging/make-pages writes."""

    def test_files_are_those_that_are_made(self) -> None:
        """Each file is kept as it is made now."""
        with tempfile.TemporaryDirectory() as folder:
            subprocess.run([TOP / "packaging" / "make-pages", folder], check=True)
            made = {path.relative_to(folder) for path in Path(folder).glob("*/*")}
            self.assertEqual(made, {path.relative_to(TOP) for path in MADE})
            self.assertEqual(len(made), len(TOOLS) + 3)
            changed = {name for name in made if (folder / name).read_bytes() != (TOP / name).read_bytes()}
            self.assertEqual(changed, set(), "run packaging/make-pages")

    def test_table_of_crates(self) -> None:
        """It has the crates of crates.txt, and the first sentences of their pages."""
        page = (TOP / PAGE).read_text(encoding="utf-8")
        self.assertEqual(page, with_table(TOP), "run packaging/make-pages")
        self.assertLess({"des_event", "chord_ops", "chordsim"}, set(crates_of(TOP)))
        self.assertIn("| [`chord_serial`](../crates/chord_serial/README.md) | The engine that takes one event", page)

    def test_page_of_definitions(self) -> None:
        """It has each public definition of the crates."""
        page = (TOP / definitions.PAGE).read_text(encoding="utf-8")
        self.assertEqual(page, definitions.with_definitions(TOP), "run packaging/make-pages")
        start = r"^ *(?:abbrev pub|unfoldable pub|pub record|pub data) (\S+)"
        texts = [path.read_text(encoding="utf-8") for path in TOP.glob("crates/*/specs/*.antt")]
        wanted = sorted(name for text in texts for name in re.findall(start, text, re.MULTILINE))
        self.assertLess({"distance", "IsRun", "IsTeam"}, set(wanted))
        rows = re.findall(r"^\| `([^`]+)` \| (.*) \|$", page.partition(definitions.HEAD)[2], re.MULTILINE)
        self.assertEqual(sorted(name for name, _ in rows), wanted)
        self.assertEqual([name for name, meaning in rows if not meaning or meaning.startswith(";")], [])
        self.assertIn("\n| `distance` | the number of places clockwise from a to b |\n", page)

    def test_file_of_definitions(self) -> None:
        """Comments of several lines, sections, records with comments in them."""
        told = definitions.Definition
        small = told("IsSmall", "One number is below another; `below`: and not far")
        others = definitions.Part("Others", [small, told("many", "how many there are")])
        parts = definitions.parts_of(SPECS)
        self.assertEqual(parts, [definitions.Part("What the file has", [told("twice", "twice the number")]), others])
        section = definitions.section_of("some_crate", definitions.File("Small", parts))
        link = "[`specs/Small.antt`](../crates/some_crate/specs/Small.antt)"
        self.assertEqual(section.splitlines()[:3], ["### some_crate: Small", "", f"{link}: What the file has."])
        self.assertIn("\n\nOthers.\n\n| Definition | Meaning |\n|---|---|\n| `IsSmall` |", section)

    def test_options(self) -> None:
        """Each option that a help text lists has its entry in the page, and no other has."""
        self.assertLess({"-o", "--nodes", "--churn-uniform", "--version", "--help"}, options_of("generate"))
        for tool in TOOLS:
            with self.subTest(tool=tool):
                own = page_of(tool).partition("\n.SH OPTIONS\n")[2].partition("\n.SH ")[0]
                self.assertEqual(entries_of(own), options_of(tool))
        parts = re.split(r'^\.SS "(\w+)"$', page_of("study").partition("\n.SH OPTIONS\n")[0], flags=re.MULTILINE)[1:]
        self.assertEqual(tuple(parts[::2]), COMMANDS)
        for command, part in zip(parts[::2], parts[1::2], strict=True):
            with self.subTest(command=command):
                self.assertEqual(entries_of(part) | {"--help"}, options_of("study", command))

    def test_texts(self) -> None:
        """Each word of a help text is in the page."""
        self.assertIn("--stationary", prose_of("generate"))
        for command in [(tool,) for tool in TOOLS] + [("study", command) for command in COMMANDS]:
            words = set(page_of(command[0]).split())
            with self.subTest(command=command):
                self.assertEqual([word for word in prose_of(*command) if word not in words], [])

    def test_names(self) -> None:
        """No page calls a tool as in the repository."""
        for path in MADE:
            text = path.read_text(encoding="utf-8").partition("\ncomplete -o")[0]
            with self.subTest(path=path.name):
                self.assertNotIn("tools/", text)

    def test_pages_read(self) -> None:
        """`man` finds no fault, and shows the name and the examples."""
        if shutil.which("man") is None:
            self.skipTest("there is no man (apt-get install man-db)")
        for tool in TOOLS:
            command = ["man", "--warnings=all", "-l", str(TOP / "docs" / f"chordsim-{tool}.1")]
            done = subprocess.run(command, capture_output=True, text=True, check=True)
            with self.subTest(tool=tool):
                self.assertEqual(done.stderr, "")
                self.assertIn("\nNAME\n", done.stdout)
                self.assertTrue(re.search(rf"\nEXAMPLES\n +chordsim-{tool} ", done.stdout), done.stdout[:200])


class CompletionsTest(TestCase):
    """The scripts for the shells."""

    def completed(self, tool: str, *line: str) -> list[str]:
        """What bash completes the last of these arguments to."""
        script = 'source "$0"; COMP_WORDS=("$@"); COMP_CWORD=$(($# - 1)); _chordsim_tools; echo "${COMPREPLY[@]}"'
        return printed("bash", "-c", script, str(TOP / "completions" / "chordsim-tools.bash"), tool, *line).split()

    def test_bash(self) -> None:
        """Options, commands, values and files."""
        for tool in TOOLS:
            for name in (f"chordsim-{tool}", f"tools/{tool}"):
                with self.subTest(name=name):
                    self.assertEqual(set(self.completed(name, "-")), options_of(tool))
        self.assertEqual(set(self.completed("chordsim-study", "")), {*COMMANDS, "--help", "--version"})
        for command in COMMANDS:
            self.assertEqual(set(self.completed("chordsim-study", command, "-")), options_of("study", command))
        for line in (("--form", ""), ("--form", "="), ("--form", "=", "")):
            self.assertEqual(self.completed("chordsim-latency", *line), ["matrix", "lines"])
        self.assertEqual(self.completed("tools/generate", "--profile", ""), ["1", "2", "4"])
        self.assertEqual(self.completed("tools/generate", "--nodes", ""), [])
        for line in (("trace", ""), ("trace", "a", "--html", ""), ("study", "run", ""), ("latency", "--names", "")):
            self.assertEqual(self.completed(f"chordsim-{line[0]}", *line[1:-1], f"{TOP}/READ"), [f"{TOP}/README.md"])

    def test_zsh(self) -> None:
        """zsh reads the script, and the branch of each tool has its options."""
        path = TOP / "completions" / "_chordsim-tools"
        text = path.read_text(encoding="utf-8")
        for tool in set(TOOLS) - {"study"}:
            branch = text.partition(f"    chordsim-{tool})\n")[2].partition(";;")[0]
            with self.subTest(tool=tool):
                self.assertEqual(set(re.findall(r"['{,*](--?[a-z-]+)[\[}]", branch)), options_of(tool))
        if shutil.which("zsh") is None:
            self.skipTest("there is no zsh (apt-get install zsh)")
        self.assertEqual(printed("zsh", "-n", str(path)), "")

    def test_fish(self) -> None:
        """fish lists the commands, the options of one, and the values of an option."""
        if shutil.which("fish") is None:
            self.skipTest("there is no fish (apt-get install fish)")
        for line, wanted in (
            ("chordsim-study ", set(COMMANDS)),
            ("chordsim-study merge -", {"--help", "--study", "--version", "-h", "-o"}),
            ("chordsim-latency --gaps ", {"fill", "refuse"}),
            ("chordsim-trace --over", {"--over-time"}),
        ):
            script = f"source {TOP}/completions/chordsim-tools.fish; complete -C '{line}'"
            with self.subTest(line=line):
                listed = {one.partition("\t")[0] for one in printed("fish", "--no-config", "-c", script).splitlines()}
                self.assertEqual(listed, wanted)


class VersionTest(TestCase):
    """--version of each tool."""

    def test_version(self) -> None:
        """The version is that of pyproject.toml."""
        project = (TOP / "pyproject.toml").read_text(encoding="utf-8")
        self.assertIn(f'\nversion = "{__version__}"\n', project)
        for tool in TOOLS:
            self.assertEqual(printed(str(TOP / "tools" / tool), "--version"), f"tools/{tool} {__version__}\n")

    def test_full_disk(self) -> None:
        """Status 3 and one line, as for --help."""
        with open("/dev/full", "wb") as full:
            command = [str(TOP / "tools" / "study"), "--version"]
            done = subprocess.run(command, stdout=full, stderr=subprocess.PIPE, text=True, check=False)
        self.assertEqual((done.returncode, done.stderr), (3, "failed: standard output: No space left on device\n"))
