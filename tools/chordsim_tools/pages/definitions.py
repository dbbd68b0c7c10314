"""`python3 -m chordsim_tools.pages.definitions TOP`, as packaging/make-pages calls it: writes the page of definitions.

docs/definitions.md has each public definition of the crates' specs/, with the comment above it. What is above the
heading of the crates is written by hand. `rt fmt` puts an empty line between two definitions, and none inside one."""

import re
import sys
import textwrap
from collections.abc import Iterator
from dataclasses import dataclass
from pathlib import Path

from chordsim_tools.pages.crates import crates_of, purpose_of

PAGE = Path("docs") / "definitions.md"
HEAD = "## The crates\n"
WIDTH = 100
DEFINITION = re.compile(r" *(?:(?:abbrev|unfoldable) pub|pub (?:record|data)) (\S+)")
"""The other public names of specs/ are lemmas."""
MEMBER = re.compile(r" *(?:pub )?(\S+) : ")
"""A field of a record, or a constructor of data."""


@dataclass(frozen=True)
class Definition:
    """A public definition: its name, and the comment above it."""

    name: str
    meaning: str


@dataclass(frozen=True)
class Part:
    """A comment of a file that stands alone, and the definitions below it."""

    comment: str
    definitions: list[Definition]


@dataclass(frozen=True)
class File:
    """A file of specs/, named without its ending."""

    name: str
    parts: list[Part]


def comment_of(lines: list[str]) -> tuple[str, list[str]]:
    """The comment that lines begin with, without its last full stop, and the lines after it."""
    count = next((i for i, line in enumerate(lines) if not line.lstrip().startswith("--")), len(lines))
    words = " ".join(line.lstrip().removeprefix("--").strip() for line in lines[:count])
    return words.removesuffix("."), lines[count:]


def members_of(lines: list[str]) -> Iterator[str]:
    """The fields or constructors that have a comment above them, with these comments."""
    while lines:
        comment, rest = comment_of(lines)
        member = MEMBER.match(rest[0]) if rest else None
        if comment and member:
            yield f"`{member.group(1)}`: {comment}"
        lines = rest[1:]


def definition_of(comment: str, lines: list[str]) -> Definition | None:
    """The definition that these lines are below their comment, if it is public."""
    first = DEFINITION.match(lines[0])
    if first is None:
        return None
    is_type = re.match(r" *pub (record|data) ", lines[0]) is not None
    told = [comment, *(members_of(lines[1:]) if is_type else ())]
    return Definition(first.group(1), "; ".join(told))


def parts_of(text: str) -> list[Part]:
    """What the text of a file has."""
    parts: list[Part] = []
    for paragraph in re.split(r"\n{2,}", text.strip("\n")):
        comment, lines = comment_of(paragraph.splitlines())
        if lines and lines[0].lstrip().startswith("module "):
            if comment:
                parts.append(Part(comment, []))
            comment, lines = comment_of(lines[1:])
        definition = definition_of(comment, lines) if lines else None
        if definition is not None:
            parts = parts or [Part("", [])]
            parts[-1].definitions.append(definition)
        elif comment and (not lines or lines[0].startswith("use ")):
            parts.append(Part(comment, []))
    return parts


def files_of(top: Path, crate: str) -> list[File]:
    """The files of a crate that have definitions, in the order of specs/Lib.antt."""
    folder = top / "crates" / crate / "specs"
    lib = (folder / "Lib.antt").read_text(encoding="utf-8") if (folder / "Lib.antt").exists() else ""
    names = re.findall(r"^pub mod (\w+)$", lib, re.MULTILINE)
    files = [File(name, parts_of((folder / f"{name}.antt").read_text(encoding="utf-8"))) for name in names]
    return [file for file in files if any(part.definitions for part in file.parts)]


def wrapped(text: str) -> str:
    """A paragraph."""
    return textwrap.fill(text, WIDTH, break_long_words=False, break_on_hyphens=False) + "\n"


def sentence(text: str) -> str:
    """A comment as a sentence."""
    return f"{text[:1].upper()}{text[1:]}." if text else ""


def table_of(definitions: list[Definition]) -> str:
    """A table of definitions."""
    rows = [(definition.name, definition.meaning.replace("|", "\\|")) for definition in definitions]
    return "| Definition | Meaning |\n|---|---|\n" + "".join(f"| `{name}` | {meaning} |\n" for name, meaning in rows)


def section_of(crate: str, file: File) -> str:
    """The section of a file: a link to it with its first comment, and a table below each comment that stands alone."""
    link = f"[`specs/{file.name}.antt`](../crates/{crate}/specs/{file.name}.antt)"
    texts = [f"### {crate}: {file.name}\n"]
    for part in file.parts:
        told = sentence(part.comment)
        if part is file.parts[0]:
            told = f"{link}: {told}" if told else link
        texts.append(wrapped(told))
        if part.definitions:
            texts.append(table_of(part.definitions))
    return "\n".join(texts)


def contents_of(crates: dict[str, list[File]]) -> str:
    """A table with a link to each section."""
    rows = []
    for crate, files in crates.items():
        links = ", ".join(f"[{file.name}](#{crate}-{file.name.lower()})" for file in files)
        rows.append(f"| [`{crate}`](#{crate}) | {links} |\n")
    return "| Crate | Files |\n|---|---|\n" + "".join(rows)


def with_definitions(top: Path) -> str:
    """The page with the definitions as they are."""
    before, head, _ = (top / PAGE).read_text(encoding="utf-8").partition(HEAD)
    assert head, f"{PAGE} has no such heading"
    crates = {crate: files for crate in crates_of(top) if (files := files_of(top, crate))}
    parts = [before + head, contents_of(crates)]
    for crate, files in crates.items():
        purpose = f"{purpose_of(top, crate)} ([README](../crates/{crate}/README.md))."
        parts += [f"## {crate}\n", wrapped(purpose), *(section_of(crate, file) for file in files)]
    return "\n".join(parts)


if __name__ == "__main__":
    (Path(sys.argv[1]) / PAGE).write_text(with_definitions(Path(sys.argv[1])), encoding="utf-8")
