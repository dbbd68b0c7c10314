"""`python3 -m chordsim_tools.pages.crates TOP`, as packaging/make-pages calls it: writes the table of the crates.

The first paragraph of a crate's README.md is what the table in docs/architecture.md says of it. The crates are in the
order of crates.txt, each below those that it stands on."""

import re
import sys
from pathlib import Path

PAGE = Path("docs") / "architecture.md"
HEAD = "| Crate | What it does |\n|---|---|\n"
TABLE = re.compile(re.escape(HEAD) + r"(?:\|.*\n)*")


def crates_of(top: Path) -> list[str]:
    """The names of the crates."""
    lines = (top / "crates.txt").read_text(encoding="utf-8").splitlines()
    return [line.partition(":")[0].split()[0] for line in lines if line.strip() and not line.startswith("#")]


def purpose_of(top: Path, crate: str) -> str:
    """The first paragraph of the crate's README.md, on one line and without its full stop."""
    paragraphs = (top / "crates" / crate / "README.md").read_text(encoding="utf-8").split("\n\n")
    return " ".join(paragraphs[1].split()).removesuffix(".")


def row_of(top: Path, crate: str) -> str:
    """The row of a crate, which leads to its README.md."""
    return f"| [`{crate}`](../crates/{crate}/README.md) | {purpose_of(top, crate)} |\n"


def with_table(top: Path) -> str:
    """The page with the table of the crates as they are."""
    table = HEAD + "".join(row_of(top, crate) for crate in crates_of(top))
    page, count = TABLE.subn(lambda _: table, (top / PAGE).read_text(encoding="utf-8"))
    assert count == 1, f"{PAGE} has {count} such tables"
    return page


if __name__ == "__main__":
    (Path(sys.argv[1]) / PAGE).write_text(with_table(Path(sys.argv[1])), encoding="utf-8")
