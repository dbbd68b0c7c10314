"""The documents: their links, and the width of their lines."""

import re
import unittest
from collections.abc import Iterator
from pathlib import Path

TOP = Path(__file__).resolve().parents[2]
PAGES = sorted([*TOP.glob("*.md"), *TOP.glob("docs/*.md"), *TOP.glob("crates/*/README.md")])
WIDTH = 100


def lines_of(page: Path) -> Iterator[str]:
    """The lines of a page outside its blocks of code."""
    is_code = False
    for line in page.read_text(encoding="utf-8").splitlines():
        if line.startswith("```"):
            is_code = not is_code
        elif not is_code:
            yield line


def anchors_of(page: Path) -> set[str]:
    """The anchors of the headings of a page, as they are made from their texts."""
    headings = (line.lstrip("#").strip().lower() for line in lines_of(page) if line.startswith("#"))
    return {re.sub(r"[^\w\- ]", "", heading).replace(" ", "-") for heading in headings}


class Documents(unittest.TestCase):
    """Each page of the top folder, of docs/ and of the crates."""

    def test_pages_are_found(self) -> None:
        """README and the rules are among the pages, so that the tests below are not empty."""
        self.assertTrue({TOP / "README.md", TOP / "docs" / "rules.md"} <= set(PAGES))

    def test_width(self) -> None:
        """No line is wider, but for rows of tables and for pictures and links that cannot be broken."""
        for page in PAGES:
            for line in lines_of(page):
                if len(line) > WIDTH and " " in re.sub(r"!?\[[^]]*\]\([^)]*\)", "", line).strip():
                    with self.subTest(page=page.name, line=line):
                        self.assertTrue(line.startswith("|"))

    def test_links(self) -> None:
        """Each link leads to a file that is there, and to a heading of it."""
        for page in PAGES:
            for target in re.findall(r"\]\(([^)\s]+)\)", "\n".join(lines_of(page))):
                if "://" in target:
                    continue
                name, _, anchor = target.partition("#")
                file = (page.parent / name).resolve() if name else page
                with self.subTest(page=page.name, target=target):
                    self.assertTrue(file.exists())
                    if anchor:
                        self.assertIn(anchor, anchors_of(file))


if __name__ == "__main__":
    unittest.main()
