"""docs/kernel.md: its excerpts are in the files of the two crates that it makes, and its outputs are those of runs."""

import re
import unittest
from pathlib import Path

TOP = Path(__file__).resolve().parents[2]
PAGE = (TOP / "docs" / "kernel.md").read_text(encoding="utf-8")
CRATES = (TOP / "crates" / "rumour_rules", TOP / "crates" / "rumour")


def sources() -> list[str]:
    """The texts of the files of the crates."""
    files = [path for crate in CRATES for part in ("src", "specs", "proofs") for path in (crate / part).rglob("*.*t")]
    return [path.read_text(encoding="utf-8") for path in files]


def blocks(kind: str) -> list[str]:
    """The blocks of code of a kind."""
    found = re.findall(r"^```(\w*)\n(.*?)^```$", PAGE, re.MULTILINE | re.DOTALL)
    return [text for tag, text in found if tag == kind]


class KernelPage(unittest.TestCase):
    """The page and the crates."""

    def test_excerpts(self) -> None:
        """Each excerpt is in one of the files; a line `..` is between two excerpts."""
        texts = sources()
        excerpts = [part for kind in ("rust", "antt") for block in blocks(kind) for part in block.split("..\n")]
        self.assertGreater(len(excerpts), 20)
        for excerpt in excerpts:
            with self.subTest(excerpt=excerpt):
                self.assertTrue(any(excerpt in text for text in texts))

    def test_files(self) -> None:
        """The lines of crates.txt, the wrong body and what the programs print are on the page as they are."""
        plain = blocks("")
        lines = (TOP / "crates.txt").read_text(encoding="utf-8").splitlines(keepends=True)
        self.assertIn("".join(line for line in lines if line.startswith("rumour")), plain)
        for file in ("rumour_rules/must-fail/both_tellings_for_one_friend.edit", "rumour/stdout", "phold/stdout"):
            with self.subTest(file=file):
                self.assertIn((TOP / "crates" / file).read_text(encoding="utf-8"), plain)

    def test_telling(self) -> None:
        """What the program prints is the rumour, computed in a few lines."""
        nodes, delay = 12, 10
        heard: set[int] = set()
        lines, pending = [], [(1, 1, 1, 0)]
        told = 0
        while pending:
            time, _, _, node = pending.pop(pending.index(min(pending)))
            told += 1
            if node not in heard:
                heard.add(node)
                lines.append(f"{time} {node}\n")
                pending += [(time + delay, 2 + node, k, (2 * node + k) % nodes) for k in (1, 2)]
        report = f"heard {len(heard)}\ntold {told}\n"
        self.assertEqual("".join(lines) + report, (CRATES[1] / "stdout").read_text(encoding="utf-8"))


if __name__ == "__main__":
    unittest.main()
