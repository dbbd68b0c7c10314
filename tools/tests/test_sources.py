"""The sources of the program: what must not be in them."""

import re
import unittest
from pathlib import Path

CRATES = Path(__file__).resolve().parents[2] / "crates"
OF_TESTS = ("chord_examples", "chord_refusals")
"""The crates that are not part of the program."""
SOURCES = sorted(
    path for path in CRATES.glob("*/src/**/*.rt") if path.relative_to(CRATES).parts[0] not in OF_TESTS
)
LOCK = re.compile(r"\b(Mutex|RwLock|ReentrantLock|Condvar|Barrier|Once|OnceLock|LazyLock)\b|\b(try_)?lock\(")
"""A lock, or what takes one."""


class Sources(unittest.TestCase):
    """Each source of the program."""

    def test_sources_are_found(self) -> None:
        """The draws of a crew are among the sources, and a draw that takes a lock would be seen."""
        self.assertIn(CRATES / "des_crew" / "src" / "draws.rt", SOURCES)
        wrong = CRATES / "des_crew" / "must-fail" / "draw_waits_for_others.edit"
        self.assertRegex(wrong.read_text(encoding="utf-8"), LOCK)

    def test_no_locks(self) -> None:
        """No source names a lock. So no draw of a crew takes one, which no contract could say."""
        for path in SOURCES:
            with self.subTest(path=path.relative_to(CRATES)):
                self.assertNotRegex(path.read_text(encoding="utf-8"), LOCK)
