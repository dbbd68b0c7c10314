"""The help of the tools goes to standard output whole, or the tool fails."""

import os
import resource
import subprocess
import tempfile
from pathlib import Path
from unittest import TestCase

TOOLS = Path(__file__).resolve().parents[1]
HELPS = ("explain", "generate", "latency", "reference", "study", "study run", "trace")
LIMIT = 1024


def asked(line: str, more: dict[str, str], output: str, limit: int = resource.RLIM_INFINITY) -> tuple[int, str]:
    """The status of a tool whose help goes to this file, which may have a greatest size; and what it says."""
    with open(output, "wb") as file:
        done = subprocess.run(
            [str(TOOLS / line.split()[0]), *line.split()[1:], "--help"], env=os.environ | more, stdout=file,
            stderr=subprocess.PIPE, text=True, check=False,
            preexec_fn=lambda: resource.setrlimit(resource.RLIMIT_FSIZE, (limit, limit)),
        )
    return done.returncode, done.stderr


class ToolHelpTest(TestCase):
    """With a buffer, and without one as PYTHONUNBUFFERED wants it."""

    def test_full_disk(self) -> None:
        """Status 3 and one line."""
        wanted = (3, "failed: standard output: No space left on device\n")
        for line in HELPS:
            for value in ("", "1"):
                with self.subTest(line=line, unbuffered=value):
                    assert asked(line, {"PYTHONUNBUFFERED": value}, "/dev/full") == wanted

    def test_disk_with_room_for_a_part(self) -> None:
        """The help has more bytes than there is room for: status 3. With enough room it is there."""
        with tempfile.TemporaryDirectory() as name:
            for value in ("", "1"):
                more = {"PYTHONUNBUFFERED": value}
                file = Path(name) / "help"
                assert asked("study", more, str(file), LIMIT) == (3, "failed: standard output: File too large\n")
                assert asked("study", more, str(file)) == (0, "")
                text = file.read_text(encoding="utf-8")
                assert text.startswith("usage: tools/study ") and "\nstatus: 0 all was done;" in text
                assert len(text) > LIMIT

    def test_closed(self) -> None:
        """A standard output that is closed takes nothing."""
        command = [f"exec {TOOLS / 'study'} --help >&-"]
        done = subprocess.run(command, shell=True, stderr=subprocess.PIPE, text=True, check=False)
        assert (done.returncode, done.stderr) == (3, "failed: standard output: Bad file descriptor\n")
