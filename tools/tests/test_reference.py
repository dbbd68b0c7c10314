"""The command tools/reference: the files that it writes, and standard output that takes only a part."""

import os
import subprocess
import tempfile
from pathlib import Path
from unittest import TestCase

from chordsim_tools.reference.command import main
from tests.support.programs import ended
from tests.support.worlds import EXAMPLES

TOOL = Path(__file__).resolve().parents[1] / "reference"
RING = EXAMPLES / "ring.toml"


class ReferenceTest(TestCase):
    """A ring of three nodes and one lookup."""

    def test_files_that_are_read(self) -> None:
        """The trace is not written over the scenario or the latency file, by a link either; status 2."""
        with tempfile.TemporaryDirectory() as name:
            scenario, latency, link = (Path(name) / file for file in ("ring.toml", "links.csv", "link"))
            scenario.write_bytes(RING.read_bytes())
            latency.write_text("n0,n1,15\n")
            link.symlink_to("ring.toml")
            for file in (scenario, latency, link):
                with self.subTest(file=file.name):
                    line = f"tools/reference: --trace: {file} is a file that is read (see tools/reference --help)\n"
                    assert ended(main, str(scenario), str(latency), "--trace", str(file)) == (2, "", line)
            assert scenario.read_bytes() == RING.read_bytes() and latency.read_text() == "n0,n1,15\n"

    def test_output_that_is_cut_or_closed(self) -> None:
        """A full disk, a file of 512 or 1024 bytes and a closed stream, buffered or not: `4 Write` and status 3."""
        with tempfile.TemporaryDirectory() as folder:
            for unbuffered in ("", "1"):
                for line in (
                    f"exec {TOOL} {RING} > /dev/full", f"exec {TOOL} {RING} --report --messages > /dev/full",
                    f"exec {TOOL} {RING} --compare /dev/null > /dev/full", f"exec {TOOL} {RING} >&-",
                    f"ulimit -f 1; exec {TOOL} {EXAMPLES / 'detail16.toml'} > {folder}/out",
                ):
                    with self.subTest(line=line, PYTHONUNBUFFERED=unbuffered):
                        environment = os.environ | {"PYTHONUNBUFFERED": unbuffered}
                        done = subprocess.run(
                            ["sh", "-c", line], env=environment, stderr=subprocess.PIPE, text=True, check=False
                        )
                        assert (done.returncode, done.stderr) == (3, "failed: 4 Write\n")
