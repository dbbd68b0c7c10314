"""The commands of the program: what they print and write, with which status, and what they refuse."""

import os
import subprocess
import tempfile
import unittest
from pathlib import Path
from typing import IO

from tests.support.programs import program
from tests.support.rings import ONE_HOP, THREE, WHOLE, text_of_three

REFUSED, ARGUMENTS, FAILED = 1, 2, 3
ENGINES = ("serial", "crew", "team")

RING = text_of_three(ONE_HOP)
TRACE = "100 n3 lookup 1\n120 n3 found 1 n1 hops=1 timeouts=0 us=20\n" + WHOLE
# The trace if a message takes 15 us between n0 and n3.
SLOW_TRACE = "100 n3 lookup 1\n130 n3 found 1 n1 hops=1 timeouts=0 us=30\n" + WHOLE
WORDS = (
    "events", "members", "join-failed", "crashes", "stranded", "drops", "late", "timeouts", "lookups", "found", "lost",
    "busy", "ignored", "unfinished", "hops-sum", "hops-greatest", "us-sum", "us-least", "us-median", "us-greatest",
    "audits", "ringless", "unordered", "insufficient",
)
TIMES = ("us-sum", "us-least", "us-median", "us-greatest")
NAMED = "".join(f'[[node]]\nname = "{name}"\ninitial = true\n' for name in "abc")
# The first 16 bytes of the SHA-1 digests of these names.
DIGESTS = (0x86F7E437FAA5A7FCE15D1DDCB9EAEAEA, 0xE9D71F5EE7C92D6DC9E92FFDAD17B8BD, 0x84A516841BA77A5B4648DE2CD0DFCB30)


def report(**others: int) -> str:
    """A report whose other numbers are 0."""
    numbers = {word.replace("_", "-"): number for word, number in others.items()}
    return "".join(f"{word} {numbers.get(word, 0)}\n" for word in WORDS)


# The command, the request, its reply and its timeout are the events.
REPORT = report(events=4, lookups=1, found=1, hops_sum=1, hops_greatest=1, audits=1, **dict.fromkeys(TIMES, 20))


class Commands(unittest.TestCase):
    """A folder with a scenario file, a latency file, and whatever the program writes there."""

    def setUp(self) -> None:
        """The ring of three is a.toml, and b.csv makes the way between two of its nodes longer."""
        self.program = str(program())
        folder = tempfile.TemporaryDirectory()
        self.addCleanup(folder.cleanup)
        self.folder = Path(folder.name)
        self.write("a.toml", RING)
        self.write("b.csv", "n0,n3,15\n")

    def write(self, name: str, text: str) -> None:
        """Writes a file."""
        (self.folder / name).write_text(text, encoding="utf-8")

    def read(self, name: str) -> str:
        """The text of a file."""
        return (self.folder / name).read_text(encoding="utf-8")

    def ended(self, line: str, full: bool = False) -> tuple[int, str, str]:
        """The status, and what was printed on the two streams. A full disk as the output takes nothing."""
        command = [self.program, *line.split()]
        with open("/dev/full", "wb") as disk:
            output: int | IO[bytes] = disk if full else subprocess.PIPE
            done = subprocess.run(
                command, cwd=self.folder, stdout=output, stderr=subprocess.PIPE, text=True, check=False, timeout=60
            )
        return done.returncode, done.stdout or "", done.stderr

    def test_carried_out(self) -> None:
        """Each command prints its text, and nothing on standard error."""
        for line, output in (
            ("check --scenario a.toml", "ok nodes=3 commands=1\n"),
            ("ids --latency b.csv --scenario a.toml", "n0 0\nn1 1\nn3 3\n"),
            ("run --scenario a.toml", TRACE + REPORT),
            ("run --scenario=a.toml --serial", TRACE + REPORT),
            ("run --scenario a.toml --split rr --trace c", REPORT),
            ("run --serial --workers 64 --parts 512 --split block --scenario a.toml", TRACE + REPORT),
            ("run --workers 64 --parts 512 --split block --scenario a.toml", TRACE + REPORT),
            ("run --scenario a.toml --workers 4", TRACE + REPORT),
            ("run --scenario a.toml --parts 3", TRACE + REPORT),
            ("run --scenario a.toml --engine=serial --workers 64 --parts 512", TRACE + REPORT),
            ("run --engine crew --scenario a.toml", TRACE + REPORT),
            ("run --engine crew --scenario a.toml --workers 3", TRACE + REPORT),
            ("run --scenario a.toml --engine team", TRACE + REPORT),
            ("run --scenario a.toml --engine team --workers 5 --parts 2", TRACE + REPORT),
            ("run --scenario a.toml --serial --engine team --workers 2", TRACE + REPORT),
            ("run --scenario a.toml --engine crew --serial", TRACE + REPORT),
        ):
            with self.subTest(line):
                self.assertEqual(self.ended(line), (0, output, ""))
        self.assertEqual(self.read("c"), TRACE)

    def test_names(self) -> None:
        """The identifiers of nodes that are given by their names: the first byte, or 16 bytes, of the SHA-1 digest."""
        text = RING.replace(THREE, NAMED).partition("[[command]]")[0]
        self.write("narrow.toml", text.replace("bits = 3", "bits = 8"))
        self.assertEqual(self.ended("ids --scenario narrow.toml"), (0, "a 134\nb 233\nc 132\n", ""))
        self.write("wide.toml", text.replace("profile = 1\nbits = 3", "profile = 2\nbits = 128"))
        wanted = "".join(f"{name} {digest}\n" for name, digest in zip("abc", DIGESTS, strict=True))
        self.assertEqual(self.ended("ids --scenario wide.toml"), (0, wanted, ""))

    def test_widest_identifier(self) -> None:
        """The greatest identifier of 128 bits, in the ring where n0 looks up what n1 owns."""
        text = RING.replace("profile = 1\nbits = 3", "profile = 2\nbits = 128").replace('node = "n3"', 'node = "n0"')
        self.write("wide.toml", text.replace("id = 3", f'id = "{32 * "f"}"'))
        ids = "n0 0\nn1 1\nn3 340282366920938463463374607431768211455\n"
        self.assertEqual(self.ended("ids --scenario wide.toml"), (0, ids, ""))
        trace = "100 n0 lookup 1\n100 n0 found 1 n1 hops=0 timeouts=0 us=0\n" + WHOLE
        numbers = report(events=1, lookups=1, found=1, audits=1) + "losses 0\n"
        self.assertEqual(self.ended("run --scenario wide.toml --serial"), (0, trace + numbers, ""))

    def test_latency_file(self) -> None:
        """Its rows count, by workers too. The old content of the trace's file is gone."""
        workers = "--workers 3 --parts 2 --split block"
        for plan in ("--serial", "--workers 1", *(f"--engine {engine} {workers}" for engine in ENGINES)):
            with self.subTest(plan):
                self.write("c", RING)
                self.assertEqual(self.ended(f"run --scenario a.toml --latency=b.csv --trace c {plan}")[0], 0)
                self.assertEqual(self.read("c"), SLOW_TRACE)

    def test_files_that_cannot_be_read(self) -> None:
        """The scenario file is opened first, then the latency file, and the file for the trace last."""
        for line in ("check", "ids", "run", "run --trace c"):
            both = f"{line} --scenario no.toml --latency no.csv"
            self.assertEqual(self.ended(both), (REFUSED, "", "refused: cannot read no.toml\n"), line)
            second = f"{line} --scenario a.toml --latency no.csv"
            self.assertEqual(self.ended(second), (REFUSED, "", "refused: cannot read no.csv\n"), line)
        self.assertFalse((self.folder / "c").exists())
        unmade = self.ended("run --scenario a.toml --trace no/c")
        self.assertEqual(unmade, (FAILED, "", "failed: 4 Write\n"))

    def test_files_that_are_refused(self) -> None:
        """A text that is too long, and a fault of the scenario. The file for the trace is emptied before that."""
        long = 16_777_217 * "\n"
        self.write("long.toml", long)
        self.write("long.csv", long)
        self.write("few.toml", RING.replace("initial = true", "initial = false", 1))
        for files, error in (
            ("--scenario long.toml", "too long long.toml"),
            ("--scenario a.toml --latency long.csv", "too long long.csv"),
            ("--scenario few.toml", "S10 TooFewInitial"),
        ):
            for line in ("check", "run --trace c"):
                self.write("c", RING)
                with self.subTest(line=line, files=files):
                    ended = self.ended(f"{line} {files}")
                    self.assertEqual(ended, (REFUSED, "", f"refused: {error}\n"))
                    self.assertEqual(self.read("c"), "" if "run" in line else RING)

    def test_outputs_on_a_full_disk(self) -> None:
        """An output that takes nothing fails each command."""
        runs = [f"run --engine {engine} --workers 2" for engine in ENGINES]
        for line in ("check", "ids", "run", "run --trace c", *runs):
            with self.subTest(line):
                ended = self.ended(f"{line} --scenario a.toml", full=True)
                self.assertEqual(ended, (FAILED, "", "failed: 4 Write\n"))

    def test_disks_that_are_full(self) -> None:
        """A full disk fails the run. If the run itself fails, that is what is told."""
        self.write("limited.toml", f"max_events = 1\n{RING}")
        for name, error in (("a.toml", "4 Write"), ("limited.toml", "3 TooManyEvents")):
            for engine in ENGINES:
                with self.subTest(name=name, engine=engine):
                    line = f"run --scenario {name} --trace /dev/full --engine {engine} --workers 2"
                    self.assertEqual(self.ended(line), (FAILED, "", f"failed: {error}\n"))

    def test_traces_that_name_an_input(self) -> None:
        """A trace never overwrites the files that the scenario is read from, by links to them either."""
        (self.folder / "a.link").symlink_to("a.toml")
        (self.folder / "b.second").hardlink_to(self.folder / "b.csv")
        scenario, latency = "the scenario file: a.toml", "the latency file: b.csv"
        for trace, named in (
            ("a.toml", scenario),
            ("./a.toml", scenario),
            ("a.link", scenario),
            ("b.csv", latency),
            ("b.second", latency),
        ):
            with self.subTest(trace):
                ended = self.ended(f"run --scenario a.toml --latency b.csv --trace {trace}")
                self.assertEqual(ended, (ARGUMENTS, "", f"error: --trace names {named}\n"))
        self.assertEqual((self.read("a.toml"), self.read("b.csv")), (RING, "n0,n3,15\n"))

    def test_digests_that_name_an_input(self) -> None:
        """A digest never overwrites the files that are read, by links to them either."""
        (self.folder / "a.link").symlink_to("a.toml")
        self.write("c", TRACE)
        files = "--scenario a.toml --latency b.csv --trace c"
        for digest, named in (
            ("a.link", "the scenario file: a.toml"), ("./b.csv", "the latency file: b.csv"), ("c", "the trace file: c"),
        ):
            with self.subTest(digest):
                ended = self.ended(f"judge {files} --digest {digest}")
                self.assertEqual(ended, (ARGUMENTS, "", f"error: --digest names {named}\n"))
        self.assertEqual((self.read("a.toml"), self.read("c")), (RING, TRACE))
        self.assertEqual(self.ended(f"judge {files} --digest /dev/full")[::2], (FAILED, "failed: 4 Write\n"))
        unmade = self.ended(f"judge {files} --digest no/d")
        self.assertEqual(unmade, (FAILED, "", "failed: 4 Write\n"))

    def test_edges_that_are_refused(self) -> None:
        """Edges are whole numbers in their order. They are read before any file, without a digest too."""
        told = "error: --edges has to give times in microseconds, in their order, with commas between them\n"
        for edges in ("", "1,", ",1", "2,1", "1;2", "x", "-1", "1.5", "18446744073709551616"):
            for digest in ("", "--digest d"):
                with self.subTest(edges=edges, digest=digest):
                    ended = self.ended(f"judge --scenario no.toml {digest} --edges={edges}")
                    self.assertEqual(ended, (ARGUMENTS, "", told))
        self.assertFalse((self.folder / "d").exists())
        self.write("c", TRACE)
        for edges in ("0", "7", "1,1,2", "18446744073709551615"):
            with self.subTest(edges=edges):
                line = f"judge --scenario a.toml --latency b.csv --trace c --digest d --edges {edges}"
                self.assertEqual(self.ended(line)[::2], (0, ""))

    def test_files_of_two_file_systems(self) -> None:
        """A trace is another file than the scenario's even if both have one number, in two file systems."""
        mount = "mkdir one two && mount -t tmpfs one one && mount -t tmpfs two two && cp a.toml one/ && : > two/out"
        same = 'test "$(stat -c %i one/a.toml)" = "$(stat -c %i two/out)"'
        run = '"$0" run --scenario one/a.toml --trace two/out && cat two/out one/a.toml'
        script = f"({mount} && {same}) 2> /dev/null || exit 77; {run}"
        command = ["unshare", "--mount", "sh", "-c", script, self.program]
        try:
            done = subprocess.run(command, cwd=self.folder, capture_output=True, text=True, check=False, timeout=60)
        except FileNotFoundError:
            self.skipTest("there is no unshare here")
        if done.returncode in (1, 77) and not done.stdout:
            self.skipTest("file systems cannot be mounted here")
        self.assertEqual((done.returncode, done.stdout, done.stderr), (0, REPORT + TRACE + RING, ""))

    def test_device_that_is_named_twice(self) -> None:
        """It is not emptied. Here it is the latency file, without rows, and takes the trace."""
        line = "run --scenario a.toml --latency /dev/null --trace /dev/null"
        self.assertEqual(self.ended(line), (0, REPORT, ""))

    def test_arguments_that_are_refused(self) -> None:
        """Standard error says why."""
        for line, error in (
            ("", "'chordsim' requires a subcommand but one was not provided"),
            ("walk", "unrecognized subcommand 'walk'"),
            ("--walk", "unexpected argument '--walk' found"),
            ("check", "the following required arguments were not provided:\n  --scenario <FILE>"),
            ("ids --latency b", "the following required arguments were not provided:\n  --scenario <FILE>"),
            ("run --serial", "the following required arguments were not provided:\n  --scenario <FILE>"),
            ("check --scenario a.toml --workers 2", "unexpected argument '--workers' found"),
            ("run --scenario a.toml b", "unexpected argument 'b' found"),
            ("run --scenario a.toml --serial --serial", "the argument '--serial' cannot be used multiple times"),
            ("run --scenario a.toml --scenario b", "the argument '--scenario <FILE>' cannot be used multiple times"),
            ("run --scenario a.toml --workers 0", "invalid value '0' for '--workers <COUNT>': 0 is not in 1..=64"),
            ("run --scenario a.toml --workers 65", "invalid value '65' for '--workers <COUNT>': 65 is not in 1..=64"),
            ("run --scenario a.toml --workers x", "invalid value 'x' for '--workers <COUNT>'"),
            ("run --scenario a.toml --parts 0", "invalid value '0' for '--parts <COUNT>': 0 is not in 1..=512"),
            ("run --scenario a.toml --parts 513", "invalid value '513' for '--parts <COUNT>': 513 is not in 1..=512"),
            ("run --scenario a.toml --split x", "invalid value 'x' for '--split <WAY>'"),
            ("run --scenario a.toml --engine x", "invalid value 'x' for '--engine <NAME>'"),
            ("run --scenario a.toml --serial --engine", "a value is required for '--engine <NAME>'"),
            ("ids --scenario a.toml --engine team", "unexpected argument '--engine' found"),
            ("run --scenario a.toml --serial --workers 0", "invalid value '0' for '--workers <COUNT>'"),
            ("run --scenario a.toml --trace", "a value is required for '--trace <FILE>' but none was supplied"),
        ):
            with self.subTest(line):
                status, output, told = self.ended(line)
                self.assertEqual((status, output), (ARGUMENTS, ""))
                self.assertTrue(told.startswith(f"error: {error}"), told)

    def test_argument_that_is_no_text(self) -> None:
        """Bytes that are not UTF-8."""
        done = subprocess.run([os.fsencode(self.program), b"check", b"\xff"], capture_output=True, check=False)
        error = b"error: an argument is not UTF-8 text\n"
        self.assertEqual((done.returncode, done.stdout, done.stderr), (ARGUMENTS, b"", error))

    def test_texts_that_are_asked_for(self) -> None:
        """They go to standard output, which has to take them."""
        for line, part in (
            ("--help", "\n  check "),
            ("-h", "\n  ids "),
            ("help", "\n  run "),
            ("check --help", "Usage: chordsim check "),
            ("ids --help", "Usage: chordsim ids "),
            ("run --help", "its old content is lost"),
            ("run --help", "[default: as many as workers]"),
            ("--version", "chordsim 0."),
        ):
            with self.subTest(line):
                status, output, error = self.ended(line)
                self.assertEqual((status, error), (0, ""))
                self.assertIn(part, output)
                self.assertEqual(self.ended(line, full=True), (FAILED, "", "failed: 4 Write\n"))


if __name__ == "__main__":
    unittest.main()
