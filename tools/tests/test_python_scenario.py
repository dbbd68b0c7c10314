"""Scenarios as values of Python: read, generated, changed, written and refused."""

import pickle
import tempfile
import tomllib
from collections.abc import Callable
from dataclasses import FrozenInstanceError
from pathlib import Path
from typing import Any, cast
from unittest import TestCase

from chordsim import Refused, Scenario
from chordsim_tools.generate.command import main as generate
from chordsim_tools.scenario.tables import EXTENDED
from tests.support.programs import ended, program
from tests.support.rings import IN_THE_PLANE, SETTINGS, text_of_three
from tests.support.worlds import EXAMPLES, RING

Call = Callable[[], object]
EVERYTHING = "profile = 4\nbits = 128\nseed = 1\nlatency_us = 10\n" + SETTINGS + """\
jitter_us = 1
max_events = 99_999_999_999
loss_ppm = 1
spread_us = 2
retries = 3
join_pause_us = 4
join_forever = false
check_us = 5
detail = true
list_routes = false
goes_on = false
ask_owner = false
lookup_timeouts = 6
drop_silent = false
skip_near = false
random_start = false
stabilize_jitter_us = 7
finger_jitter_us = 8
check_jitter_us = 9
clean_lists = false
join_asks = false
create_alone = true
churn = { life_min_us = 1, life_max_us = 2, down_min_us = 3, down_max_us = 4, leave_ppm = 5 }
lookups = { gap_min_us = 5, gap_max_us = 6 }
command = [{ at_us = 7, do = "join", node = "n1", via = "n1" }, { at_us = 8, do = "lookup", node = "n0", key = "f" }]
""" + IN_THE_PLANE + """\
churn = true
bootstrap = true
[[node]]
name = "n\\u0034"
id = "ff"
x_us = 1
y_us = 0x10
[[nodes]]
count = 2
prefix = "m"
initial = true
churn = true
bootstrap = true
x_us = 0
y_us = 9
height_us = 8
side_us = 7
"""
"""A scenario with each key that there is."""


def refused(call: Call) -> Refused:
    """What a call is refused for."""
    try:
        call()
    except Refused as fault:
        return fault
    raise AssertionError("it was not refused")


class ScenarioTest(TestCase):
    """What a scenario says is kept, and a change changes nothing else."""

    def test_change_keeps_all_keys(self) -> None:
        """Each key of the formats is in the text, and after a change has its value; so it is with examples."""
        tables = tomllib.loads(EVERYTHING)
        places = {"top": [tables], **{name: tables[name] for name in ("node", "nodes", "command")}}
        places |= {name: [tables[name]] for name in ("churn", "lookups")}
        for kind, keys in EXTENDED.tables.items():
            self.assertEqual({key.name for key in keys}, {name for table in places[kind] for name in table})
        examples = [path.read_text() for path in EXAMPLES.glob("*64.toml")]
        for text in (EVERYTHING, RING, *examples):
            changed = Scenario.of_text(text).with_(seed=77, max_events=None)
            wanted = {**tomllib.loads(text), "seed": 77}
            wanted.pop("max_events", None)
            self.assertEqual(tomllib.loads(changed.text), wanted)

    def test_values(self) -> None:
        """Times may have units, a table is replaced, and the scenario itself stays as it was."""
        ring = Scenario.of_text(RING, latency="n0,n1,20\n")
        changed = ring.with_(timeout_us="1.5ms", list=None, lookups={"gap_min_us": "1s", "gap_max_us": 2_000_000})
        top = tomllib.loads(changed.text)
        self.assertEqual(top["timeout_us"], 1500)
        self.assertEqual(top["lookups"], {"gap_min_us": 1_000_000, "gap_max_us": 2_000_000})
        self.assertNotIn("list", top)
        self.assertEqual((ring.text, changed.latency, str(ring)), (RING, "n0,n1,20\n", RING))
        self.assertEqual(repr(ring), "<Scenario nodes=3 commands=1 with latencies>")
        with self.assertRaises(FrozenInstanceError):
            setattr(ring, "text", "")

    def test_equality(self) -> None:
        """Equal are scenarios that say the same: order, comments and forms of numbers do not count, types do."""
        ring = Scenario.of_text(RING)
        same = Scenario.of_text("# a ring\nduration_us = 0xc8\n" + RING.replace("duration_us = 200\n", ""))
        self.assertEqual((ring, hash(ring)), (same, hash(same)))
        self.assertEqual(ring.with_(list=1).with_(list=2), ring)
        for other in (ring.with_(seed=2), Scenario.of_text(RING, "n0,n1,20\n"), ring.with_(seed=True)):
            self.assertNotEqual(ring, other)

    def test_commands(self) -> None:
        """Commands come after those of the file: of a node, of several, of a group; a wide key is a text."""
        names = ("a", "eu-0", "eu-1", "us-0")
        nodes = "".join(f'[[node]]\nname = "{name}"\ninitial = true\n' for name in names)
        ring = Scenario.of_text(text_of_three("").partition("[[node]]")[0] + nodes)
        moved = ring.lookup("a", 2**63, "1ms").crash("eu", at=20).crash(["a", "us-0"], "30us").join("a", 40, via="us-0")
        self.assertEqual(tomllib.loads(moved.text)["command"], [
            {"at_us": 1000, "do": "lookup", "node": "a", "key": "8000000000000000"},
            {"at_us": 20, "do": "crash", "node": "eu-0"}, {"at_us": 20, "do": "crash", "node": "eu-1"},
            {"at_us": 30, "do": "crash", "node": "a"}, {"at_us": 30, "do": "crash", "node": "us-0"},
            {"at_us": 40, "do": "join", "node": "a", "via": "us-0"},
        ])
        self.assertEqual(moved.nodes, names)

    def test_files(self) -> None:
        """What is read is written byte by byte: line ends, a byte order mark, bytes that are no UTF-8."""
        with tempfile.TemporaryDirectory() as folder:
            first, rows, second, others = (Path(folder) / name for name in ("a.toml", "a.csv", "b.toml", "b.csv"))
            first.write_bytes(b"\xef\xbb\xbf" + RING.replace("\n", "\r\n").encode())
            rows.write_bytes(b"n0,n\xff,20\r\n")
            ring = Scenario.read(first, latency=rows)
            ring.write(second, latency=others)
            self.assertEqual((second.read_bytes(), others.read_bytes()), (first.read_bytes(), rows.read_bytes()))
            self.assertEqual(ring.with_(seed=1), ring)
            self.assertEqual(refused(lambda: ring.write(second)).place, "latency")
            self.assertEqual(refused(lambda: Scenario.of_text(RING).write(first, latency=rows)).place, "latency")
            self.assertEqual(refused(lambda: ring.write(first, latency=first)).place, "latency")
            self.assertEqual(rows.read_bytes(), b"n0,n\xff,20\r\n")

    def test_generate(self) -> None:
        """The bytes are those of tools/generate, with all forms of options."""
        made = Scenario.generate(
            profile=4, group=["eu:3", "us:4"], lifetime="exp:10s", stationary=True, no_goes_on=False, detail=None,
            lookups=0.5, stay=0, duration="20s", crash="eu@5s", list=2,
        )
        pairs = Scenario.generate(nodes=8, list=2, churn_uniform=("20s..60s", "5s..15s"))
        with tempfile.TemporaryDirectory() as folder:
            file = Path(folder) / "a.toml"
            words = "--profile 4 --group eu:3 --group us:4 --lifetime exp:10s --stationary --lookups 0.5 --stay 0 "
            words += "--duration 20s --crash eu@5s --list 2"
            self.assertEqual(ended(generate, *words.split(), "-o", str(file))[0], 0)
            self.assertEqual(made.text, file.read_text())
            words = "--nodes 8 --list 2 --churn-uniform 20s..60s 5s..15s"
            self.assertEqual(ended(generate, *words.split(), "-o", str(file))[0], 0)
            self.assertEqual(pairs.text, file.read_text())
            self.assertEqual(Scenario.generate(nodes=8, list=2, churn_uniform="20s..60s 5s..15s"), pairs)

    def test_refused_arguments(self) -> None:
        """Each names the argument, and the remedy if there is one."""
        ring = Scenario.of_text(RING)
        calls: list[tuple[Call, str, str | None]] = [
            (lambda: Scenario.generate(node=4), "node", "did you mean `nodes`?"),
            (lambda: Scenario.generate(join_pause="5s"), "join_pause", None),
            (lambda: Scenario.generate(nodes=True), "nodes", None),
            (lambda: Scenario.generate(nodes=[1, 2]), "nodes", None),
            (lambda: Scenario.generate(profile=4, detail="yes"), "detail", None),
            (lambda: Scenario.generate(churn_uniform="20s..60s"), "churn_uniform", None),
            (lambda: ring.with_(stabilise_us=1), "stabilise_us", "did you mean `stabilize_us`?"),
            (lambda: ring.with_(timeout_us="5 s"), "timeout_us",
             "write whole microseconds, or a text with us, ms, s, m, h or d"),
            (lambda: ring.crash("n2x", 1), "nodes", None),
            (lambda: ring.crash(["n0", "N1"], 1), "nodes", 'did you mean "n1"?'),
            (lambda: ring.crash(cast(Any, None), 1), "nodes", None),
            (lambda: ring.crash(cast(Any, [["n0"]]), 1), "nodes", None),
            (lambda: ring.join("n0", 1, via="n"), "via", None),
            (lambda: ring.lookup("n0", 1, at=True), "at",
             "write whole microseconds, or a text with us, ms, s, m, h or d"),
            (lambda: Scenario.of_text("\ud800"), "text", None),
        ]
        for call, place, remedy in calls:
            fault = refused(call)
            with self.subTest(text=fault.text):
                self.assertEqual((fault.place, fault.remedy), (place, remedy))
        self.assertEqual(refused(lambda: Scenario.generate(nodes="x")).text, "nodes: a whole number, not 'x'")
        self.assertEqual(
            refused(lambda: Scenario.read("no-such.toml")).text, "cannot read no-such.toml: No such file or directory"
        )

    def test_refused_scenarios(self) -> None:
        """The fault is that of the program, with its place; a change of a text that is no TOML is refused as well."""
        program()
        ring = Scenario.of_text(RING)
        line = 1 + RING.splitlines().index("list = 2")
        fault = refused(Scenario.of_text(RING.replace("list = 2", "list = 17")).check)
        self.assertTrue(fault.text.startswith("S5 OutOfRange top list: "))
        self.assertEqual((fault.place, fault.key, fault.line, fault.column), ("top", "list", line, 8))
        self.assertEqual(fault.remedy, "profile 4 allows up to 32: write profile = 4")
        again = pickle.loads(pickle.dumps(fault))
        self.assertEqual((str(again), again.line, again.remedy), (str(fault), line, fault.remedy))
        fault = refused(ring.with_(list=None).check)
        self.assertTrue(fault.text.startswith("S3 MissingKey top list"))
        self.assertEqual((fault.place, fault.key, fault.line), ("top", "list", None))
        fault = refused(Scenario.of_text(RING, "\nn0,n1,20\nn1,n9,20\n").check)
        self.assertTrue(fault.text.startswith("S9 UnknownNode row 2"))
        self.assertEqual((fault.place, fault.key, fault.line), ("row 2", "field 2", 3))
        broken = Scenario.of_text("profile = 4\nlist =\n")
        for call in (broken.check, lambda: broken.with_(seed=1)):
            fault = refused(call)
            self.assertEqual((fault.text.split(":")[0], fault.line), ("S1 NotToml", 2))
        ring.check()

    def test_traps(self) -> None:
        """A timeout below the greatest round trip is a trap, as docs/tools.md says; the example has none."""
        program()
        ring = Scenario.of_text(RING)
        [trap] = ring.with_(timeout_us=19, stabilize_us=100, finger_us=100).traps()
        self.assertIn("timeout_us = 19", trap)
        self.assertIn("is below the greatest round trip, 20", trap)
        with self.assertRaises(Refused):
            ring.with_(list=17).traps()
