"""The page of a run: its data, and what a browser shows of it."""

import base64
import importlib
import json
import re
import shutil
import subprocess
import tempfile
from array import array
from pathlib import Path
from typing import Any
from unittest import SkipTest, TestCase
from unittest.mock import patch

from chordsim_tools.cli import Refused
from chordsim_tools.scenario.reading import read_scenario
from chordsim_tools.trace.command import main
from chordsim_tools.trace.page import data, groups, writing
from chordsim_tools.trace.reading import Run, read_run
from tests.support.programs import ended, program
from tests.test_trace import SCENARIO, audit, run_of

EXAMPLES = Path(__file__).resolve().parents[2] / "examples"
BROWSER, DRIVER = Path("/usr/bin/chromium"), Path("/usr/bin/chromedriver")
LINES = (
    "10 d join a", "20 a lookup 35", "25 a timeout b", "40 d drop step a", "49 d member c",
    "50 a found 35 a hops=1 timeouts=1 us=30", "60 b busy 15", "70 b crash", audit(500, 3), audit(1000, 3),
)


def unpacked(text: str, code: str) -> list[int]:
    """The numbers of a column."""
    return list(array(code, base64.b64decode(text)))


def d3_is_there() -> None:
    """Skips a test if it is not."""
    if not writing.D3.exists():
        raise SkipTest(f"D3 is not there: apt-get install {writing.PACKAGE}")


def selenium(part: str = "") -> Any:
    """A part of Selenium's module for browsers. Tests are skipped if it or the browser is not there."""
    try:
        if BROWSER.exists() and DRIVER.exists():
            return importlib.import_module(f"selenium.webdriver{part}")
    except ImportError:
        pass
    packages = "apt-get install chromium chromium-driver python3-selenium"
    raise SkipTest(f"there is no browser to drive by this Python: {packages}, and take /usr/bin/python3")


class Data(TestCase):
    """What is embedded."""

    def test_columns(self) -> None:
        """All lines of a small run but the audits, and its lookups."""
        page = data.page_data(run_of(*LINES), "x/ring.toml")
        self.assertEqual(unpacked(page["lines"]["time"], "d"), [10, 20, 25, 40, 49, 50, 60, 70])
        self.assertEqual([page["kinds"][code] for code in unpacked(page["lines"]["kind"], "B")],
                         ["join", "lookup", "timeout", "drop step", "member", "found", "busy", "crash"])
        self.assertEqual(unpacked(page["lines"]["other"], "i"), [0, 0, 1, 0, 2, 0, 0, -1])
        self.assertEqual(unpacked(page["lookups"]["flags"], "B"), [16 + 32])
        self.assertEqual(unpacked(page["lookups"]["trueOwner"], "i"), [3])
        self.assertFalse(page["joinForever"])
        self.assertEqual((page["worst"]["wrong"], page["worst"]["counts"]), ([0], {"wrong": 1, "lost": 0}))
        self.assertEqual((page["scenario"], page["leftOut"], len(page["audits"])), ("ring.toml", [], 2))

    def test_bins(self) -> None:
        """What is at the end of a bin is in it: bins of 1 us here."""
        bins = data.page_data(run_of(*LINES), "ring.toml")["bins"]
        self.assertEqual((bins["width"], bins["count"], bins["end"]), (1, 1001, 1000))
        self.assertEqual([bins["begun"][at] for at in (19, 20, 1000)], [0, 1, 1])
        self.assertEqual([bins["found"][at] for at in (49, 50)], [0, 1])
        self.assertEqual([bins["members"][at] for at in (0, 48, 49, 69, 70)], [3, 3, 4, 4, 3])

    def test_what_is_left_out(self) -> None:
        """Changes of nodes are always there; what does not fit is named, with its count."""
        with patch.object(data, "MOST_LINES", 7):
            page = data.page_data(run_of(*LINES), "ring.toml")
        self.assertEqual(page["leftOut"], ["all 1 lines `drop`"])
        with patch.object(data, "MOST_LINES", 4), patch.object(data, "WORST", 0):
            page = data.page_data(run_of(*LINES), "ring.toml")
        self.assertEqual(page["leftOut"], ["all 1 lines `timeout`", "all 1 lines `drop`",
                                           "1 of 1 lookups and their lines (the worst ones are here)"])
        with patch.object(data, "MOST_AUDITS", 1):
            page = data.page_data(run_of(*LINES[:-2], audit(500, 3), audit(1000, 3, "dead=1 ring=0 ordered=yes")), "r")
        self.assertEqual(([one[0] for one in page["audits"]], page["leftOut"]),
                         ([1000], ["1 of 2 audits (the worst ones are here)"]))
        with patch.object(data, "MOST_CHANGES", 2):
            self.assertRaisesRegex(Exception, "3 changes of nodes", data.page_data, run_of(*LINES), "r")

    def test_text(self) -> None:
        """One file, which names no other; a scenario's name cannot break it."""
        d3_is_there()
        text = writing.page_text(run_of(*LINES), "<b>&.toml")
        self.assertNotRegex(text, r"<link|<script[^>]* src|@import|url\((?!#)")
        self.assertIn("<title>&lt;b&gt;&amp;.toml - chordsim</title>", text)
        self.assertEqual(text.count("</script"), 3)
        found = re.search(r'<script type="application/json" id="data">(.*?)</script>', text, re.DOTALL)
        self.assertEqual(found and json.loads(found.group(1))["scenario"], "<b>&.toml")

    def test_groups(self) -> None:
        """By the names of nodes, unless these make too many groups; or by a file, where a node may be in none."""
        self.assertEqual(groups.groups_by_name(["n1", "eu-0", "us-1-2", "eu-7"]), ["", "eu", "us-1", "eu"])
        self.assertEqual(groups.groups_by_name([f"h{at}-0" for at in range(13)]), [""] * 13)
        with tempfile.TemporaryDirectory() as folder:
            file = Path(folder) / "groups.csv"
            file.write_text("c, west\na,east\n\n")
            self.assertEqual(groups.read_groups(str(file), ["a", "b", "c"]), ["east", "", "west"])
            page = data.page_data(run_of(*LINES), "x.toml", ["east", "", "west", "east"])
            self.assertEqual((page["groups"], unpacked(page["group"], "i")), (["east", "", "west"], [0, 1, 2, 0]))
            none = "line 2: the scenario has no node 'e'"
            for text, told in (("a\n", "line 1 is not NODE,GROUP"), ("a,x\ne,x\n", none)):
                file.write_text(text)
                self.assertRaisesRegex(Refused, told, groups.read_groups, str(file), ["a", "b"])
        plain = data.page_data(run_of(*LINES), "x.toml")
        self.assertEqual((plain["groups"], unpacked(plain["group"], "i")), ([""], [0, 0, 0, 0]))

    def test_groups_need_a_page(self) -> None:
        """Status 2, before a file is read."""
        status, _, err = ended(main, "none.trace", "none.toml", "--groups", "none.csv")
        self.assertEqual((status, err), (2, "tools/trace: --groups: only with --html (see tools/trace --help)\n"))

    def test_amber_is_for_trouble(self) -> None:
        """Audits that are torn and nodes that are stranded have it, and nothing else has."""
        scripts = {path.name: path.read_text(encoding="utf-8") for path in writing.HERE.glob("*.js")}
        found = {name: re.findall(r".*#e09a1a.*", text) for name, text in scripts.items()}
        [audits], [states] = found.pop("timeline.js"), found.pop("ring.js")
        self.assertRegex(audits, 'torn: "#e09a1a"')
        self.assertTrue(states.endswith('"#e09a1a"];') and states.startswith("const COLOURS"))
        self.assertFalse(any(found.values()))
        self.assertEqual(re.findall(r"(--\w+): #e09a1a", (writing.HERE / "page.css").read_text()), ["--stranded"])

    def test_times(self) -> None:
        """250 steps of 4 us: in step 5, from 20 us on, a lookup of 30 us begins, too few for p99. Lost ones: none."""
        found = data.page_data(run_of(*LINES), "ring.toml")["times"]
        self.assertEqual((found["step"], len(found["p50"])), (4, 250))
        self.assertEqual([(at, one) for at, one in enumerate(found["p50"]) if one is not None], [(5, 30)])
        self.assertEqual(set(found["p99"]), {None})
        lines = [f"8 a lookup {at % 64}" for at in range(100)]
        taken = [2 + 5 * (at > 97) for at in range(100)]
        lines += [f"{8 + us} a found {at % 64} a hops=0 timeouts=0 us={us}" for at, us in enumerate(taken)]
        many = data.page_data(run_of(*lines, audit(1000, 3)), "ring.toml")["times"]
        self.assertEqual((many["p50"][2], many["p99"][2]), (2, 7))
        lost = data.page_data(run_of("8 a lookup 1", "9 a lost 1 hops=0 timeouts=9 us=1", audit(1000, 3)), "r")["times"]
        self.assertEqual(set(lost["p50"]), {None})

    def test_missing_library(self) -> None:
        """Status 3, with the package to install."""
        with tempfile.TemporaryDirectory() as folder:
            trace, scenario, page = Path(folder) / "trace", Path(folder) / "toml", Path(folder) / "page"
            trace.write_text("")
            scenario.write_text(SCENARIO)
            with patch.object(writing, "D3", Path(folder) / "none"):
                status, _, err = ended(main, str(trace), str(scenario), "--html", str(page))
            self.assertEqual((status, page.exists()), (3, False))
            self.assertRegex(err, "^failed: the page needs the library D3 .* apt-get install node-d3\n$")


class Labels(TestCase):
    """The functions of the page that need no browser, by node (which node-d3 comes with)."""

    def value_of(self, expression: str) -> Any:
        """What an expression of JavaScript is."""
        node = shutil.which("node")
        if node is None:
            raise SkipTest("there is no node: apt-get install nodejs")
        script = (writing.HERE / "labels.js").read_text(encoding="utf-8")
        command = [node, "-e", f"{script}\nconsole.log(JSON.stringify({expression}))"]
        return json.loads(subprocess.run(command, capture_output=True, text=True, check=True).stdout)

    def test_labels_are_apart(self) -> None:
        """One that would cover another is lowered below it; one beside it stays; the order of heights is kept."""
        boxes = "[{left: 0, right: 50, y: 104}, {left: 20, right: 70, y: 100}, {left: 60, right: 90, y: 101}]"
        self.assertEqual(self.value_of(f"apart({boxes}, 15)"), [115, 100, 115])
        self.assertEqual(self.value_of("apart([{left: 0, right: 9, y: 5}, {left: 9, right: 20, y: 5}], 15)"), [5, 5])
        three = "[1, 2, 3].map((y) => ({left: 0, right: 9, y}))"
        self.assertEqual(self.value_of(f"apart({three}, 10)"), [1, 11, 21])
        self.assertEqual(self.value_of("[labelBox(10, 5, 40, 2, 50), labelBox(90, 5, 40, 2, 50)]"),
                         [{"left": 17, "right": 57, "y": 5}, {"left": 43, "right": 83, "y": 5}])

    def test_names_cover_none(self) -> None:
        """The first place that is free, or none."""
        box = "({left: %d, right: %d, top: 0, bottom: 9})"
        taken = "[" + box % (0, 10) + "]"
        self.assertEqual(self.value_of(f"firstFree([{box % (5, 15)}, {box % (10, 20)}], {taken}).left"), 10)
        self.assertIsNone(self.value_of(f"firstFree([{box % (5, 15)}], {taken})"))

    def test_addresses(self) -> None:
        """Seconds, as they are written; what is none has no time."""
        self.assertEqual(self.value_of('["#t=965", "#t=0.25", "#t=", "#t=1e3", "", "#x"].map(timeOfAddress)'),
                         [965_000_000, 250_000, None, None, None, None])
        written = self.value_of("[965000000, 250000, 1].map(addressOfTime)")
        self.assertEqual(written, ["#t=965", "#t=0.25", "#t=0.000001"])

    def test_zoom(self) -> None:
        """Around a time, which stays where it is; within the run, and not below the least span; then after a time."""
        self.assertEqual(self.value_of("zoomed({from: 0, to: 100}, 2, 40, 100, 10)"), {"from": 20, "to": 70})
        self.assertEqual(self.value_of("zoomed({from: 20, to: 70}, 0.5, 20, 100, 10)"), {"from": 0, "to": 100})
        self.assertEqual(self.value_of("zoomed({from: 50, to: 100}, 0.8, 100, 100, 10)"), {"from": 37.5, "to": 100})
        self.assertEqual(self.value_of("zoomed({from: 0, to: 12}, 4, 12, 100, 10)"), {"from": 2, "to": 12})
        self.assertEqual(self.value_of("[5, 30, 95].map((time) => showing({from: 20, to: 40}, time, 100))"),
                         [{"from": 5, "to": 25}, {"from": 20, "to": 40}, {"from": 75, "to": 95}])


class Browser(TestCase):
    """The page of examples/churn64.toml in Chromium, against the lines of its trace."""

    folder: tempfile.TemporaryDirectory[str]
    browser: Any
    run_read: Run
    lines: list[str]

    @classmethod
    def setUpClass(cls) -> None:
        """The run, its page, and a browser that has opened it."""
        selenium()
        d3_is_there()
        scenario, simulator = EXAMPLES / "churn64.toml", program()
        cls.folder = tempfile.TemporaryDirectory()
        cls.addClassCleanup(cls.folder.cleanup)
        trace, page = Path(cls.folder.name) / "trace", Path(cls.folder.name) / "page.html"
        command = [str(simulator), "run", "--scenario", str(scenario), "--serial", "--trace", str(trace)]
        subprocess.run(command, capture_output=True, check=True)
        cls.lines = trace.read_text(encoding="utf-8").splitlines()
        cls.run_read = read_run(str(trace), read_scenario(scenario.read_bytes(), b""))
        writing.write_page(str(page), cls.run_read, str(scenario))
        cls.browser = started_browser()
        cls.addClassCleanup(cls.browser.quit)
        cls.browser.get(page.as_uri())

    def text_of(self, name: str) -> str:
        """The text of an element."""
        return str(self.browser.find_element("id", name).text)

    def move_to(self, step: int) -> int:
        """Moves the slider to a step, and returns the time there."""
        slider = self.browser.find_element("id", "time")
        script = "arguments[0].value = arguments[1]; arguments[0].dispatchEvent(new Event('input'))"
        self.browser.execute_script(script, slider, step)
        return step * 120_000

    def until(self, time: int, *words: str) -> list[list[str]]:
        """The fields of the lines of some kinds until a time."""
        fields = [line.split(" ") for line in self.lines]
        return [one for one in fields if int(one[0]) <= time and one[2] in words]

    def test_it_opens(self) -> None:
        """Without an error, with the title and nothing left out."""
        self.assertEqual(self.browser.title, "churn64.toml - chordsim")
        self.assertTrue(self.browser.execute_script("return document.body.dataset.ready"))
        self.assertEqual([entry for entry in self.browser.get_log("browser") if entry["level"] == "SEVERE"], [])
        self.assertEqual(self.text_of("left-out"), "")

    def test_legend(self) -> None:
        """It is beside the ring, and covers none of it."""
        script = "return ['legend', 'ring'].map((id) => document.getElementById(id).getBoundingClientRect())"
        legend, ring = self.browser.execute_script(script)
        self.assertTrue(0 < legend["width"] and legend["right"] <= ring["left"] and ring["width"] > 300, (legend, ring))

    def test_lines(self) -> None:
        """The page has all lines of the trace but the audits, letter by letter."""
        shown = self.browser.execute_script("return Array.from(run.lines.time, (_, at) => lineText(at))")
        self.assertEqual(shown, [line for line in self.lines if " audit " not in line])

    def test_counts(self) -> None:
        """At five times members, lookups, timeouts and crashes are those of the lines, and right answers the tool's."""
        words = {"begun": "lookup", "found": "found", "timeouts": "timeout", "crashes": "crash", "joined": "member"}
        answers = [one for one in self.run_read.history.lines.lookups if one.outcome == "found"]
        for step in (0, 250, 613, 1000, 137):
            time = self.move_to(step)
            changes = self.until(time, "member", "crash")
            gone = sum(1 if one[2] == "crash" else -1 for one in changes)
            right = sum(one.is_right for one in answers if one.end is not None and one.end <= time)
            with self.subTest(step=step):
                self.assertEqual(self.text_of("count-members"), str(64 - gone))
                for name, word in words.items():
                    self.assertEqual(self.text_of(f"count-{name}"), f"{len(self.until(time, word)):,}")
                self.assertEqual(self.text_of("count-right").partition(" ")[0], f"{right:,}")
                self.assertIn(f"{time / 1e6:.3f} s", self.text_of("now"))

    def test_node(self) -> None:
        """A click on n07 lists the 14 lines before the time and the 14 after it, its own and those that name it."""
        time = self.move_to(500)
        x, y = self.browser.execute_script("return pointOf(run.names.indexOf('n07'))")
        canvas = self.browser.find_element("id", "ring")
        mouse = selenium().ActionChains
        to_center = (round(x - canvas.size["width"] / 2), round(y - canvas.size["height"] / 2))
        mouse(self.browser).move_to_element_with_offset(canvas, *to_center).click().perform()
        items = self.browser.find_elements("css selector", "#node li[data-line]")
        shown = [(item.get_attribute("data-line"), "before" in item.get_attribute("class")) for item in items]
        own = [line for line in self.lines if "n07" in line.split(" ")[1:]]
        before = [line for line in own if int(line.split(" ")[0]) <= time]
        wanted = [(line, True) for line in before[-14:]] + [(line, False) for line in own[len(before):len(before) + 14]]
        self.assertEqual(shown, wanted)
        self.assertIn("n07", self.browser.find_element("css selector", "#node h3").text)

    def test_worst(self) -> None:
        """A click on the first wrong answer goes to the time of its answer."""
        self.browser.find_element("id", "show-worst").click()
        self.assertIn("Wrong answers (144)", self.text_of("worst"))
        row = self.browser.find_element("css selector", "#worst tr[data-lookup]")
        row.click()
        lookup = self.browser.execute_script("return [page.lookup, run.lookups.number[page.lookup], page.time]")
        one = self.run_read.history.lines.lookups[lookup[1] - 1]
        self.assertTrue(one.is_wrong)
        self.assertEqual(lookup[2], one.end)
        self.assertIn(self.run_read.history.names[one.true_owner], row.text)

    def test_address(self) -> None:
        """It has the time that is set, and a new address sets the time."""
        time = self.move_to(250)
        self.assertTrue(self.browser.current_url.endswith(f"#t={time // 1_000_000}"))
        self.browser.execute_script("location.hash = '#t=40.5'; readAddress()")
        self.assertEqual(self.browser.execute_script("return page.time"), 40_500_000)

    def test_time_line(self) -> None:
        """A key zooms it around the time, and another one shows the whole run; a time beyond what is shown moves it."""
        self.move_to(500)
        body = self.browser.find_element("tag name", "body")
        body.send_keys("+")
        self.assertEqual(self.browser.execute_script("return [view.from, view.to]"), [30_000_000, 90_000_000])
        self.move_to(1000)
        self.assertEqual(self.browser.execute_script("return [view.from, view.to]"), [60_000_000, 120_000_000])
        body.send_keys("0")
        self.assertEqual(self.browser.execute_script("return [view.from, view.to]"), [0, 120_000_000])

    def test_keys_and_play(self) -> None:
        """Arrows move by steps, space plays and stops."""
        self.move_to(100)
        body, keys = self.browser.find_element("tag name", "body"), selenium(".common.keys").Keys
        body.send_keys(keys.ARROW_RIGHT)
        self.assertEqual(self.browser.execute_script("return page.time"), 101 * 120_000)
        body.send_keys(keys.SHIFT, keys.ARROW_LEFT)
        self.assertEqual(self.browser.execute_script("return page.time"), 91 * 120_000)
        body.send_keys(" ")
        self.browser.execute_async_script("setTimeout(arguments[0], 400)")
        body.send_keys(" ")
        time = self.browser.execute_script("return page.time")
        self.assertGreater(time, 91 * 120_000)
        self.assertFalse(self.browser.execute_script("return page.isPlaying"))


def started_browser() -> Any:
    """Chromium without a window."""
    options = selenium().ChromeOptions()
    options.binary_location = str(BROWSER)
    window = "--window-size=1280,960"
    for word in ("--headless=new", "--no-sandbox", "--disable-gpu", "--disable-dev-shm-usage", window):
        options.add_argument(word)
    options.set_capability("goog:loggingPrefs", {"browser": "ALL"})
    return selenium().Chrome(service=selenium(".chrome.service").Service(str(DRIVER)), options=options)
