"""Puts a page together: one file that opens without a network."""

import html
import json
from pathlib import Path

from chordsim_tools.cli import Failure
from chordsim_tools.files import reason, write_whole
from chordsim_tools.trace.page.data import page_data
from chordsim_tools.trace.reading import Run

HERE = Path(__file__).resolve().parent
D3 = Path("/usr/share/nodejs/d3/dist/d3.min.js")
PACKAGE = "node-d3"
SCRIPTS = ("run.js", "labels.js", "ring.js", "timeline.js", "panel.js", "main.js")


def d3_text() -> str:
    """The library D3, of Debian's package."""
    try:
        return D3.read_text(encoding="utf-8")
    except OSError as fault:
        why = f"cannot read {D3}: {reason(fault)}"
        raise Failure(3, f"the page needs the library D3 ({why}): apt-get install {PACKAGE}") from None


def page_text(run: Run, scenario: str, groups: list[str] | None = None) -> str:
    """The page. Nodes are of the groups that are given, in their order, or of those of their names."""
    library = d3_text()
    data = json.dumps(page_data(run, scenario, groups), separators=(",", ":"))
    parts = {
        "TITLE": html.escape(Path(scenario).name),
        "STYLE": (HERE / "page.css").read_text(encoding="utf-8"),
        # A text within a script may not end it.
        "D3": library.replace("</script", "<\\/script"),
        "DATA": data.replace("<", "\\u003c"),
        "SCRIPT": "\n".join((HERE / name).read_text(encoding="utf-8") for name in SCRIPTS),
    }
    pieces = (HERE / "page.html").read_text(encoding="utf-8").split("@@")
    return "".join(parts[piece] if number % 2 else piece for number, piece in enumerate(pieces))


def write_page(name: str, run: Run, scenario: str, groups: list[str] | None = None) -> None:
    """Writes the page to a file."""
    write_whole(name, page_text(run, scenario, groups))
