"""Tables of studies for tests."""

import re
from typing import Any

from chordsim_tools.study.tables import Tables

ROW = {
    "events": 12_000, "ringless": 0, "judged-lookups": 1000, "judged-found": 940, "judged-lost": 10, "right": 900,
    "right-defensible": 920, "cut-by-crash": 50, "cut-by-end": 0, "all-us-p50": 500_000, "all-us-p90": 900_000,
    "all-us-p99": 2_000_000, "wanted": 1000, "wanted-1": 500, "wanted-2": 500, "right-1": 450, "right-2": 450,
    "duration-us": 100_000_000, "up-us": 1_000_000_000, "member-us": 980_000_000, "cost-member-us": 1_000_000_000,
    "cost-events": 10_000, "messages": 6_000, "messages-counted": 1, "messages-lookups": 2_000, "lost-at-us": "",
    "pieces-messages": "",
}
MANIFEST: dict[str, Any] = {
    "question": "How?", "study": "study.toml", "base": "base.toml", "generate": None, "latency": None,
    "latency_arguments": None, "seeds": [1, 2], "vary": {}, "nodes": 4, "warmup_us": 0, "cooldown_us": 0,
    "window_us": 10_000_000, "goal": None,
    "precision": None, "sizes": {}, "commands": {}, "own_churn": False, "program": {"sha256": "f00", "commit": None},
    "tool": {"version": 2, "commit": "abc"}, "sha256": {"study.toml": "bad"},
}


def row(**cells: Any) -> dict[str, str]:
    """A row of runs.csv: the varied keys and the seed, then the numbers, of which those that are given are others."""
    first = {word: value for word, value in cells.items() if word not in ROW}
    kinds = ("step", "get-state", "get-list", "ping", "notify", "step-reply", "state-reply", "list-reply", "pong")
    sent = {f"sent-{kind}": 10 for kind in kinds}
    return {word: str(value) for word, value in {**first, **ROW, **sent, **cells}.items()}


def unwrapped(page: str) -> str:
    """A page whose paragraphs and notes are one line each."""
    return re.sub(r"(?<!\n)(?<!```)\n(?: {2})?(?![\n|#! ]|- |```)", " ", page)


def table_of(page: str, heading: str) -> dict[str, dict[str, str]]:
    """The table below a heading: the cells of each setting by their headers. Settings of a world begin with it.

    The column of numbers is left out."""
    lines = page.split(f"## {heading}\n", 1)[1].split("\n## ", 1)[0].splitlines()
    headers, _, *rows = (line[2:-2].split(" | ")[1:] for line in lines if line.startswith("|"))
    found: dict[str, dict[str, str]] = {}
    world = ""
    for row_of in rows:
        if row_of[0].startswith("**"):
            world = row_of[0].strip("*") + ": "
        else:
            found[world + row_of[0]] = dict(zip(headers, row_of, strict=True))
    return found


def tables_of(rows: list[dict[str, str]], **changes: Any) -> Tables:
    """Tables with these rows, and a manifest with these changes."""
    return Tables({**MANIFEST, **changes}, rows, [])
