"""Puts into words why a text is no TOML."""

import re

from chordsim_tools.explain.files import Explanation, line_words
from chordsim_tools.explain.hints import of_measure, shown
from chordsim_tools.explain.positions import Position, Positions
from chordsim_tools.scenario.tables import NotToml

AT = re.compile(r" \(at (?:line (\d+), column (\d+)|end of document)\)$")
WORD = re.compile(r"[A-Za-z_][A-Za-z0-9_. -]*")


def explained_toml(fault: NotToml, file: str, content: bytes) -> Explanation:
    """S1 in words: the line and column and reason of the parser, and what was likely meant."""
    text = content.decode("utf-8", "replace").removeprefix("\ufeff")
    positions = Positions(text)
    reason, position = place_of(fault, content, positions)
    line = line_of(text, position.line)
    # Only a complaint with a place of the parser's own is about what stands there.
    likely = [] if AT.search(fault.reason) is None else meant(reason, line, positions)
    return Explanation(
        str(fault), file, position.line, position.column, position.near, "", "", reason, shown(line.strip(), 100),
        allowed(fault), likely,
    )


def allowed(fault: NotToml) -> str:
    """What is allowed there."""
    if fault.literal:
        return "a number of 64 bits"
    if fault.offset is not None:
        return "a text in UTF-8"
    headings = "[churn], [lookups], [[node]], [[nodes]], [[command]]"
    return f"a TOML document: lines KEY = VALUE, headings {headings}, and # comments"


def line_of(text: str, number: int) -> str:
    """A line of the text."""
    lines = text.split("\n")
    return lines[number - 1].removesuffix("\r") if number <= len(lines) else ""


def place_of(fault: NotToml, content: bytes, positions: Positions) -> tuple[str, Position]:
    """The reason without its place, and the place."""
    found = AT.search(fault.reason)
    if found is not None and found[1] is not None:
        return fault.reason[: found.start()], Position(int(found[1]), int(found[2]))
    if fault.offset is not None:
        before = content[: fault.offset].decode("utf-8").removeprefix("\ufeff")
        return fault.reason, Position(before.count("\n") + 1, len(before) - before.rfind("\n"))
    path = positions.of_literal(fault.literal) if fault.literal else None
    if path is not None:
        return fault.reason, positions.of_value(path)
    last = Position(positions.text.rstrip().count("\n") + 1, near=True)
    return AT.sub(" at the end of the file", fault.reason), last


def meant(reason: str, line: str, positions: Positions) -> list[str]:
    """What was likely meant."""
    heading = line.split("#")[0].strip()
    name = heading.strip("[] \t")
    if heading.startswith("[") and name in ("node", "nodes", "command") and heading != f"[[{name}]]":
        table = "class of nodes" if name == "nodes" else name
        return [f"begin each {table} with the heading [[{name}]], with two brackets on each side"]
    if reason.startswith(("Cannot overwrite", "Cannot declare", "Cannot redefine", "Cannot mutate")):
        return doubled(positions)
    if heading.startswith("["):
        return ["a heading stands alone on its line: [churn], [lookups], [[node]], [[nodes]] or [[command]]"]
    key, equals, value = line.partition("=")
    if not equals and ":" in line:
        return [f"write = for the colon: {shown(line.strip().replace(':', ' =', 1))}"]
    if not equals:
        return ["a line is KEY = VALUE, a heading, or a comment that begins with #"]
    if not value.split("#")[0].strip():
        return [f"`{shown(key.strip())}` has no value"]
    return of_value(value.strip())


def doubled(positions: Positions) -> list[str]:
    """Keys and tables that stand twice."""
    hints = []
    for path, first, second in positions.twice[:5]:
        name = ".".join(str(part) for part in path if isinstance(part, str))
        lines = [line_words(positions.position(offset)) for offset in (first, second)]
        hints.append(f"`{shown(name)}` stands twice in one table: at {lines[0]} and {lines[1]}")
    return hints or ["a key or table stands twice"]


def of_value(text: str) -> list[str]:
    """What a value that is none was meant to be."""
    value = text.split("#")[0].strip().removesuffix(";").strip() if text[:1] not in "\"'" else text
    if text[:1] in "\"'":
        return [f"the text is not closed by {text[0]} on its line"] if text.count(text[0]) % 2 else []
    if value.lower() in ("true", "false"):
        return [f"in small letters: {value.lower()}"]
    if value.lower() in ("yes", "no", "on", "off"):
        return [f"write {'true' if value.lower() in ('yes', 'on') else 'false'}"]
    if re.fullmatch(r"\d{1,3}([,' .]\d{3})+", value):
        return [f"without separators or with underscores: {re.sub('[^0-9]', '', value)}"]
    if re.fullmatch(r"0[0-9]+", value):
        return [f"without leading zeros: {shown(value.lstrip('0') or '0')}"]
    if of_measure(value):
        return [f"{hint}, without a unit" for hint in of_measure(value)]
    if re.fullmatch(r"0*[0-9a-fA-F]{1,32}", value):
        return [f'hexadecimal digits stand in quotes: "{value.lower()}"']
    if WORD.fullmatch(value):
        return [f'a text stands in quotes: "{shown(value)}"']
    return []
