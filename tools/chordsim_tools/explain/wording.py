"""Explains each fault: where it is, what is there, what is allowed, what was likely meant."""

from collections.abc import Callable
from typing import Any

from chordsim_tools.explain import hints
from chordsim_tools.explain.files import Explanation, Files, allowed_at, in_words, integers, path_of
from chordsim_tools.explain.hints import heading_of, shown
from chordsim_tools.explain.positions import Position
from chordsim_tools.known import known
from chordsim_tools.reference.circle import Circle
from chordsim_tools.scenario.faults import Fault, Node, ident_of
from chordsim_tools.scenario.tables import BILLION, MOST_OF_PREFIX, Key, is_in_own_range

Parts = tuple[str, str, str, list[str]]
"""What is wrong, what is there, what is allowed, and what was likely meant."""


def explained(fault: Fault, files: Files) -> Explanation:
    """A fault in words."""
    parts = PARTS[fault.kind.split()[0]](fault, files)
    if fault.place.startswith("row "):
        return explanation(fault, files.latency, Position(files.row(fault.place).line), parts)
    path = path_of(fault.place)
    position = files.positions.of_key(path)
    if fault.kind == "S3 MissingKey" and fault.place == "top":
        position = Position(1, near=True)
    if fault.kind == "S2 UnknownKey":
        position = files.positions.of_key((*path, fault.key))
    elif fault.key and fault.kind != "S3 MissingKey":
        position = files.positions.of_value((*path, fault.key))
    return explanation(fault, files.scenario, position, parts)


def explanation(fault: Fault, file: str, position: Position, parts: Parts) -> Explanation:
    """The parts of an explanation together."""
    what, found, allowed, likely = parts
    line, column, near = position.line, position.column, position.near
    return Explanation(fault.text, file, line, column, near, fault.place, fault.key, what, found, allowed, likely)


def value_and_key(fault: Fault, files: Files) -> tuple[Any, Key, str, str]:
    """The value of a fault's key, the key, how the value is written, and what is allowed there."""
    place = files.place(fault.place)
    key = place.key(fault.key)
    value = place.table.get(fault.key)
    raw = files.positions.raw((*path_of(fault.place), fault.key))
    is_named = raw is None or "\n" in raw or isinstance(value, dict | list)
    written = in_words(value) if is_named else shown(known(raw))
    return value, key, written, allowed_at(key, files.document.top.usable("bits"))


def unknown_key(fault: Fault, files: Files) -> Parts:
    """S2."""
    place = files.place(fault.place)
    allowed = "the keys " + ", ".join(key.name for key in place.keys)
    likely = hints.of_profile_number(files.document.top.table.get("profile"))
    likely = likely or hints.of_unknown_key(fault.key, fault.place, place.table, files.document.profile)
    return f"`{shown(fault.key)}` is no key of {heading_of(fault.place)}", f"`{shown(fault.key)}`", allowed, likely


def missing_key(fault: Fault, files: Files) -> Parts:
    """S3."""
    _, _, _, allowed = value_and_key(fault, files)
    likely = hints.of_missing_key(fault.key, fault.place, files.place(fault.place).table, files.document.profile)
    headings = [place.name for place in files.document.places if place.name != "top" and fault.key in place.table]
    if fault.place == "top" and not likely and headings and fault.key not in ("node", "churn"):
        line = files.line(headings[0], fault.key)
        likely.append(f"it stands in {headings[0]}, {line}: put it above the first heading")
    return f"`{fault.key}` is required in {heading_of(fault.place)}, and is not there", "nothing", allowed, likely


def wrong_type(fault: Fault, files: Files) -> Parts:
    """S4."""
    value, key, written, allowed = value_and_key(fault, files)
    if key.kind in ("table", "tables"):
        written = in_words(value)
    return f"`{key.name}` has a value of another type", written, allowed, hints.of_wrong_type(value, key, written)


def out_of_range(fault: Fault, files: Files) -> Parts:
    """S5."""
    value, key, written, allowed = value_and_key(fault, files)
    table = files.place(fault.place).table
    wider = hints.of_profile(value, key, fault.place)
    if key.kind == "tables":
        what = f"there are too {'few' if len(value) < key.least else 'many'}"
        likely = wider + (hints.of_classes(value, key, table) if "nodes" in files.document.profile.tables else [])
        return what, f"{len(value)} table{'' if len(value) == 1 else 's'}", allowed, likely
    if key.among:
        return f"`{key.name}` is no such word", written, allowed, hints.of_word(value, key, fault.place)
    if key.kind == "id":
        likely = hints.of_id(value, files.document.top.usable("bits"), key.greatest)
        return f"`{key.name}` is no identifier on this circle", written, allowed, likely + wider
    if is_in_own_range(value, key) and key.name == "audit_us":
        least = -(-table["duration_us"] // 1_000_000)
        likely = [f"a run has at most 1000000 audits, so for duration_us = {table['duration_us']} {least} is the least"]
        return "there would be more than 1000000 audits", written, integers(least, BILLION), likely
    if is_in_own_range(value, key):
        other = key.name.replace("_max_", "_min_")
        likely = [f"{other} = {table[other]} stands at {files.line(fault.place, other)}"]
        return f"`{key.name}` is below `{other}`", written, integers(table[other], BILLION), likely
    return f"`{key.name}` is out of range", written, allowed, hints.of_range(value, key) + wider


def bad_name(fault: Fault, files: Files) -> Parts:
    """S6."""
    value, _, written, allowed = value_and_key(fault, files)
    if fault.key == "prefix":
        likely = hints.of_name(value, MOST_OF_PREFIX, is_prefix=True)
        return "names of nodes may not begin with this", written, allowed, likely
    return "this is not allowed as a node's name", written, allowed, hints.of_name(value, 32)


def told_in_file(node: Node) -> str:
    """A node by its number; one of a class also by its name and its class."""
    return f'{node.told} ("{node.name}" of {node.place.name})' if node.is_of_class else node.told


def more_told(fault: Fault) -> str:
    """How many further nodes of the same class have the same fault."""
    return "" if fault.count == 1 else f"; so it is with {fault.count - 1} more of {fault.place}"


def same_name(fault: Fault, files: Files) -> Parts:
    """S7."""
    first, node = known(fault.nodes)
    _, _, written, _ = value_and_key(fault, files)
    line = files.line(fault.other, first.naming)
    found = f'"{node.name}", by prefix = {written}' if node.is_of_class else written
    what = f"{told_in_file(first)} has this name already, at {line}{more_told(fault)}"
    return what, found, "a name that no other node has", []


def same_id(fault: Fault, files: Files) -> Parts:
    """S8."""
    first, node = known(fault.nodes)
    bits = files.document.top.usable("bits")
    ident = ident_of(node, Circle(bits))
    line = files.line(fault.other, "id" if "id" in first.place.table else first.naming)
    likely = [
        f"{told_in_file(one)} has no `id`: it is made of the name, the first {bits} bits of the name's SHA-1 digest"
        for one in (first, node)
        if "id" not in one.place.table
    ]
    if likely:
        an_id = "take" if node.is_of_class else "give it an `id`, or take"
        likely.append(f"{an_id} more bits, or another {'prefix' if node.is_of_class else 'name'}")
    found = f"identifier {ident} (in hexadecimal {ident:x})"
    what = f"{told_in_file(first)} has this identifier already, at {line}{more_told(fault)}"
    return what, found, "an identifier that no other node has", likely


def unknown_node(fault: Fault, files: Files) -> Parts:
    """S9."""
    if fault.place.startswith("row "):
        row = files.row(fault.place)
        name = row.fields[int(fault.key.removeprefix("field ")) - 1]
        what = f"{fault.key} of the row is no node's name"
        likely = files.meant_by(name)
        if not likely and hints.is_heading(row, files.document.numbers):
            likely = hints.of_bad_row(row, files.document.numbers)
    else:
        name = files.place(fault.place).table[fault.key]
        what = f"`{fault.key}` is no node's name"
        likely = files.meant_by(name)
    return what, in_words(name), "the name of a node", likely


def too_few_initial(_: Fault, files: Files) -> Parts:
    """S10."""
    entries = files.document.top.table["list"]
    count = len([node for node in files.document.sections if node.table.get("initial")])
    more = entries + 1 - count
    likely = [f"write initial = true at {more} more node{'s' if more > 1 else ''}"]
    if len(files.document.nodes) < entries + 1:
        likely = [f"there are only {len(files.document.nodes)} nodes: write more"]
    if count >= 2:
        likely.append(f"or list = {count - 1}")
    likely.append("profile 4 allows any number of initial nodes: write profile = 4")
    found = f"list = {entries}, and {count} node{' is' if count == 1 else 's are'} initial"
    return "too few nodes are members at the start", found, f"list + 1 = {entries + 1} initial nodes or more", likely


def time_after_end(fault: Fault, files: Files) -> Parts:
    """S11."""
    _, _, written, _ = value_and_key(fault, files)
    duration = files.document.top.table["duration_us"]
    likely = [f"duration_us = {duration} stands at {files.line('top', 'duration_us')}"]
    return "the command comes at the end of the run or after it", written, integers(0, duration - 1), likely


def bad_row(fault: Fault, files: Files) -> Parts:
    """S12."""
    row = files.row(fault.place)
    likely = hints.of_bad_row(row, files.document.numbers)
    if len(row.fields) == 3:
        allowed = f"1 to 10 digits of value 1 to {BILLION}, without sign and blanks"
        return "the third field is no latency", in_words(row.fields[2]), allowed, likely
    found = f'{len(row.fields)} field{"" if len(row.fields) == 1 else "s"}: {shown(",".join(row.fields))}'
    return "the row has not three fields", found, "name,name,microseconds", likely


def self_link(fault: Fault, files: Files) -> Parts:
    """S13."""
    if fault.place.startswith("row "):
        row = files.row(fault.place)
        return "the row names one node twice", shown(",".join(row.fields)), "two different nodes", []
    _, _, written, _ = value_and_key(fault, files)
    likely = ["profile 4 allows it, and the node makes a ring of its own then: write profile = 4"]
    return "a node joins through itself", written, "the name of another node than `node`", likely


def same_link(fault: Fault, files: Files) -> Parts:
    """S14."""
    row, first = files.row(fault.place), files.row(fault.other)
    what = f"{fault.other} names this pair already, at line {first.line}"
    likely = ["a row holds in both directions"] if row.fields[:2] == first.fields[1::-1] else []
    if row.fields[2] == first.fields[2]:
        likely.append("both say the same: take one away")
    return what, shown(",".join(row.fields)), "at most one row for each pair, in either order", likely


def below_window(fault: Fault, files: Files) -> Parts:
    """S15."""
    if fault.nodes is not None:
        return low_heights(fault, files)
    top = files.document.top.table
    pair = pair_of(fault)
    if fault.place.startswith("row "):
        what, found = f"the latency of {pair} is below `window_us`", shown(",".join(files.row(fault.place).fields))
    else:
        what = f"the latency of {pair}" + ("" if fault.count == 1 else f" and of {fault.count - 1} more pairs")
        what += " that no row names is below `window_us`"
        found = f"latency_us = {top['latency_us']}"
    allowed = f"window_us = {top['window_us']} or more"
    likely = [f"raise it, or lower `window_us` ({files.line('top', 'window_us')})"]
    if top.get("spread_us"):
        likely.append("`spread_us` does not count here: a message may come without it")
    return what, found, allowed, likely


def pair_of(fault: Fault) -> str:
    """The two nodes that S15 names."""
    return " and ".join(f'"{name}"' for name in fault.answer.split())


def low_heights(fault: Fault, files: Files) -> Parts:
    """S15 of coordinates."""
    what = f"the sum of the two least heights is below `window_us`: those of {pair_of(fault)}"
    heights = [files.place(place).table.get("height_us", 0) for place in (fault.place, fault.other)]
    found = f"height_us = {heights[0]} and height_us = {heights[1]}, together {sum(heights)}"
    allowed = f"window_us = {files.document.top.table['window_us']} or more together"
    return what, found, allowed, [f"raise them, or lower `window_us` ({files.line('top', 'window_us')})"]


def rows_and_coordinates(_: Fault, files: Files) -> Parts:
    """S16."""
    count = len(files.document.rows)
    first = next(section for section in files.document.sections if files.document.is_placed(section))
    likely = [f"run it without the latency file, or take the coordinates away, from {first.name} on"]
    what = "nodes have coordinates, and the latency file has a row"
    return what, f"{count} row{'' if count == 1 else 's'}", "no row: the coordinates give all latencies", likely


PARTS: dict[str, Callable[[Fault, Files], Parts]] = {
    "S2": unknown_key,
    "S3": missing_key,
    "S4": wrong_type,
    "S5": out_of_range,
    "S6": bad_name,
    "S7": same_name,
    "S8": same_id,
    "S9": unknown_node,
    "S10": too_few_initial,
    "S11": time_after_end,
    "S12": bad_row,
    "S13": self_link,
    "S14": same_link,
    "S15": below_window,
    "S16": rows_and_coordinates,
}
