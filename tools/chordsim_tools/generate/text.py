"""The text of the scenario that tools/generate writes."""

import shlex
import textwrap
from collections import Counter
from dataclasses import asdict, dataclass
from typing import Any

from chordsim_tools.draws import Draws
from chordsim_tools.explain.world_traps import round_told
from chordsim_tools.generate.classes import NodeClass, alone_of, churns, counted_of, place_of
from chordsim_tools.generate.commands import CRASH, JOIN, LEAVE, LOOKUP, Command
from chordsim_tools.generate.idents import of_names, seeded
from chordsim_tools.generate.plan import Plan
from chordsim_tools.scenario.coordinates import Coordinates
from chordsim_tools.scenario.reading import Churn

DOES = {CRASH: "crash", LEAVE: "leave", JOIN: "join", LOOKUP: "lookup"}


@dataclass(frozen=True)
class Made:
    """What was drawn for a plan: commands, nodes that begin as members, lines that say more of it, and identifiers.

    The nodes have these names. They are of these classes, or there are none."""

    commands: list[Command]
    initial: set[int]
    told: list[str]
    idents: dict[int, int]
    names: list[str]
    classes: list[NodeClass]


def text_of(plan: Plan, made: Made, arguments: list[str]) -> str:
    """The whole file."""
    tables = [head(plan, made, arguments), table("", plan.top)]
    if plan.churn is not None:
        tables.append(table("[churn]\n", churn_of(plan.churn)))
    if plan.lookups is not None:
        tables.append(table("[lookups]\n", asdict(plan.lookups)))
    alone = alone_of(made.classes) if plan.is_classed else range(plan.nodes)
    tables += [node_table(plan, node, made) for node in alone]
    tables += [class_table(plan, one, made) for one in counted_of(made.classes)]
    tables += [command_table(command, made.names) for command in made.commands]
    return "\n".join(tables)


def churn_of(churn: Churn) -> dict[str, int]:
    """The keys of the table [churn]. A scenario whose nodes do not leave has none of leaves."""
    return {key: value for key, value in asdict(churn).items() if key != "leave_ppm" or value > 0}


def document_of(plan: Plan, made: Made) -> dict[str, Any]:
    """As much of the scenario as its traps depend on, as the file has it."""
    nodes = [
        {
            "name": node, "initial": node in made.initial, "churn": churns(plan, node),
            "bootstrap": node < plan.bootstraps,
        }
        for node in range(plan.nodes)
    ]
    moves = [
        {"at_us": command.at_us, "do": DOES[command.do], "node": command.node}
        for command in made.commands if command.do != LOOKUP
    ]
    churn = {} if plan.churn is None else {"churn": churn_of(plan.churn)}
    return {**plan.top, **churn, "node": nodes, "command": moves}


def head(plan: Plan, made: Made, arguments: list[str]) -> str:
    """The comment at the head: the arguments, and what they made."""
    command = shlex.join(["tools/generate", *arguments])
    asked = textwrap.wrap(command, 110, break_long_words=False, break_on_hyphens=False)
    does = [do for do in DOES if do != LEAVE or plan.leaves > 0]
    counts = [f"{len([1 for command in made.commands if command.do == do])} {DOES[do]}" for do in does]
    lines = [
        "A scenario made by tools/generate. The same words make the same bytes:",
        "",
        *[f"  {line}" + (" \\" if line is not asked[-1] else "") for line in asked],
        "",
        f"Nodes: {plan.nodes}, of which {len(made.initial)} are members at the start. Commands: {', '.join(counts)}.",
        *nodes_told(plan),
        *classes_told(made.classes),
        *made.told,
        *plan.notes,
        round_told({**plan.top, "node": range(plan.nodes)}),
    ]
    return "".join(f"# {line}".rstrip() + "\n" for line in lines)


def nodes_told(plan: Plan) -> list[str]:
    """The groups, with their nodes that arrive, and how many nodes arrive in all."""
    groups = Counter(host.group for host in plan.hosts)
    come = sum(host.arrives is not None for host in plan.hosts)
    told = ", ".join(f"{name} {count}" for name, count in groups.items() if name)
    lines = [f"Groups: {told}."] if told else []
    return lines + ([f"{come} of the nodes arrive during the run, and do not return."] if come else [])


def classes_told(classes: list[NodeClass]) -> list[str]:
    """The classes, with the prefixes of their names."""
    told = ", ".join(f"{one.prefix} {one.counted}" for one in counted_of(classes))
    return [f"Classes: {told}."] if told else []


def table(heading: str, keys: dict[str, int]) -> str:
    """A table of numbers and booleans."""
    return heading + "".join(f"{key} = {str(value).lower()}\n" for key, value in keys.items())


def idents_of(plan: Plan, draws: Draws) -> dict[int, int]:
    """The identifiers that nodes have by an `id`. In classes there are none."""
    if plan.is_classed:
        return {}
    names, bits = [host.name for host in plan.hosts], plan.top["bits"]
    return of_names(names, bits, draws) if plan.are_names else seeded(names, plan.top["seed"], bits)


def node_table(plan: Plan, node: int, made: Made) -> str:
    """The table of a node."""
    lines = [f'name = "{made.names[node]}"']
    if node in made.idents:
        lines.append(f"id = {key_text(made.idents[node])}")
    lines += lines_of(plan, node, node in made.initial)
    if plan.places:
        lines += place_lines(place_of(plan, node))
    return "[[node]]\n" + "\n".join(lines) + "\n"


def class_table(plan: Plan, one: NodeClass, made: Made) -> str:
    """The table of a class."""
    first = one.nodes[0]
    lines = [f"count = {one.counted}", f'prefix = "{one.prefix}"', *lines_of(plan, first, first in made.initial)]
    if plan.places:
        lines += place_lines(plan.places[first])
    if plan.side > 0:
        lines.append(f"side_us = {plan.side}")
    return "[[nodes]]\n" + "\n".join(lines) + "\n"


def lines_of(plan: Plan, node: int, is_initial: bool) -> list[str]:
    """The lines of a node that others may have too, without its place."""
    lines = ["initial = true"] if is_initial else []
    if churns(plan, node):
        lines.append("churn = true")
    if node < plan.bootstraps:
        lines.append("bootstrap = true")
    return lines


def place_lines(place: Coordinates) -> list[str]:
    """The lines of a place."""
    return [f"{key} = {value}" for key, value in asdict(place).items()]


def command_table(command: Command, names: list[str]) -> str:
    """The table of a command."""
    lines = [f"at_us = {command.at_us}", f'do = "{DOES[command.do]}"', f'node = "{names[command.node]}"']
    if command.do == JOIN:
        lines.append(f'via = "{names[command.rest]}"')
    if command.do == LOOKUP:
        lines.append(f"key = {key_text(command.rest)}")
    return "[[command]]\n" + "\n".join(lines) + "\n"


def key_text(key: int) -> str:
    """A key or an identifier: a hexadecimal text if it has 64 bits or more, which no integer of TOML has."""
    return str(key) if key < 2**63 else f'"{key:x}"'
