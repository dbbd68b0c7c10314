"""A scenario as a value: read, generated, changed and written."""

import json
import os
from collections.abc import Iterable, Iterator, Mapping, Sequence
from dataclasses import dataclass, field, replace
from functools import cached_property
from typing import Any

from chordsim.calling import Files, output_of, program, refusal
from chordsim.errors import Refused, failures_raised, refused_argument
from chordsim.generated import generated_text
from chordsim.names import Name, name_of
from chordsim_tools.cli import Refused as RefusedFile
from chordsim_tools.explain.hints import close_to, of_unknown_name
from chordsim_tools.explain.traps import events_trap, greatest_latency, traps_of
from chordsim_tools.files import check_apart, read_input, write_whole
from chordsim_tools.generate.hosts import name_of_group
from chordsim_tools.quantities import UNIT_NAMES, time_of
from chordsim_tools.scenario.classes import class_names
from chordsim_tools.scenario.tables import EXTENDED, GREATEST_SIZE, MOST_OF_CLASS, has_type, parse_toml
from chordsim_tools.study.document import toml_text

Nodes = str | Iterable[str]
"""The name of a node, that of a group, or names of nodes."""
Time = int | str
"""A time: whole microseconds, or a text with a unit, such as `12.5s`."""
Value = int | str | bool | None | Mapping[str, Any] | Sequence[Mapping[str, Any]]
"""The value of a key of the top; None takes the key away."""


@dataclass(frozen=True, eq=False, repr=False)
class Scenario:
    """A scenario and its latencies, which never change: each method that changes something returns another scenario.

    Two scenarios are equal if their files give each key the same value, and their latencies are the same text."""

    text: str
    latency: str | None = None
    origins: tuple[str, ...] = field(default=(), kw_only=True)
    """The files that it was read from. No trace is written over them."""

    def __post_init__(self) -> None:
        """Refuses texts that no file can have."""
        for name, text in (("text", self.text), ("latency", self.latency or "")):
            if not isinstance(text, str):
                raise refused_argument(name, f"a text is wanted, not {type(text).__name__}")
            try:
                bytes_of(text)
            except UnicodeEncodeError as fault:
                raise refused_argument(name, f"the character {fault.start} cannot be written in UTF-8") from None

    @classmethod
    def read(cls, path: Name, latency: Name | None = None) -> "Scenario":
        """The scenario of a scenario file, and of its latency file if one is named."""
        names = [name_of("path", path)] + ([] if latency is None else [name_of("latency", latency)])
        with failures_raised():
            # Bytes that are no UTF-8 are kept as they are, so that the program sees them.
            texts = [read_input(name, GREATEST_SIZE).decode("utf-8", "surrogateescape") for name in names]
        return cls(*texts, origins=tuple(os.path.abspath(name) for name in names))

    @classmethod
    def of_text(cls, text: str, latency: str | None = None) -> "Scenario":
        """The scenario of the text of a scenario file, and of that of a latency file if one is given."""
        return cls(text, latency)

    @classmethod
    def generate(cls, **options: Any) -> "Scenario":
        """The scenario that tools/generate makes of these options, with underscores for hyphens.

        A value is a text, a number, or True for an option without a value. An option with False or None is left out.
        An option that may be given again takes a list, and so does one of two values."""
        with failures_raised():
            return cls(generated_text(options))

    def with_(self, **keys: Value) -> "Scenario":
        """The scenario with other values of keys of the top. None takes a key away. Times may have units.

        A table or an array of tables is replaced as a whole. Comments are lost."""
        top = dict(self._top)
        for key, value in keys.items():
            if value is None:
                top.pop(key, None)
            else:
                check_key(key, top)
                top[key] = plain_value(key, value)
        return self._of_tables(top)

    def crash(self, nodes: Nodes, at: Time) -> "Scenario":
        """The scenario in which these nodes also crash at a time."""
        return self._with_commands(nodes, at, "crash")

    def leave(self, nodes: Nodes, at: Time) -> "Scenario":
        """The scenario in which these nodes also leave at a time. Profile 4 alone has this command."""
        return self._with_commands(nodes, at, "leave")

    def join(self, nodes: Nodes, at: Time, via: str) -> "Scenario":
        """The scenario in which these nodes also join through another one at a time."""
        self._check_nodes("via", [via])
        return self._with_commands(nodes, at, "join", via=via)

    def lookup(self, nodes: Nodes, key: int | str, at: Time) -> "Scenario":
        """The scenario in which these nodes also look up a key at a time: a number, or hexadecimal digits."""
        is_wide = isinstance(key, int) and key >= 2**63
        return self._with_commands(nodes, at, "lookup", key=f"{key:x}" if is_wide else key)

    def check(self) -> None:
        """Raises Refused if the program refuses the scenario."""
        output_of(files_of(self), "check")

    def traps(self) -> tuple[str, ...]:
        """What the program accepts and a user hardly means, as tools/explain lists it. Checks the scenario first."""
        self.check()
        top, rows = dict(self._top), files_of(self).latency or b""
        with failures_raised():
            return tuple(traps_of(top, greatest_latency(top, rows)) + events_trap(program(), top, rows))

    def write(self, path: Name, latency: Name | None = None) -> None:
        """Writes the scenario file, and the latency file if the scenario has latencies."""
        if (latency is None) != (self.latency is None):
            there = "no latencies" if self.latency is None else "latencies: name their file too"
            raise refused_argument("latency", f"the scenario has {there}")
        files, name = files_of(self), name_of("path", path)
        with failures_raised():
            if latency is not None and files.latency is not None:
                rows = name_of("latency", latency)
                check_apart("latency", rows, "path", name)
                write_whole(rows, files.latency)
            write_whole(name, files.scenario)

    @cached_property
    def nodes(self) -> tuple[str, ...]:
        """The names of the nodes, in the order of the file, those of classes last."""
        tables, classes = (self._top.get(key, []) for key in ("node", "nodes"))
        names = tuple(str(node.get("name")) for node in tables) if has_type(tables, "tables") else ()
        return names + (tuple(names_in(classes)) if has_type(classes, "tables") else ())

    @cached_property
    def _top(self) -> Mapping[str, Any]:
        """The tables of the file. Refused if Python does not take the text for TOML."""
        try:
            return parse_toml(files_of(self).scenario)
        except RefusedFile as fault:
            raise refusal(fault.text, files_of(self)) from None

    @cached_property
    def _value(self) -> tuple[str, str]:
        """What is compared: the values of all keys, or the text if it is no TOML; and the latencies."""
        try:
            tables = json.dumps(self._top, sort_keys=True, default=repr)
        except Refused:
            tables = self.text
        return tables, self.latency or ""

    def _with_commands(self, nodes: Nodes, at: Time, do: str, **further: Any) -> "Scenario":
        """The scenario with a command more for each of these nodes, after its own."""
        there = self._top.get("command", [])
        if not has_type(there, "tables"):
            raise Refused("S4 WrongType top command: it is no array of tables")
        time = micros_of("at", at)
        added = [{"at_us": time, "do": do, "node": node, **further} for node in self._names_of(nodes)]
        return self._of_tables({**self._top, "command": [*there, *added]})

    def _names_of(self, nodes: Nodes) -> list[str]:
        """The nodes that are named one by one, or all of a group."""
        if not isinstance(nodes, Iterable):
            raise refused_argument("nodes", f"{nodes!r} is no name, and no list of names")
        names = [nodes] if isinstance(nodes, str) else list(nodes)
        if isinstance(nodes, str) and nodes not in self.nodes:
            names = [name for name in self.nodes if nodes and name_of_group(name) == nodes] or names
        self._check_nodes("nodes", names)
        return names

    def _check_nodes(self, argument: str, names: Iterable[str]) -> None:
        """Refuses names that no node has."""
        there = set(self.nodes)
        for name in names:
            if not isinstance(name, str) or name not in there:
                hints = of_unknown_name(str(name), self.nodes)
                raise refused_argument(argument, f"there is no node {name!r}", "; ".join(hints) or None)

    def _of_tables(self, top: Mapping[str, Any]) -> "Scenario":
        """The scenario with these tables in place of its own."""
        try:
            return replace(self, text=toml_text(dict(top)))
        except TypeError as fault:
            raise Refused(str(fault)) from None

    def __eq__(self, other: object) -> bool:
        """Whether another scenario says the same."""
        return isinstance(other, Scenario) and self._value == other._value

    def __hash__(self) -> int:
        """Equal scenarios have equal ones."""
        return hash(self._value)

    def __str__(self) -> str:
        """The text of the scenario file."""
        return self.text

    def __repr__(self) -> str:
        """How many nodes and commands there are: the text is long."""
        try:
            nodes, commands = len(self.nodes), self._top.get("command", [])
        except Refused:
            return f"<Scenario of {len(self.text)} characters that are no TOML>"
        count = len(commands) if has_type(commands, "tables") else 0
        return f"<Scenario nodes={nodes} commands={count}{'' if self.latency is None else ' with latencies'}>"


def names_in(classes: Iterable[Mapping[str, Any]]) -> Iterator[str]:
    """The names of the nodes of these classes, as far as they have a prefix and a number that is not too great."""
    for one in classes:
        count = one.get("count")
        if has_type(one.get("prefix"), "text") and isinstance(count, int) and count <= MOST_OF_CLASS:
            yield from class_names(one)


def files_of(scenario: Scenario) -> Files:
    """The bytes of the two files of a scenario."""
    return Files(bytes_of(scenario.text), None if scenario.latency is None else bytes_of(scenario.latency))


def bytes_of(text: str) -> bytes:
    """The bytes of a file with this text."""
    return text.encode("utf-8", "surrogateescape")


def check_key(key: str, top: Mapping[str, Any]) -> None:
    """Refuses a key that no scenario has at its top."""
    names = [one.name for one in EXTENDED.tables["top"]]
    if key not in names and key not in top:
        meant = close_to(key, names)
        hint = f"the keys are {', '.join(names)}" if meant is None else f"did you mean `{meant}`?"
        raise refused_argument(key, "no scenario has such a key at its top", hint)


def micros_of(name: str, time: Time) -> int:
    """A time in microseconds."""
    micros = time_of(time) if isinstance(time, str) else time
    if not has_type(micros, "integer") or micros is None:
        raise refused_argument(name, f"{time!r} is no time", f"write whole microseconds, or a text with {UNIT_NAMES}")
    return micros


def plain_value(key: str, value: Any) -> Any:
    """A value as the file has it: times with units in microseconds, and tables as they are written."""
    if isinstance(value, Mapping):
        return {name: plain_value(name, item) for name, item in value.items()}
    if isinstance(value, str):
        return micros_of(key, value) if key.endswith("_us") else value
    if isinstance(value, Iterable):
        return [plain_value(key, item) for item in value]
    return value
