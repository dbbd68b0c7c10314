"""The tables and keys of the scenario file, and the rows of the latency file (docs/formats.md, sections 2 and 3)."""

import csv
import io
import math
import re
import tomllib
from dataclasses import dataclass, replace
from typing import Any

from chordsim_tools.cli import Refused

BILLION = 1_000_000_000
GREATEST_INTEGER = 2**63 - 1
GREATEST_SIZE = 16_777_216
ACTIONS = ("join", "crash", "lookup")
EXTENDED_ACTIONS = (*ACTIONS, "leave")
"""What commands do in the extended profile."""


class NotToml(Refused):
    """S1, with the reason; with the number that is too large, or the offset of the byte that is no UTF-8."""

    def __init__(self, reason: str, literal: str = "", offset: int | None = None) -> None:
        """The text is that of formats.md."""
        super().__init__("S1 NotToml")
        self.reason = reason
        self.literal = literal
        self.offset = offset


@dataclass
class Key:
    """A key of a table: its type, its range (of an ID: how many digits its text has) and whether it is required.

    `missing` are the numbers of the range that are not allowed. `among` are the texts that are, if not all are. A key
    that is required may be missing if the key `unless` is there.
    """

    name: str
    kind: str
    least: int = 0
    greatest: int = GREATEST_INTEGER
    required: bool = True
    missing: tuple[int, ...] = ()
    among: tuple[str, ...] = ()
    unless: str = ""


@dataclass(slots=True)
class Place:
    """A table of the scenario file, with the keys that are listed for it."""

    name: str
    table: dict[str, Any]
    keys: list[Key]

    @property
    def kind(self) -> str:
        """The name without its number."""
        return self.name.partition(" ")[0]

    def key(self, name: str) -> Key:
        """The key of this name."""
        return next(key for key in self.keys if key.name == name)

    def usable(self, name: str) -> Any:
        """The value of a key if it has the key's type and range by itself, else nothing."""
        value = self.table.get(name)
        key = self.key(name)
        return value if name in self.table and has_type(value, key.kind) and is_in_own_range(value, key) else None


@dataclass
class Row:
    """A row of a CSV file: its number, the line where it begins, its fields."""

    number: int
    line: int
    fields: list[str]


RUN = [
    Key("seed", "integer"),
    Key("duration_us", "integer", 1, 1000 * BILLION),
    Key("window_us", "integer", 1, BILLION),
    Key("latency_us", "integer", 1, BILLION),
    Key("timeout_us", "integer", 1, BILLION),
    Key("audit_us", "integer", 1, BILLION),
    Key("stabilize_us", "integer", 1, BILLION),
    Key("finger_us", "integer", 1, BILLION),
    Key("jitter_us", "integer", 0, BILLION, required=False),
]
"""The plain keys of the top that are the same in all profiles, after `list`."""
NETWORK = [
    Key("loss_ppm", "integer", 0, 1_000_000, required=False),
    Key("spread_us", "integer", 0, BILLION, required=False),
]
"""The keys that the second and the extended profile have."""
PATIENCE = [
    Key("retries", "integer", 0, 3, required=False),
    Key("join_pause_us", "integer", 0, BILLION, required=False),
    Key("join_forever", "boolean", required=False),
    Key("check_us", "integer", 0, BILLION, required=False),
    Key("detail", "boolean", required=False),
]
"""The keys of the top that the extended profile alone has."""
WAYS = [
    Key("list_routes", "boolean", required=False),
    Key("goes_on", "boolean", required=False),
    Key("ask_owner", "boolean", required=False),
    Key("lookup_timeouts", "integer", 0, 64, required=False),
    Key("drop_silent", "boolean", required=False),
    Key("skip_near", "boolean", required=False),
    Key("random_start", "boolean", required=False),
    Key("stabilize_jitter_us", "integer", 0, BILLION, required=False),
    Key("finger_jitter_us", "integer", 0, BILLION, required=False),
    Key("check_jitter_us", "integer", 0, BILLION, required=False),
    Key("clean_lists", "boolean", required=False),
    Key("join_asks", "boolean", required=False),
    Key("create_alone", "boolean", required=False),
]
"""Further keys of its top: the rules of Chord as published, each of which can be switched off or changed."""
EDGE = 500_000_000
"""No coordinate in the plane is greater than this."""
COORDINATES = [
    Key("x_us", "integer", 0, EDGE, required=False),
    Key("y_us", "integer", 0, EDGE, required=False),
    Key("height_us", "integer", 0, 100_000_000, required=False),
]
"""The keys of a node's coordinates."""
SIDE = Key("side_us", "integer", 0, EDGE, required=False)
"""The further key of the coordinates of a class, whose nodes are in a square of this side."""
OF_NODES = [Key("bootstrap", "boolean", required=False), *COORDINATES]
"""The keys of a node that the extended profile alone has."""
MOST_CLASSES = 16
MOST_OF_CLASS = 1_048_576
"""So many nodes a class has at most."""
MOST_OF_PREFIX = 25
"""So many bytes the prefix of their names has at most, which leaves room for the digits of a number."""
CLASSES = [
    Key("count", "integer", 2, MOST_OF_CLASS),
    Key("prefix", "text"),
    Key("initial", "boolean", required=False),
    Key("churn", "boolean", required=False),
    *OF_NODES,
    SIDE,
]
"""The keys of a class of nodes, which the extended profile alone has."""
CHURN = [Key(f"{word}_us", "integer", 1, BILLION) for word in ("life_min", "life_max", "down_min", "down_max")]
LEAVES = [Key("leave_ppm", "integer", 0, 1_000_000, required=False)]
"""The key of [churn] that the extended profile alone has."""
LOOKUPS = [Key(f"{word}_us", "integer", 1, BILLION) for word in ("gap_min", "gap_max")]


def top_keys(bits: int, entries: int, nodes: int, events: int, network: list[Key]) -> list[Key]:
    """The keys of the top, for these greatest numbers, of entries in a list too, and with these keys of the network."""
    return [
        Key("profile", "integer", 1, 4, missing=(3,)),
        Key("bits", "integer", 3, bits),
        Key("list", "integer", 1, entries),
        *RUN,
        Key("max_events", "integer", 1, events, required=False),
        *network,
        Key("churn", "table", required=False),
        Key("lookups", "table", required=False),
        Key("node", "tables", 2, nodes),
        Key("command", "tables", 0, 100_000, required=False),
    ]


def with_classes(keys: list[Key]) -> list[Key]:
    """The keys of a top that may have classes of nodes, between its nodes and its commands or in place of its nodes."""
    *others, commands = (replace(key, unless="nodes") if key.name == "node" else key for key in keys)
    return [*others, Key("nodes", "tables", 1, MOST_CLASSES, required=False), commands]


def node_keys(digits: int, further: list[Key]) -> list[Key]:
    """The keys of a node, whose identifier has at most this number of hexadecimal digits, and further ones."""
    return [
        Key("name", "text"),
        Key("id", "id", 1, digits, required=False),
        Key("initial", "boolean", required=False),
        Key("churn", "boolean", required=False),
        *further,
    ]


def command_keys(digits: int, actions: tuple[str, ...]) -> list[Key]:
    """The keys of a command that does one of these, and whose key has at most this number of hexadecimal digits."""
    return [
        Key("at_us", "integer", 0, 1000 * BILLION),
        Key("do", "text", among=actions),
        Key("node", "text"),
        Key("via", "text", required=False),
        Key("key", "id", 1, digits, required=False),
    ]


class Profile:
    """The keys of all tables in a profile: `tables` has them by the kind of the table."""

    def __init__(self, top: list[Key], digits: int, of_nodes: list[Key], is_extended: bool = False) -> None:
        """The profile with these keys at the top, these digits of an identifier, and these further keys of a node.

        In the extended one nodes may leave, and not only crash, and there may be classes of them."""
        self.tables = {
            "top": top,
            "churn": [*CHURN, *LEAVES] if is_extended else CHURN,
            "lookups": LOOKUPS,
            "node": node_keys(digits, of_nodes),
            **({"nodes": CLASSES} if is_extended else {}),
            "command": command_keys(digits, EXTENDED_ACTIONS if is_extended else ACTIONS),
        }

    def greatest(self, name: str) -> int:
        """The greatest value of a key of the top; of `node`, how many such tables there may be."""
        return next(key.greatest for key in self.tables["top"] if key.name == name)


FIRST = Profile(top_keys(64, 16, 512, 50_000_000, []), 16, [])
SECOND = Profile(top_keys(128, 16, 4096, 50_000_000, NETWORK), 32, [])
EXTENDED = Profile(
    with_classes(top_keys(128, 32, 65_536, 100_000_000_000, [*NETWORK, *PATIENCE, *WAYS])), 32, OF_NODES,
    is_extended=True,
)
PROFILES = {1: FIRST, 2: SECOND, 4: EXTENDED}


def profile_of(top: dict[str, Any]) -> Profile:
    """The profile that a file is held against: by `profile` if it is the whole number 2 or 4, else the first."""
    return PROFILES.get(top["profile"], FIRST) if has_type(top.get("profile"), "integer") else FIRST


def parse_toml(file: bytes) -> dict[str, Any]:
    """S1. (tomllib reads TOML 1.0: what TOML 1.1 adds is refused here. Depth is not looked at: chordsim refuses 81.)"""
    try:
        top = tomllib.loads(file.decode("utf-8").removeprefix("\ufeff"), parse_float=float_of)
        great = great_integer(top)
    except UnicodeDecodeError as error:
        raise NotToml(f"the byte {file[error.start]:#04x} is no UTF-8", offset=error.start) from None
    except tomllib.TOMLDecodeError as error:
        raise NotToml(str(error)) from None
    except ValueError:
        # Python reads no integer of more than 4300 decimal digits.
        longest = max(re.findall(rb"[+-]?[0-9_]+", file), key=len)
        raise NotToml("an integer is beyond 64 bits", longest.decode()) from None
    except RecursionError:
        raise NotToml("values are nested too deeply") from None
    if great is not None:
        raise NotToml("an integer is beyond 64 bits", literal_of(great))
    return top


def literal_of(number: int) -> str:
    """How an integer can be written: in hexadecimal if Python may refuse to write so many decimal digits."""
    return str(number) if abs(number) < 1 << 2000 else hex(number)


def float_of(text: str) -> float:
    """The value of a float. One that is too large for 64 bits is no TOML."""
    value = float(text)
    if math.isinf(value) and "inf" not in text:
        raise NotToml("a float is too large for 64 bits", text)
    return value


def great_integer(value: Any) -> int | None:
    """The first integer beyond 64 bits in the value, if there is one."""
    if isinstance(value, dict | list):
        items = value.values() if isinstance(value, dict) else value
        return next((great for great in map(great_integer, items) if great is not None), None)
    return value if isinstance(value, int) and not -GREATEST_INTEGER - 1 <= value <= GREATEST_INTEGER else None


def places_of(top: dict[str, Any]) -> list[Place]:
    """All tables of the document, in the order top, churn, lookups, nodes, classes of nodes, commands."""
    tables = profile_of(top).tables
    single = [name for name in ("churn", "lookups") if isinstance(top.get(name), dict)]
    places = [Place("top", top, tables["top"]), *(Place(name, top[name], tables[name]) for name in single)]
    for name in (one for one in ("node", "nodes", "command") if one in tables):
        items = top[name] if isinstance(top.get(name), list) else []
        numbered = ((number, item) for number, item in enumerate(items, start=1) if isinstance(item, dict))
        places += (Place(f"{name} {number}", item, tables[name]) for number, item in numbered)
    return places


def has_type(value: Any, kind: str) -> bool:
    """Whether a value is of a key's type."""
    match kind:
        case "integer":
            return isinstance(value, int) and not isinstance(value, bool)
        case "id":
            return isinstance(value, int | str) and not isinstance(value, bool)
        case "text":
            return isinstance(value, str)
        case "boolean":
            return isinstance(value, bool)
        case "table":
            return isinstance(value, dict)
        case _:
            return isinstance(value, list) and all(isinstance(item, dict) for item in value)


def is_in_own_range(value: Any, key: Key) -> bool:
    """Whether a value of a key's type is in its range, as far as no other value has a say."""
    if key.kind == "integer":
        return key.least <= value <= key.greatest and value not in key.missing
    if key.kind == "tables":
        return bool(key.least <= len(value) <= key.greatest)
    if key.kind == "id":
        return value >= 0 if isinstance(value, int) else is_hexadecimal(value, key.greatest)
    return not key.among or value in key.among


def is_hexadecimal(text: str, digits: int) -> bool:
    """Whether a text is 1 to `digits` hexadecimal digits, in small letters."""
    return re.fullmatch(f"[0-9a-f]{{1,{digits}}}", text) is not None


def value_of_id(value: int | str) -> int:
    """The value of an ID that is a number or hexadecimal digits."""
    return value if isinstance(value, int) else int(value, 16)


def rows_of(file: bytes) -> list[Row]:
    """The rows of the latency file, or of another CSV file. Empty lines are no rows."""
    csv.field_size_limit(GREATEST_SIZE)
    text = file.decode("utf-8", "replace").removeprefix("\ufeff")
    reader = csv.reader(io.StringIO(text, newline=""))
    rows: list[Row] = []
    line = 1
    for fields in reader:
        if fields:
            rows.append(Row(len(rows) + 1, line, fields))
        line = reader.line_num + 1
    return rows
