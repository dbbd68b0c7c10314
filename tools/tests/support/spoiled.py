"""Scenario and latency files that are spoiled at random places, the same ones for each seed."""

import random
from dataclasses import dataclass

VALUES = ("0", "-1", "1.5", "1e3", '"3"', '"n0"', "true", "[1]", "{}", "2000000000", "9223372036854775807", '"7f"')
WORDS = (
    "at_us", "seed", "stabilise_us", "nam", "x", "via", "key", "churn", "id", "lookups", "command", "node",
    "loss_ppm", "spread_us", "retries",
)
HEADINGS = ("[node]", "[[churn]]", "[churn]", "[[node]]", "[command]", "[[command]]", "[[nod]]", "[lookups]")
CHANGES = (
    "window_us = 11", "list = 4", "list = 5", "initial = false", "initial = false", 'name = "n 1"', 'name = "audit"',
    "bits = 3", "bits = 65", "at_us = 2000", "at_us = 1999", "life_max_us = 99", "gap_min_us = 51", 'do = "leave"',
    "duration_us = 200000001", 'id = "ff"', 'id = "100"', 'id = "FF"', "id = 256", 'via = "n4"', 'node = "n2"',
    "latency_us = 9", 'do = "join"', "seed = 9223372036854775808", "jitter_us = 1_000_000_001", "key = 0x100",
    "profile = 2", "profile = 4", "profile = 1", "profile = 2.0", "profile = 3", "retries = 4", "bits = 128",
    "bits = 129", "loss_ppm = 1000001", "spread_us = 1_000_000_001", 'id = "00000000000000028"',
    'id = "000000000000000000000000000000028"',
)
PATIENCE = (
    "join_pause_us = 70", "join_pause_us = 1_000_000_001", 'join_pause_us = "1s"', "join_forever = true",
    "join_forever = 1", "check_us = 90", "check_us = -1", "check_us = 1.5", "detail = true", "detail = 1",
    "list_routes = false", "list_routes = 1", "goes_on = true", "goes_on = 0", "lookup_timeouts = 64",
    "lookup_timeouts = 65", "lookup_timeouts = false", "drop_silent = true", 'drop_silent = "yes"', "skip_near = false",
    "skip_near = 2", "ask_owner = true", "ask_owner = []", "random_start = false", "random_start = -1",
    "finger_jitter_us = 5", "check_jitter_us = 1_000_000_001", 'stabilize_jitter_us = "5us"', "clean_lists = false",
    "clean_lists = 0", "join_asks = true", 'join_asks = "no"', "create_alone = true", "create_alone = 1",
)
"""Further lines of the top in the extended profile."""
PLACES = (
    "x_us = 5", "y_us = 5", "height_us = 5", "x_us = 500_000_001", "height_us = 100_000_001", "y_us = -1", "x_us = 0.0",
    "bootstrap = true", "bootstrap = 1",
)
"""Further lines of its nodes."""
FIELDS = ("n0", "n9", "", " n1", "0", "12", "0012", "+5", "1.5", "99999999999", "1000000001", '"n2"', "n3")
BREAKS = ("a,b,us", "n0;n1;5", "n0,n1", "n0,n1,5,6", '"n0,n1,5', "n0,n0,20", "\tn0,n1,20", "", "n0,n1,20\rn1,n0,20")


@dataclass
class World:
    """The headings of the tables, each with its keys and values, and the rows of the latency file."""

    tables: list[tuple[str, list[list[str]]]]
    rows: list[str]

    def scenario(self) -> str:
        """The scenario file."""
        lines = []
        for heading, pairs in self.tables:
            lines += ([heading] if heading else []) + [f"{key} = {value}" for key, value in pairs]
        return "\n".join(lines) + "\n"

    def latency(self) -> str:
        """The latency file."""
        return "".join(row + "\n" for row in self.rows)


def good_world(profile: int) -> World:
    """A world without a fault: five nodes, four commands, four rows."""
    top = [f"profile = {profile}", "bits = 8", "list = 2", "seed = 1", "duration_us = 2000", "window_us = 10"]
    top += ["latency_us = 10", "timeout_us = 40", "audit_us = 200", "stabilize_us = 100", "finger_us = 100"]
    top += ["loss_ppm = 50000", "spread_us = 7"] if profile >= 2 else []
    top += ["retries = 2"] if profile == 4 else []
    churn = [f"{word}_us = 100" for word in ("life_min", "life_max", "down_min", "down_max")]
    nodes = [[f'name = "n{i}"', f"id = {40 * i}", "initial = true"] for i in range(4)]
    nodes.append(['name = "n4"', "churn = true"])
    commands = [
        ["at_us = 10", 'do = "lookup"', 'node = "n0"', 'key = "7f"'],
        ["at_us = 20", 'do = "crash"', 'node = "n1"'],
        ["at_us = 90", 'do = "join"', 'node = "n1"', 'via = "n2"'],
        ["at_us = 95", 'do = "join"', 'node = "n4"', 'via = "n0"'],
    ]
    tables = [("", top), ("[churn]", churn), ("[lookups]", ["gap_min_us = 5", "gap_max_us = 50"])]
    tables += [("[[node]]", lines) for lines in nodes]
    tables += [("[[command]]", lines) for lines in commands]
    rows = ["n0,n1,20", "n1,n2,30", '"n2",n3,10', "n3,n4,00000025"]
    return World([(heading, [line.split(" = ") for line in lines]) for heading, lines in tables], rows)


def spoil(world: World, draw: random.Random) -> None:
    """One change of the world, which mostly spoils it."""
    heading, pairs = draw.choice(world.tables)
    pair = draw.choice(pairs)
    other = draw.choice(draw.choice(world.tables)[1])
    row = draw.randrange(len(world.rows))
    match draw.randrange(18):
        case 0:
            pairs[:] = [one for one in pairs if one is not pair] or pairs
        case 1:
            pair[0] = draw.choice([*WORDS, pair[0][:-1], other[0]])
        case 2 | 3:
            pair[1] = draw.choice(VALUES)
        case 4:
            pair[1] = other[1]
        case 5:
            world.tables[world.tables.index((heading, pairs))] = (draw.choice(HEADINGS) if heading else "", pairs)
        case 6:
            pairs.append([draw.choice(WORDS), draw.choice(VALUES)])
        case 7:
            world.tables.append((heading, [list(one) for one in pairs]) if heading else world.tables.pop())
        case 8 | 9:
            fields = world.rows[row].split(",")
            fields[draw.randrange(len(fields))] = draw.choice(FIELDS)
            world.rows[row] = ",".join(fields)
        case 10:
            world.rows.insert(row, draw.choice([*BREAKS, world.rows[row]]))
        case 11:
            same = [one for _, lines in world.tables for one in lines if one[0] == pair[0]]
            draw.choice(same)[1] = draw.choice(same)[1]
        case _:
            key, value = draw.choice(CHANGES).split(" = ")
            having = [one for _, lines in world.tables for one in lines if one[0] == key]
            draw.choice(having or [pair])[1] = value


def spoil_later(world: World, draw: random.Random) -> None:
    """A line of the top that the extended profile alone has; and coordinates of all nodes, or lines of some of them."""
    world.tables[0][1].append(draw.choice(PATIENCE).split(" = "))
    kind = draw.randrange(4)
    nodes = [pairs for heading, pairs in world.tables if heading == "[[node]]"]
    for pairs in nodes if kind > 0 else []:
        if kind < 3:
            pairs += [["x_us", str(draw.randint(0, 99))], ["y_us", "7"], ["height_us", str(draw.randint(4, 99))]]
        elif draw.random() < 0.5:
            pairs.append(draw.choice(PLACES).split(" = "))
    if kind == 1:
        world.rows.clear()


def spoiled(seed: int) -> tuple[bytes, bytes]:
    """The two files of a world with one to four changes, of the three profiles by turns."""
    draw = random.Random(seed)
    world = good_world((1, 2, 4)[seed % 3])
    for _ in range(draw.randint(1, 4)):
        spoil(world, draw)
    # Drawn last, so that the other changes of a seed stay as they were.
    if seed % 3 == 2:
        spoil_later(world, draw)
    return world.scenario().encode(), world.latency().encode()
