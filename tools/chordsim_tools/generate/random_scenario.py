"""Random scenarios and latency files, the same for the same seed."""

import re
from dataclasses import dataclass
from random import Random

WIDE = [3, 4, 5, 6, 8, 32, 33, 64, 65, 96, 97, 127, 128]
BITS = {1: [3, 4, 5, 6, 8, 16, 31, 32, 33, 63, 64], 2: WIDE, 4: WIDE}
"""The bits of the scenarios of each profile."""
FALSE = ("true", ("false",))
WAYS = (
    ("list_routes", *FALSE), ("goes_on", *FALSE), ("lookup_timeouts", "32", ("8", "0", "1", "2", "3", "64")),
    ("drop_silent", *FALSE), ("skip_near", *FALSE), ("ask_owner", *FALSE),
    ("random_start", *FALSE),
)
"""The rules of Chord as published, with the values that keep to it and those that do not.

A later one is drawn after the earlier ones, so that these stay as they were."""
JOINS = (("clean_lists", *FALSE), ("join_asks", *FALSE), ("create_alone", "false", ("true",)))
"""Those of joins, which are drawn after all else."""


@dataclass(frozen=True)
class Size:
    """The numbers of a scenario that others are drawn by."""

    bits: int
    entries: int
    window: int
    latency: int
    duration: int


def scenario_files(seed: int) -> tuple[str, str]:
    """A scenario and a latency file that chordsim accepts: few nodes, much churn, calls that time out.

    Of six seeds in a row two have each profile, one of them an even seed and one an odd one.
    """
    dice = Random(seed)
    profile = (1, 2, 4)[seed // 2 % 3]
    bits = dice.choice(BITS[profile])
    nodes = dice.randint(3, min(2**bits, dice.choice([4, 8, 16])))
    entries = dice.randint(1, min(16, nodes - 1, dice.choice([1, 2, 3, 5])))
    window = dice.randint(1, 20)
    latency = window + dice.randint(0, 20)
    duration = dice.randint(2000, 8000)
    is_churning = dice.random() < 0.6
    idents = dice.sample(range(2**bits), nodes) if bits < 20 else distinct(dice, 2**bits, nodes)
    initial = set(dice.sample(range(nodes), dice.randint(entries + 1, nodes)))
    network = network_of(dice, latency, profile) if profile >= 2 else {}
    reach = latency + network.get("spread_us", 0)
    top: dict[str, int | str] = {"profile": profile}
    top |= settings(dice, Size(bits, entries, window, latency, duration), reach) | network
    rest = tables(dice, is_churning)
    node_tables = [node_table(dice, i, ident, i in initial, is_churning) for i, ident in enumerate(idents)]
    commands = "".join(command_table(dice, nodes, duration, 2**bits) for _ in range(dice.choice([0, 5, 20, 60])))
    links = rows(dice, nodes, window)
    # What came to the extended profile later is drawn last, so that all else stays as it was.
    if profile == 4:
        top |= patience_of(dice)
        if dice.random() < 0.4:
            node_tables = [table + coordinates(dice, window) for table in node_tables]
            links = ""
        if seed // 6 % 3 == 0:
            top["detail"] = "true"
        top |= ways_of(dice, WAYS) | jitters_of(dice) | ways_of(dice, JOINS)
        node_tables = with_few_initial(dice, with_bootstraps(dice, node_tables))
        commands = with_own_joins(dice, commands)
        rest, commands = with_leaves(dice, rest, commands)
    head = "".join(f"{key} = {value}\n" for key, value in top.items())
    return head + rest + "".join(node_tables) + commands, links


def distinct(dice: Random, size: int, count: int) -> list[int]:
    """`count` different numbers below a size that is too large for a sample."""
    numbers: dict[int, None] = {}
    while len(numbers) < count:
        numbers[dice.randrange(size)] = None
    return list(numbers)


def settings(dice: Random, size: Size, reach: int) -> dict[str, int]:
    """The keys of the top table that all profiles have. The reach is the latency with the spread."""
    timeout = dice.choice([dice.randint(1, 40), 2 * reach + dice.randint(1, 100)])
    return {
        "bits": size.bits,
        "list": size.entries,
        "seed": dice.choice([0, 1, dice.getrandbits(31), dice.getrandbits(63)]),
        "duration_us": size.duration,
        "window_us": size.window,
        "latency_us": size.latency,
        "timeout_us": timeout,
        "audit_us": dice.randint(50, 700),
        "stabilize_us": dice.randint(30, 500),
        "finger_us": dice.randint(30, 500),
        "jitter_us": dice.randint(0, 40),
        "max_events": dice.choice([50_000_000, dice.randint(1, 3000)]) if dice.random() < 0.2 else 50_000_000,
    }


def network_of(dice: Random, latency: int, profile: int) -> dict[str, int]:
    """Loss and spread, if the scenario has them: all messages lost, some or none, and late by some latencies.

    In the extended profile also how often a request is sent again.
    """
    loss = dice.choice([0, 1_000_000, dice.randint(1, 200_000), dice.randint(1, 50_000), dice.randint(1, 50_000)])
    spread = dice.choice([0, 1, dice.randint(0, latency), dice.randint(0, 5 * latency)])
    keys = {"loss_ppm": loss, "spread_us": spread}
    if profile == 4:
        keys["retries"] = dice.randint(0, 3)
    return {key: value for key, value in keys.items() if dice.random() < 0.85}


def patience_of(dice: Random) -> dict[str, int | str]:
    """Pauses between attempts to join, joins without an end, and checks of the predecessor, each in some scenarios."""
    pause = dice.choice([0, 1, dice.randint(1, 60), dice.randint(1, 400)])
    check = dice.choice([0, dice.randint(1, 40), dice.randint(20, 200), dice.randint(20, 500)])
    forever = dice.choice(["true", "true", "false"])
    keys: dict[str, int | str] = {"join_pause_us": pause, "join_forever": forever, "check_us": check}
    return {key: value for key, value in keys.items() if dice.random() < 0.75}


def ways_of(dice: Random, ways: tuple[tuple[str, str, tuple[str, ...]], ...]) -> dict[str, int | str]:
    """Rules of Chord as published that are switched off: none of them, some or all. Some others are switched on."""
    share = dice.choice([0, 0.2, 0.5, 1])
    keys: dict[str, int | str] = {}
    for name, published, others in ways:
        is_off, is_written, other = dice.random() < share, dice.random() < 0.3, dice.choice(others)
        if is_off or is_written:
            keys[name] = other if is_off else published
    return keys


def jitters_of(dice: Random) -> dict[str, int | str]:
    """A jitter of some timers that is not that of the others."""
    keys: dict[str, int | str] = {f"{word}_jitter_us": dice.randint(0, 60) for word in ("stabilize", "finger", "check")}
    return {key: value for key, value in keys.items() if dice.random() < 0.3}


def with_bootstraps(dice: Random, node_tables: list[str]) -> list[str]:
    """The tables of the nodes, of which none, some or all are bootstrap nodes."""
    share = dice.choice([0, 0.2, 0.5, 1])
    return [table + "bootstrap = true\n" * (dice.random() < share) for table in node_tables]


def with_few_initial(dice: Random, node_tables: list[str]) -> list[str]:
    """The tables of the nodes, of which some scenarios have no more than a few initial ones, or none."""
    most = dice.choice([len(node_tables)] * 6 + [0, 1, 2])
    initial = [place for place, table in enumerate(node_tables) if "initial" in table]
    gone = set(initial) - set(dice.sample(initial, min(most, len(initial))))
    return [
        table.replace("initial = true\n", "") if place in gone else table for place, table in enumerate(node_tables)
    ]


def with_own_joins(dice: Random, commands: str) -> str:
    """The commands, of which none, some or all joins are through the node itself."""
    share = dice.choice([0, 0, 0.2, 1])
    return re.sub(
        r'(node = "(n\d+)"\n)via = "n\d+"',
        lambda found: f'{found[1]}via = "{found[2]}"' if dice.random() < share else found[0], commands,
    )


def with_leaves(dice: Random, rest: str, commands: str) -> tuple[str, str]:
    """The tables and commands, with leaves in place of none, some or all crashes by command, and mostly `leave_ppm`."""
    share = dice.choice([0, 0.3, 0.3, 1])
    commands = re.sub('"crash"', lambda _: '"leave"' if dice.random() < share else '"crash"', commands)
    ppm = dice.choice([0, 1_000_000, dice.randint(1, 999_999), 500_000])
    if dice.random() < 0.8:
        rest = re.sub(r"(down_max_us = \d+\n)", rf"\1leave_ppm = {ppm}\n", rest)
    return rest, commands


def coordinates(dice: Random, window: int) -> str:
    """The lines of a node's coordinates, near the others or sometimes far away. Two heights make a window or more."""
    side = dice.choice([0, 9, 40, 40, 500_000_000 if dice.random() < 0.1 else 40])
    height = dice.randint(-(-window // 2), window + 20)
    return f"x_us = {dice.randint(0, side)}\ny_us = {dice.randint(0, side)}\nheight_us = {height}\n"


def tables(dice: Random, is_churning: bool) -> str:
    """The tables [churn] and [lookups], if the scenario has them."""
    text = ""
    if is_churning:
        life, down = dice.randint(100, 1500), dice.randint(1, 400)
        text += f"[churn]\nlife_min_us = {life}\nlife_max_us = {life + dice.randint(0, 900)}\n"
        text += f"down_min_us = {down}\ndown_max_us = {down + dice.randint(0, 300)}\n"
    if dice.random() < 0.7:
        gap = dice.randint(1, 200)
        text += f"[lookups]\ngap_min_us = {gap}\ngap_max_us = {gap + dice.randint(0, 200)}\n"
    return text


def node_table(dice: Random, place: int, ident: int, is_initial: bool, is_churning: bool) -> str:
    """The table of a node."""
    text = f'[[node]]\nname = "n{place}"\nid = "{ident:x}"\n'
    if is_initial:
        text += "initial = true\n"
    if is_churning and dice.random() < 0.6:
        text += "churn = true\n"
    return text


def command_table(dice: Random, nodes: int, duration: int, size: int) -> str:
    """The table of a command."""
    node = dice.randrange(nodes)
    do = dice.choice(["crash", "join", "lookup", "lookup"])
    text = f'[[command]]\nat_us = {dice.randrange(duration)}\ndo = "{do}"\nnode = "n{node}"\n'
    if do == "join":
        text += f'via = "n{(node + dice.randint(1, nodes - 1)) % nodes}"\n'
    if do == "lookup":
        text += f'key = "{dice.randrange(size):x}"\n'
    return text


def rows(dice: Random, nodes: int, window: int) -> str:
    """The rows of a latency file, which name about every third pair, or none."""
    if dice.random() < 0.4:
        return ""
    pairs = [(a, b) for a in range(nodes) for b in range(a) if dice.random() < 0.3]
    return "".join(f"n{a},n{b},{dice.randint(window, window + 60)}\n" for a, b in pairs)
