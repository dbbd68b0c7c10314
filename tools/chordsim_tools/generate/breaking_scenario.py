"""Random scenarios of the extended profile in which rings break and heal, the same for the same seed.

Calls have time for a reply. Neighbours crash or leave together, at times more of them than a list has entries, and
join again. At times a node is told to look up more keys at once than it may.
"""

from random import Random

from chordsim_tools.generate.random_scenario import (
    JOINS, WAYS, distinct, jitters_of, ways_of, with_bootstraps, with_few_initial, with_leaves, with_own_joins,
)


def breaking_scenario(seed: int) -> str:
    """A scenario without a latency file that chordsim accepts."""
    dice = Random(f"breaking {seed}")
    bits = dice.choice([5, 6, 8, 16, 33, 64, 128])
    nodes = dice.randint(6, 20)
    entries = dice.randint(1, min(4, nodes - 3))
    duration = dice.randint(3000, 6000)
    idents = dice.sample(range(2**bits), nodes) if bits < 20 else distinct(dice, 2**bits, nodes)
    initial = set(dice.sample(range(nodes), dice.randint(entries + 1, nodes)))
    top = settings(dice, bits, entries, duration) | ways_of(dice, WAYS) | jitters_of(dice)
    share = dice.choice([0, 0.3, 0.8])
    rest = tables(dice)
    node_tables = [node_table(dice, place, ident, place in initial, share) for place, ident in enumerate(idents)]
    commands = commands_of(dice, idents, entries, duration, 2**bits)
    # Newer rules are drawn last, so that a seed gives the same ring, departures and lookups with and without them.
    top |= ways_of(dice, JOINS)
    node_tables = with_few_initial(dice, with_bootstraps(dice, node_tables))
    rest, commands = with_leaves(dice, rest, with_own_joins(dice, commands))
    rest += "".join(node_tables) + commands
    return "".join(f"{key} = {value}\n" for key, value in top.items()) + rest


def commands_of(dice: Random, idents: list[int], entries: int, duration: int, size: int) -> str:
    """The commands: neighbours crash and come back, and nodes look up."""
    nodes, text = len(idents), ""
    ring = sorted(range(nodes), key=lambda place: idents[place])
    text += "".join(gap(dice, ring, entries, duration) for _ in range(dice.choice([1, 2, 3])))
    for _ in range(dice.choice([0, 10, 30])):
        text += lookup(dice, dice.randrange(duration), dice.randrange(nodes), size)
    time, busy = dice.randrange(duration), dice.randrange(nodes)
    return text + "".join(lookup(dice, time, busy, size) for _ in range(dice.choice([0, 0, 70])))


def node_table(dice: Random, place: int, ident: int, is_initial: bool, share: float) -> str:
    """The table of a node, which churns by itself with this probability."""
    text = f'[[node]]\nname = "n{place}"\nid = "{ident:x}"\n' + "initial = true\n" * is_initial
    return text + "churn = true\n" * (dice.random() < share)


def settings(dice: Random, bits: int, entries: int, duration: int) -> dict[str, int | str]:
    """The keys of the top table but those of the rules of Chord as published. A timeout is above a round trip."""
    window = dice.randint(1, 20)
    latency, spread = window + dice.randint(0, 10), dice.choice([0, 0, 5, 15])
    return {
        "profile": 4,
        "bits": bits,
        "list": entries,
        "seed": dice.getrandbits(40),
        "duration_us": duration,
        "window_us": window,
        "latency_us": latency,
        "timeout_us": 2 * (latency + spread) + dice.randint(1, 30),
        "audit_us": dice.randint(300, 2000),
        "stabilize_us": dice.randint(50, 500),
        "finger_us": dice.randint(20, 300),
        "check_us": dice.choice([0, 100, 400]),
        "jitter_us": dice.randint(0, 40),
        "loss_ppm": dice.choice([0, 0, 0, 5000, 50000]),
        "spread_us": spread,
        "retries": dice.choice([0, 0, 1, 2]),
        "join_pause_us": dice.choice([0, 20, 100]),
        "join_forever": dice.choice(["true", "true", "false"]),
        "detail": dice.choice(["true", "false", "false"]),
    }


def tables(dice: Random) -> str:
    """The tables [churn] and [lookups]."""
    life, down = dice.randint(500, 4000), dice.randint(50, 1000)
    return (
        f"[churn]\nlife_min_us = {life}\nlife_max_us = {life + dice.randint(0, 3000)}\n"
        f"down_min_us = {down}\ndown_max_us = {down + 500}\n"
        f"[lookups]\ngap_min_us = 30\ngap_max_us = {dice.randint(60, 300)}\n"
    )


def gap(dice: Random, ring: list[int], entries: int, duration: int) -> str:
    """Commands by which neighbours crash within 60 µs, and join later through one of the others."""
    time, first = dice.randrange(200, duration - 1000), dice.randrange(len(ring))
    length = dice.randint(1, min(len(ring) - 2, entries + 3))
    others = [ring[(first + length + i) % len(ring)] for i in range(len(ring) - length)]
    text = ""
    for node in (ring[(first + i) % len(ring)] for i in range(length)):
        text += command(time + dice.randint(0, 60), "crash", node)
        back = time + dice.randint(200, 3000)
        if back < duration:
            text += command(back, "join", node) + f'via = "n{dice.choice(others)}"\n'
    return text


def lookup(dice: Random, time: int, node: int, size: int) -> str:
    """A command that looks up a random key."""
    return command(time, "lookup", node) + f'key = "{dice.randrange(size):x}"\n'


def command(time: int, do: str, node: int) -> str:
    """The table of a command, as far as all have it."""
    return f'[[command]]\nat_us = {time}\ndo = "{do}"\nnode = "n{node}"\n'
