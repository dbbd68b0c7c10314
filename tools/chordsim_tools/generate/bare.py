"""Numbers without a unit where a time is asked for: they are microseconds, which is hardly meant."""

from argparse import Namespace
from collections.abc import Mapping

from chordsim_tools.options import Given

LONG = 10_000
"""Below this many microseconds a bare number among the times of nodes and runs is told."""
SHORT = 1_000
"""The same for times of the network."""
FEW = 100
"""So many of a million, or fewer, are told."""
OF_A_MILLION = {"loss": "messages are lost", "leaves": "lives end with a leave"}
"""The options that are parts of a million, and what these are."""
LIMITS = {
    **dict.fromkeys(("duration", "audit", "stabilize", "finger", "churn-uniform", "lifetime", "down", "arrive"), LONG),
    **dict.fromkeys(("lookup-gap", "timeout", "join-pause", "check", "crash", "back"), LONG),
    **dict.fromkeys(("window", "latency", "jitter", "spread", "coordinates"), SHORT),
    **dict.fromkeys(("stabilize-jitter", "finger-jitter", "check-jitter"), SHORT),
}
"""The options of tools/generate that are times, or have times in them."""


def bare_traps(args: Namespace, limits: Mapping[str, int]) -> list[str]:
    """A line for each of these options that has such a number below its limit."""
    traps = []
    for name, limit in limits.items():
        given: Given[object] | list[Given[object]] | None = getattr(args, name.replace("-", "_"))
        texts = [one.text for one in (given if isinstance(given, list) else [given] if given is not None else [])]
        bare = next((number for text in texts for number in bare_numbers(text, limit)), None)
        if bare is not None:
            units = f"write {bare}ms, {bare}s or {bare}m, or {bare}us for this"
            told = f"{bare} microsecond{'' if int(bare) == 1 else 's'}"
            traps.append(f"--{name} {' '.join(texts)}: {bare} without a unit is {told}; {units}")
    return traps + [trap for name, told in OF_A_MILLION.items() for trap in share_traps(args, name, told)]


def share_traps(args: Namespace, name: str, told: str) -> list[str]:
    """An option with a few of a million: per cent were meant."""
    given: Given[int] | None = getattr(args, name, None)
    if given is None or not 0 < given.value <= FEW:
        return []
    share = f"{given.value / 10_000:.4f}".rstrip("0")
    return [f"--{name} {given.value}: {given.value} of a million {told}, {share} %; {given.value} % are "
            f"{10_000 * given.value}"]


def bare_numbers(text: str, limit: int) -> list[str]:
    """The numbers above 0 and below a limit that have no unit, in a time, a span or the times of a law."""
    text = text.rpartition("@")[2]
    times = text.replace(":", "..") if text.startswith("square:") else text.rpartition(":")[2]
    ends = times.split("..")
    return [end for end in ends if end.isdecimal() and 0 < int(end) < limit]
