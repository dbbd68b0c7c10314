"""The keys of the top table of a scenario, and the ranges of the options that set them."""

from chordsim_tools.options import Options
from chordsim_tools.quantities import BILLION
from chordsim_tools.scenario.coordinates import Coordinates, least_latency
from chordsim_tools.scenario.tables import PROFILES


WAYS = (
    ("no-list-routes", "list_routes"), ("no-goes-on", "goes_on"), ("no-ask-owner", "ask_owner"),
    ("lookup-timeouts", "lookup_timeouts"),
    ("no-drop-silent", "drop_silent"), ("no-skip-near", "skip_near"), ("no-random-start", "random_start"),
    ("stabilize-jitter", "stabilize_jitter_us"), ("finger-jitter", "finger_jitter_us"),
    ("check-jitter", "check_jitter_us"), ("no-clean-lists", "clean_lists"), ("no-join-asks", "join_asks"),
    ("create-alone", "create_alone"),
)
"""The options of the rules of Chord as published, with their keys, in the order of docs/formats.md."""
PATIENCE = (
    ("join-pause", "join_pause_us"), ("join-forever", "join_forever"), ("no-join-forever", "join_forever"),
    ("check", "check_us"), ("detail", "detail"),
)
"""The options of the keys between `retries` and these, in the same order."""


def window_of(options: Options, latency: int, places: tuple[Coordinates, ...]) -> int:
    """The window: by default as long as may be."""
    if places:
        least = least_latency(places)
        return options.time("window", least, 1, least, " (the sum of the two least heights)")
    return options.time("window", latency, 1, latency, " (at most --latency)")


def list_of(options: Options, profile: int, initial: int, nodes: int) -> int:
    """The entries of a successor list: in profiles 1 and 2 below the nodes that are members at the start."""
    most = PROFILES[profile].greatest("list")
    if profile == 4:
        return options.whole("list", min(4, nodes - 1), 1, most, "")
    why = f" (at most {most}, and below --initial)"
    return options.whole("list", min(4, initial - 1), 1, min(most, initial - 1), why)


def top_of(
    options: Options, profile: int, numbers: tuple[int, int, int, int], places: tuple[Coordinates, ...]
) -> dict[str, int]:
    """The keys of the top table, in the order of docs/formats.md. A default follows what it depends on."""
    bits, duration, initial, nodes = numbers
    latency = options.get("latency", 20_000)
    audit = min(BILLION, max(1, duration // 24))
    least_audit = -(-duration // 1_000_000)
    most_events = PROFILES[profile].greatest("max_events")
    return {
        "profile": profile,
        "bits": bits,
        "list": list_of(options, profile, initial, nodes),
        "seed": options.get("seed", 1),
        "duration_us": duration,
        "window_us": window_of(options, latency, places),
        "latency_us": latency,
        "timeout_us": options.get("timeout", min(BILLION, 10 * latency)),
        "audit_us": options.time("audit", audit, least_audit, BILLION, " (at most 1000000 audits in --duration)"),
        "stabilize_us": options.get("stabilize", 500_000),
        "finger_us": options.get("finger", 250_000),
        "jitter_us": options.get("jitter", 50_000),
        "max_events": options.whole("max-events", 50_000_000, 1, most_events, f" (in profile {profile})"),
    }


def network_of(options: Options, profile: int) -> dict[str, int]:
    """The keys of loss and spread, which profiles 2 and 4 have, and those that profile 4 alone has."""
    options.all_only_with(("loss", "spread"), profile >= 2, "--profile 2 or 4")
    options.all_only_with(("retries", *dict(PATIENCE), *dict(WAYS)), profile == 4, "--profile 4")
    if options.has("join-forever") and options.has("no-join-forever"):
        options.refuse("no-join-forever", "not with --join-forever")
    if profile == 1:
        return {}
    network = {"loss_ppm": options.get("loss", 0), "spread_us": options.get("spread", 0)}
    if profile == 2:
        return network
    return network | {"retries": options.get("retries", 0)} | given_keys(options, PATIENCE) | given_keys(options, WAYS)


def given_keys(options: Options, names: tuple[tuple[str, str], ...]) -> dict[str, int]:
    """The keys of the options that were given. An option that begins with `no` is a key's false."""
    return {
        key: False if name.startswith("no-") else options.get(name, 0)
        for name, key in names if options.has(name)
    }
