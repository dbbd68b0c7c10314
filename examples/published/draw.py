"""Prints the tables of docs/published.md, and draws its plots: from the results of the studies and from published.csv.

In the folder examples/published, after the studies:
  /usr/bin/python3 draw.py
"""

import csv
import importlib
import math
import sys
from collections import defaultdict
from collections.abc import Iterable, Sequence
from pathlib import Path
from typing import Any

FOLDER = Path(__file__).resolve().parent
sys.path.insert(0, str(FOLDER.parents[1] / "tools"))

from chordsim_tools.study.interval import Interval, interval  # noqa: E402  # pylint: disable=wrong-import-position

Row = dict[str, str]
SHARES = {"0.01%@1s": 0.0, "10%@1s": 0.1, "20%@1s": 0.2, "30%@1s": 0.3, "40%@1s": 0.4, "50%@1s": 0.5}
RULES = {
    ("true", "true", "true", "32"): "none",
    ("false", "true", "true", "32"): "`list_routes = false`",
    ("true", "false", "true", "32"): "`goes_on = false`",
    ("true", "true", "false", "32"): "`ask_owner = false`",
    ("true", "true", "true", "8"): "`lookup_timeouts = 8`",
    ("false", "false", "false", "8"): "all four",
}
CHURN_RULES = {
    "list_routes": ("true", "false"), "goes_on": ("true", "false"), "ask_owner": ("true", "false"),
    "lookup_timeouts": ("32", "8"), "drop_silent": ("true", "false"), "skip_near": ("true", "false"),
    "random_start": ("true", "false"), "clean_lists": ("true", "false"), "join_asks": ("true", "false"),
    "check_us": ("15000000", "0"),
}
"""The rules of churn_rules.toml: as they are in profile 4, and switched back."""
CRASH, NODES, LIST = "generate.--crash", "generate.--nodes", "generate.--list"
RATE, BITS = "generate.--arrivals", "generate.--bits"
LOADS = {
    "owned-p1": "first percentile of keys of a node beside the mean",
    "owned-p99": "99th percentile of keys of a node beside the mean",
    "owned-most": "greatest number of keys of a node beside the mean",
}
"""Columns of load.toml, with the published figures that they are beside."""
STRETCHES = (10, 50, 90)
"""The percentiles of stretch.toml."""
TIMES = {"us-p5": 0.05, "us-p50": 0.5, "us-p95": 0.95}
"""The percentiles of the times of sites.toml, and the shares that they are."""
ROUND_TRIP = 60
"""The usual round trip between two of the ten sites, in milliseconds."""
SILENT = "20, `drop_silent = false`"
"""The third setting under churn, beside those of 24 and 20 bits."""
CRASHES, LEAVES = ("churn", "churn_silent"), ("churn_leaves",)
"""The studies under churn, by how nodes depart."""
AS_ARTICLE, NOT_ASKED, LIMITED, DEFAULTS = "false, 64, true", "false, 64, false", "false, 32, true", "true, 32, true"
"""Settings of drop_silent, lookup_timeouts and ask_owner."""


def table(name: str) -> list[Row]:
    """The rows of a CSV file of this folder."""
    with open(FOLDER / name, encoding="utf-8", newline="") as file:
        return list(csv.DictReader(file))


def published(figure: str) -> dict[float, float]:
    """The published values of a figure, which were entered by hand."""
    return {float(row["at"]): float(row["value"]) for row in table("published.csv") if row["figure"] == figure}


def mean(rows: Sequence[Row], number: str, span: str = "") -> Interval:
    """The mean of hops or timeouts of a lookup that came to an end, over the seeds."""
    ended = [int(row[f"{span}judged-found"]) + int(row[f"{span}judged-lost"]) for row in rows]
    return interval([int(row[f"{span}ended-{number}"]) / count for row, count in zip(rows, ended, strict=True)])


def total(rows: Iterable[Row], number: str) -> int:
    """The sum of a column."""
    return sum(int(row[number]) for row in rows)


def failures(rows: Sequence[Row]) -> Interval:
    """How many of 10,000 lookups are lost or name a wrong node, over the seeds."""
    return interval([10_000 * (lost + wrong) / ended for lost, wrong, ended in (bad([row]) for row in rows)])


def told_failures(rows: Sequence[Row]) -> str:
    """The same in words: without an interval if there is no failure at all."""
    return told(failures(rows), 1) if sum(bad(rows)[:2]) else "0"


def told_range(values: Sequence[float], form: str = "g") -> str:
    """The least and the greatest of some values, or the one that all have."""
    least, most = f"{min(values):{form}}", f"{max(values):{form}}"
    return least if least == most else f"{least} to {most}"


def told(one: Interval, digits: int = 3) -> str:
    """A mean and half of its interval."""
    if 0 < (one.mean or 0) < 10**-digits / 2:
        return f"below {10**-digits:.{digits}f}"
    return f"{one.mean:.{digits}f} ± {one.half or 0:.{digits}f}"


def columns(header: str, rows: Iterable[Sequence[object]]) -> None:
    """Prints a table in Markdown."""
    print(f"\n| {header} |\n|{'---|' * (header.count('|') + 1)}")
    for row in rows:
        print("| " + " | ".join(str(cell) for cell in row) + " |")


def failure() -> dict[tuple[str, float], list[Row]]:
    """The runs after a failure, by setting and by the share that fails."""
    found: dict[tuple[str, float], list[Row]] = defaultdict(list)
    for row in table("failure/runs.csv"):
        setting = ", ".join(row[key] for key in ("drop_silent", "lookup_timeouts", "ask_owner"))
        found[setting, SHARES[row[CRASH]]].append(row)
    return found


def bad(rows: Iterable[Row], span: str = "") -> tuple[int, int, int]:
    """How many lookups were lost, how many named a wrong node, and how many came to an end."""
    found = list(rows)
    lost, answered = total(found, f"{span}judged-lost"), total(found, f"{span}judged-found")
    return lost, answered - total(found, f"{span}right"), lost + answered


def print_failure() -> None:
    """The table of lookups after a failure, and that of the article's setting beside two others."""
    runs, hops, timeouts = failure(), published("hops after a failure"), published("timeouts after a failure")
    rows, others = [], []
    for share in SHARES.values():
        ours = runs[AS_ARTICLE, share]
        lost, wrong, ended = bad(ours)
        each = [(mean([row], "timeouts").mean or 0) for row in ours]
        cells = [f"{share:g}", f"{hops[share]:.2f}", told(mean(ours, "hops"), 2), f"{timeouts[share]:.2f}"]
        cells += [told(mean(ours, "timeouts"), 2), f"{min(each):.2f} to {max(each):.2f}"]
        rows.append([*cells, f"{lost}", f"{wrong}", f"{ended:,}"])
        line: list[object] = [f"{share:g}"]
        for setting in (NOT_ASKED, LIMITED, DEFAULTS):
            lost, wrong, _ = bad(runs[setting, share])
            line += [told(mean(runs[setting, share], number), 2) for number in ("hops", "timeouts")]
            line += [f"{lost}, {wrong:,}"]
        others.append(line)
    columns("p | hops: published | hops | timeouts: published | timeouts | of each seed | lost | wrong | lookups", rows)
    columns("p | owner not asked: hops | timeouts | lost, wrong | limit of 32: hops | timeouts | lost, wrong "
            "| defaults: hops | timeouts | lost, wrong", others)


def print_rules() -> None:
    """What each rule is worth."""
    found: dict[tuple[str, ...], list[Row]] = defaultdict(list)
    for row in table("rules/runs.csv"):
        found[tuple(row[key] for key in ("list_routes", "goes_on", "ask_owner", "lookup_timeouts"))].append(row)
    rows = []
    for setting, words in RULES.items():
        runs = found[setting]
        lost, wrong, ended = bad(runs)
        shares = [100 * int(row["right"]) / (int(row["judged-found"]) + int(row["judged-lost"])) for row in runs]
        right = told(interval(shares), 1) if lost + wrong > 1 else "all but 1" if lost + wrong else "all"
        means = [told(mean(runs, number), 2) for number in ("hops", "timeouts")]
        rows.append([words, *means, f"{lost:,}", f"{total(runs, 'wrong-down'):,}", f"{ended:,}", right])
    columns("switched back | hops | timeouts | lost | names a node that has failed | lookups | right, %", rows)


def distribution(nodes: int, entries: str) -> list[list[float]]:
    """The share of lookups with 0, 1, 2 .. hops, for each seed, of a ring of length.toml."""
    return by_hops([row for row in table("length/hops.csv") if row[NODES] == str(nodes) and row[LIST] == entries])


def by_hops(rows: Iterable[Row]) -> list[list[float]]:
    """The share of lookups with 0, 1, 2 .. hops, for each seed, of lines that have the share within each value."""
    within: dict[str, dict[int, float]] = defaultdict(dict)
    for row in rows:
        within[row["seed"]][int(row["value"])] = float(row["share"])
    longest = max(max(shares) for shares in within.values())
    found = []
    for shares in within.values():
        steps = [max((shares[hops] for hops in shares if hops <= most), default=0.0) for most in range(-1, longest + 1)]
        found.append([share - before for before, share in zip(steps, steps[1:], strict=False)])
    return found


def percentile(shares: list[list[float]], level: float) -> int:
    """The least number of hops within which this share of the lookups of all seeds is."""
    within = 0.0
    for hops, one in enumerate(zip(*shares, strict=True)):
        within += sum(one) / len(one)
        if within >= level - 1e-9:
            return hops
    return len(shares[0]) - 1


def lengths() -> dict[int, dict[str, list[Row]]]:
    """The runs by nodes and list."""
    found: dict[int, dict[str, list[Row]]] = defaultdict(lambda: defaultdict(list))
    for row in table("length/runs.csv"):
        found[int(row[NODES])][row[LIST]].append(row)
    return found


def print_length() -> None:
    """The table of path lengths, and the distribution in the ring of 4,096 nodes."""
    rows = []
    runs_of, values = lengths(), published("path length")
    for nodes, by_list in runs_of.items():
        value = values[nodes]
        cells: list[object] = [f"{nodes:,}", f"{value:g}"]
        for entries, runs in by_list.items():
            shares = distribution(nodes, entries)
            hops = mean(runs, "hops")
            cells += [*([entries] if entries != "1" else []), told(hops),
                      *([f"{(hops.mean or 0) - value:+.2f}".replace("-", "−")] if entries == "1" else []),
                      f"{percentile(shares, 0.01)}, {percentile(shares, 0.99)}"]
        every = [row for runs in by_list.values() for row in runs]
        lost, wrong, ended = bad(every)
        rows.append([*cells, f"{ended:,}", lost + wrong])
    columns("N | ½ log2 N | hops, lists of 1 | difference | 1st, 99th percentile | longer lists | hops "
            "| 1st, 99th percentile | lookups | wrong or lost", rows)


def print_distribution() -> None:
    """How hops are distributed in rings of 4,096 nodes."""
    both = [distribution(4096, "1"), by_hops(table("circle/hops.csv"))]
    rows = [
        [hops, *(told(interval([seed[hops] for seed in shares]), 4) if max(map(len, shares)) > hops else "0"
                 for shares in both), f"{math.comb(12, hops) / 4096:.4f}"]
        for hops in range(13)
    ]
    runs = (lengths()[4096]["1"], table("circle/runs.csv"))
    columns("hops | 64 bits | 12 bits, each of a node | binomial (12, ½)",
            [*rows, ["mean", *(told(mean(one, "hops"), 3) for one in runs), "6"]])


def churn(studies: tuple[str, ...] = CRASHES) -> dict[str, dict[float, list[Row]]]:
    """The runs of these studies under churn, by setting and by the rate of joins."""
    found: dict[str, dict[float, list[Row]]] = defaultdict(lambda: defaultdict(list))
    for row in (row for study in studies for row in table(f"{study}/runs.csv")):
        setting = SILENT if row.get("drop_silent") == "false" else row.get(BITS, SILENT)
        found[setting][float(row[RATE].removesuffix("/s"))].append(row)
    return found


def print_churn(studies: tuple[str, ...], departures: str) -> None:
    """The tables of lookups under churn, for each setting; where lookups failed; and how the rings were.

    The number of the report that counts departures is `crashes` or `leaves`."""
    hops, timeouts = published("hops under churn"), published("timeouts under churn")
    failed = published("failures of 10,000 under churn")
    each, rings = [], []
    for bits, by_rate in churn(studies).items():
        rows = []
        for rate, runs in by_rate.items():
            lost, wrong, ended = bad(runs)
            seeds = [mean([row], "timeouts").mean or 0 for row in runs]
            rows.append([
                f"{rate:g}", f"{hops[rate]:.2f}", told(mean(runs, "hops"), 2), f"{timeouts[rate]:.2f}",
                told(mean(runs, "timeouts"), 3), told_range(seeds, ".3f"), f"{failed[rate]:g}", told_failures(runs),
                lost, wrong, f"{ended:,}",
            ])
            each.append([bits, f"{rate:g}", total(runs, "wrong-down"), total(runs, "wrong-newcomer"),
                         total(runs, "right-defensible") - total(runs, "right"), lost,
                         ", ".join(str(sum(bad([row])[:2])) for row in runs)])
            members = interval([float(row["mean-members"]) for row in runs])
            rings.append([bits, f"{rate:g}",
                          *(f"{total(runs, number):,}" for number in ("members", departures, "join-failed")),
                          told(members, 0), f"{total(runs, 'judged-audits'):,}",
                          *(total(runs, number) for number in ("torn-rings", "stranded", "rescues"))])
        columns("R | hops: published | hops | timeouts: published | timeouts | of each seed "
                "| failures of 10,000: published | failures of 10,000 | lost | wrong | lookups", rows)
    gone = "crashed" if departures == "crashes" else "left"
    columns(f"bits | R | names a node that has {gone} | misses a newcomer | of both: right while the lookup ran | lost "
            "| failures of each seed", each)
    columns(f"bits | R | joins | {departures} | failed joins | members | audits | torn | stranded | rescues", rings)


def print_churn_rules() -> None:
    """What each rule is worth under churn."""
    found: dict[tuple[str, ...], list[Row]] = defaultdict(list)
    for row in table("churn_rules/runs.csv"):
        found[tuple(key for key, (ours, _) in CHURN_RULES.items() if row[key] != ours)].append(row)
    rows = []
    for keys, runs in found.items():
        words = "none" if not keys else "all ten" if len(keys) == len(CHURN_RULES) else (
            f"`{keys[0]} = {CHURN_RULES[keys[0]][1]}`")
        lost, _, ended = bad(runs)
        time = interval([int(row["ended-us"]) / 1000 / bad([row])[2] for row in runs])
        rows.append([words, told(mean(runs, "hops"), 2), told(mean(runs, "timeouts"), 3), told(time, 0),
                     total(runs, "wrong-down"), total(runs, "wrong-newcomer"), lost, told_failures(runs),
                     total(runs, "torn-rings"), total(runs, "stranded"), total(runs, "join-failed"), f"{ended:,}"])
    columns("switched back | hops | timeouts | time, ms | names a node that has crashed | misses a newcomer | lost "
            "| failures of 10,000 | torn audits | stranded | failed joins | lookups", rows)


def share_of(row: Row) -> float:
    """The share that crashes in a run of repair.toml."""
    return float(row[CRASH].partition("%")[0]) / 100


def repair() -> dict[tuple[str, float], list[Row]]:
    """The runs of repair.toml, by list and by the share that crashes."""
    found: dict[tuple[str, float], list[Row]] = defaultdict(list)
    for row in table("repair/runs.csv"):
        found[row["list"], share_of(row)].append(row)
    return found


def without_whole_ring(row: Row) -> int:
    """At how many audits after the failure, one each second, not all members were in one ring."""
    return int(row["judged-audits"]) - int(row["whole-rings"])


def print_repair() -> None:
    """Lookups in the first ten minutes after a failure and in the next fifteen, and how long the ring was not whole."""
    last: dict[tuple[str, float], list[float]] = defaultdict(list)
    for row in table("repair/last.csv"):
        last[row["list"], share_of(row)].append(int(row["last-timeout-us"]) / 1e6 - 60)
    lookups, rings = [], []
    for (entries, share), runs in repair().items():
        cells: list[object] = [entries, f"{share:g}"]
        for span in ("repair.", "after."):
            lost, wrong, ended = bad(runs, span)
            timeouts = told(mean(runs, "timeouts", span), 3) if total(runs, f"{span}ended-timeouts") else "0"
            cells += [told(mean(runs, "hops", span), 2), timeouts, lost, wrong]
            if span == "repair.":
                each = [sum(bad([row], span)[:2]) for row in runs]
                cells.append(", ".join(map(str, each)) if any(each) else "0")
            cells.append(f"{ended:,}")
        lookups.append(cells)
        away = [without_whole_ring(row) for row in runs]
        whole = sum(int(row["whole-rings"]) > 0 for row in runs)
        rings.append([entries, f"{share:g}", total(runs, "rescues"), total(runs, "stranded"),
                      told_range([int(row["ringless"]) for row in runs]), total(runs, "unordered"),
                      f"{whole} of {len(runs)}", ", ".join(map(str, away)) if any(away) else "0",
                      told_range(last[entries, share])])
    columns("list | p | first ten minutes: hops | timeouts | lost | wrong | failures of each seed | lookups "
            "| then: hops | timeouts | lost | wrong | lookups", lookups)
    columns("list | p | rescues | stranded | audits without a ring | out of order | seeds with a whole ring at the end "
            "| seconds without a whole ring, each seed | last timeout, s", rings)


def loads() -> dict[float, list[Row]]:
    """The runs of load.toml, by the mean number of keys of a node, in ascending order."""
    found: dict[str, list[Row]] = defaultdict(list)
    for row in table("load/runs.csv"):
        found[row["generate.--lookup-gap"]].append(row)
    by_mean = {(interval(list(map(keys_of, runs))).mean or 0): runs for runs in found.values()}
    return dict(sorted(by_mean.items()))


def keys_of(row: Row) -> float:
    """The mean number of keys of a node, in a ring of 10,000."""
    return int(row["judged-found"]) / 10_000


def beside_mean(rows: Sequence[Row], number: str) -> Interval:
    """A number of keys beside the mean one, over the seeds."""
    return interval([int(row[number]) / keys_of(row) for row in rows])


def print_load() -> None:
    """How evenly keys are shared among nodes."""
    rows = []
    for keys, runs in loads().items():
        lost, wrong, ended = bad(runs)
        near = {number: published(figure).get(5e5) if round(keys) == 50 else None for number, figure in LOADS.items()}
        cells = [f"{keys:.1f}"]
        for number in LOADS:
            cells += ["" if near[number] is None else f"{near[number]:g}", told(beside_mean(runs, number), 2)]
        rows.append([*cells, f"{ended:,}", lost + wrong])
    columns("keys of a node: mean | 1st percentile: published | 1st percentile | 99th: published | 99th "
            "| greatest: published | greatest | keys, all seeds | wrong or lost", rows)


def stretches() -> dict[tuple[str, str], list[Row]]:
    """The runs of stretch.toml, by list and by whether the owner is asked."""
    found: dict[tuple[str, str], list[Row]] = defaultdict(list)
    for row in table("stretch/runs.csv"):
        found[row["list"], row["ask_owner"]].append(row)
    return found


def print_stretch() -> None:
    """How long lookups take beside a round trip to the owner."""
    points = published("stretch of iterative lookups by percentile")
    rows: list[list[object]] = [["published", "", *(f"{points[share]:g}" for share in STRETCHES), "", "", ""]]
    for (entries, asked), runs in stretches().items():
        lost, wrong, ended = bad(runs)
        cells = [told(interval([float(row[f"stretch-p{share}"]) for row in runs]), 2) for share in STRETCHES]
        rows.append([entries, "yes" if asked == "true" else "no", *cells, told(mean(runs, "hops"), 2), f"{ended:,}",
                     lost + wrong])
    columns("list | owner asked | 10th percentile | median | 90th percentile | hops | lookups | wrong or lost", rows)


def sites() -> dict[str, dict[int, list[Row]]]:
    """The runs of sites.toml by list and by the number of nodes, with the percentiles of their times."""
    times = {(row["list"], row[NODES], row["seed"]): row for row in table("sites/times.csv")}
    found: dict[str, dict[int, list[Row]]] = defaultdict(lambda: defaultdict(list))
    for row in table("sites/runs.csv"):
        found[row["list"]][int(row[NODES])].append({**row, **times[row["list"], row[NODES], row["seed"]]})
    return found


def milliseconds(rows: Sequence[Row], number: str) -> Interval:
    """A percentile of the times of lookups, over the seeds."""
    return interval([int(row[number]) / 1000 for row in rows])


def by_law(nodes: int) -> float:
    """Half of log2 N round trips and the one to the owner, in milliseconds."""
    return ROUND_TRIP * (math.log2(nodes) / 2 + 1)


def print_sites() -> None:
    """How long lookups take on ten sites."""
    points = published("median lookup time on ten sites, ms")
    rows: list[list[object]] = []
    by_list = sites()
    for nodes in by_list["1"]:
        cells: list[object] = [nodes, f"{points[nodes]:g}" if nodes in points else "", f"{by_law(nodes):.0f}"]
        every = []
        for runs in (by_nodes[nodes] for by_nodes in by_list.values()):
            ends = [f"{milliseconds(runs, number).mean:.0f}" for number in ("us-p5", "us-p95")]
            cells += [told(milliseconds(runs, "us-p50"), 0), ", ".join(ends), told(mean(runs, "hops"), 2)]
            every += runs
        lost, wrong, ended = bad(every)
        rows.append([*cells, f"{ended:,}", lost + wrong])
    columns("N | median, ms: published | ½ log2 N + 1 round trips of 60 ms | lists of 1: median | 5th, 95th percentile "
            "| hops | lists of 8: median | 5th, 95th percentile | hops | lookups | wrong or lost", rows)


def draw_points(axes: Any, found: dict[float, Interval], look: str, label: str) -> None:
    """Means with the bars of their intervals."""
    halves = [one.half or 0 for one in found.values()]
    axes.errorbar(list(found), [one.mean for one in found.values()], yerr=halves, fmt=look, capsize=3, label=label,
                  markersize=4, linewidth=1)


def draw_published(axes: Any, points: dict[float, float], label: str) -> None:
    """Published points: open circles."""
    axes.plot(list(points), list(points.values()), "o", mfc="none", mec="black", markersize=9, label=label, zorder=5)


def draw_failure(pyplot: Any) -> None:
    """Hops and timeouts by the share that fails."""
    runs = failure()
    figure, places = pyplot.subplots(1, 2, figsize=(10, 4.2), layout="constrained")
    for axes, number in zip(places, ("hops", "timeouts"), strict=True):
        looks = ((AS_ARTICLE, "C0.-", "the article's setting"), (NOT_ASKED, "C2.:", "the owner not asked"),
                 (DEFAULTS, "C1.--", "all keys at their defaults"))
        for setting, look, words in looks:
            means = {share: mean(runs[setting, share], number) for share in SHARES.values()}
            draw_points(axes, means, look, f"chordsim, {words}")
        draw_published(axes, published(f"{number} after a failure"), "published (ToN 2003, Table II)")
        axes.set(xlabel="share of the nodes that has failed", ylabel=f"mean {number} of a lookup")
        axes.set_ylim(0, 1.05 * axes.get_ylim()[1])
        axes.grid(alpha=0.3)
        axes.legend()
    figure.suptitle("Lookups after a simultaneous failure: 1,000 nodes, lists of 20, bars: 95% intervals of ten seeds")
    figure.savefig(FOLDER / "failure.png", dpi=110)


def draw_length(pyplot: Any) -> None:
    """Hops by the size of the ring, and their distribution."""
    figure, (left, right) = pyplot.subplots(1, 2, figsize=(10, 4.2), layout="constrained")
    runs = lengths()
    for place, look, label in ((0, "C0", "lists of 1"), (1, "C1", "lists of 2 log2 N, which route")):
        chosen = {nodes: list(lists)[place] for nodes, lists in runs.items()}
        means = {float(nodes): mean(runs[nodes][entries], "hops") for nodes, entries in chosen.items()}
        draw_points(left, means, f"{look}.-", f"chordsim, {label}: mean")
        shares = [distribution(nodes, entries) for nodes, entries in chosen.items()]
        ends = [[percentile(one, level) for one in shares] for level in (0.01, 0.99)]
        left.fill_between(list(means), *ends, color=look, alpha=0.12, label=f"{label}: 1st to 99th percentile")
        one = [interval(list(share)) for share in zip(*distribution(4096, chosen[4096]), strict=True)]
        draw_points(right, {float(hops): share for hops, share in enumerate(one)}, f"{look}.-", f"chordsim, {label}")
    draw_published(left, published("path length"), "published: about ½ log2 N")
    left.set(xlabel="nodes", ylabel="hops of a lookup", ylim=(0, 16))
    left.set_xscale("log", base=2)
    right.plot(range(13), [math.comb(12, hops) / 4096 for hops in range(13)], "k:", label="binomial (12, ½)")
    draw_published(right, published("share of lookups with so many hops"), "published top (its height is unsure)")
    right.set(xlabel="hops of a lookup, ring of 4,096 nodes", ylabel="share of the lookups", ylim=(0, 0.38))
    for axes, corner in ((left, "upper left"), (right, "upper right")):
        axes.grid(alpha=0.3)
        axes.legend(fontsize=8, loc=corner)
    figure.suptitle("Path length in rings that are just built, bars: 95% intervals of ten seeds")
    figure.savefig(FOLDER / "length.png", dpi=110)


def draw_churn(pyplot: Any) -> None:
    """Hops, timeouts and failures by the rate of joins and crashes."""
    figure, places = pyplot.subplots(1, 3, figsize=(13, 4.2), layout="constrained")
    labels = {"24": ("C0.-", "24 bits, skip_near"), "20": ("C1.--", "20 bits, 19 fingers in turn"),
              SILENT: ("C2.:", "the same, drop_silent = false")}
    for axes, number in zip(places, ("hops", "timeouts", "failures"), strict=True):
        for bits, by_rate in churn().items():
            look, words = labels[bits]
            means = {
                rate: failures(runs) if number == "failures" else mean(runs, number) for rate, runs in by_rate.items()
            }
            draw_points(axes, means, look, f"chordsim, {words}")
        named = "failures of 10,000" if number == "failures" else number
        draw_published(axes, published(f"{named} under churn"), "published (ToN 2003, Table III)")
        label = "lookups lost or wrong, of 10,000" if number == "failures" else f"mean {number} of a lookup"
        axes.set(xlabel="joins, and as many departures, a second", ylabel=label)
        axes.set_ylim(0, 1.25 * axes.get_ylim()[1])
        axes.grid(alpha=0.3)
        axes.legend(fontsize=8, loc="lower right" if number == "hops" else "upper left")
    figure.suptitle("Lookups under churn: about 1,000 nodes, lists of 20, bars: 95% intervals of ten seeds")
    figure.savefig(FOLDER / "churn.png", dpi=110)


def draw_repair(pyplot: Any) -> None:
    """The share of failed lookups after repair, and how long the ring was not whole, by the share that crashes."""
    figure, (left, right) = pyplot.subplots(1, 2, figsize=(10, 4.2), layout="constrained")
    by_list: dict[str, dict[float, list[Row]]] = defaultdict(dict)
    for (entries, share), runs in repair().items():
        by_list[entries][share] = runs
    for (entries, by_share), look in zip(by_list.items(), ("C0.-", "C1.--"), strict=True):
        means = {}
        for share, runs in by_share.items():
            counts = [bad([row], "after.") for row in runs]
            means[share] = interval([(lost + wrong) / ended for lost, wrong, ended in counts])
            right.plot([share] * len(runs), [without_whole_ring(row) for row in runs], look[:3], alpha=0.6,
                       label=f"chordsim, lists of {entries}: each seed" if share == 0.5 else None)
        draw_points(left, means, look, f"chordsim, lists of {entries}: lost or wrong")
    draw_published(left, published("failed lookups after repair"), "published: the key was lost (SIGCOMM 2001)")
    left.set(ylabel="share of lookups that fail after repair", ylim=(-0.02, 0.6))
    right.set(ylabel="seconds until all members are in one ring", ylim=(-50, 1700))
    right.axhline(1530, color="black", linewidth=0.8, linestyle=":", label="the end of the run")
    for axes in (left, right):
        axes.set(xlabel="share of the nodes that has failed")
        axes.grid(alpha=0.3)
        axes.legend(fontsize=8, loc="upper left")
    figure.suptitle("After a simultaneous failure: 1,000 nodes, stabilization each 30 s, ten seeds")
    figure.savefig(FOLDER / "repair.png", dpi=110)


def draw_load(pyplot: Any) -> None:
    """How evenly keys are shared, and how long lookups take beside a round trip."""
    figure, (left, right) = pyplot.subplots(1, 2, figsize=(10, 4.2), layout="constrained")
    words = {"owned-p1": "1st percentile", "owned-p99": "99th percentile", "owned-most": "greatest"}
    for (number, named), look in zip(words.items(), ("C0.-", "C1.--", "C2.:"), strict=True):
        means = {keys: beside_mean(runs, number) for keys, runs in loads().items()}
        draw_points(left, means, look, f"chordsim, {named}")
    near = [next(iter(published(figure).values())) for figure in LOADS.values()]
    left.plot([50] * len(near), near, "o", mfc="none", mec="black", markersize=9, label="published (SIGCOMM 2001)")
    left.set(xlabel="keys of a node, mean; 10,000 nodes", ylabel="keys of a node beside the mean", ylim=(-0.5, 18))
    looks = {"1": "C0", "32": "C1"}, {"false": ".--", "true": ".-"}
    for (entries, asked), runs in stretches().items():
        means = {float(share): interval([float(row[f"stretch-p{share}"]) for row in runs]) for share in STRETCHES}
        label = f"chordsim, lists of {entries}, owner {'asked' if asked == 'true' else 'not asked'}"
        draw_points(right, means, looks[0][entries] + looks[1][asked], label)
    draw_published(right, published("stretch of iterative lookups by percentile"), "published, iterative (ToN 2003)")
    right.set(xlabel="percentile of the lookups; 65,536 nodes", ylabel="time beside a round trip to the owner")
    for axes in (left, right):
        axes.grid(alpha=0.3)
        axes.legend(fontsize=8, loc="upper left")
    figure.suptitle("Load balance and stretch, bars: 95% intervals of five seeds")
    figure.savefig(FOLDER / "load.png", dpi=110)


def draw_sites(pyplot: Any) -> None:
    """How long lookups take on ten sites, by the number of nodes."""
    figure, axes = pyplot.subplots(figsize=(7, 4.4), layout="constrained")
    for (entries, by_nodes), look in zip(sites().items(), ("C0.-", "C1.--"), strict=True):
        label = f"chordsim, lists of {entries}"
        means = {float(nodes): milliseconds(runs, "us-p50") for nodes, runs in by_nodes.items()}
        draw_points(axes, means, look, f"{label}: median")
        ends = [[milliseconds(runs, end).mean for runs in by_nodes.values()] for end in ("us-p5", "us-p95")]
        axes.fill_between(list(means), *ends, color=look[:2], alpha=0.12, label=f"{label}: 5th to 95th percentile")
    sizes = range(10, 181)
    axes.plot(sizes, [by_law(nodes) for nodes in sizes], "k:", label="½ log2 N + 1 round trips of 60 ms")
    draw_published(axes, published("median lookup time on ten sites, ms"), "published median (SIGCOMM 2001)")
    axes.set(xlabel="nodes, as many on each of ten sites", ylabel="time of a lookup, ms", xlim=(0, 190), ylim=(0, 640))
    axes.grid(alpha=0.3)
    axes.legend(fontsize=8, loc="upper left", ncols=2)
    figure.suptitle("Lookup times on ten sites, bars: 95% intervals of ten seeds")
    figure.savefig(FOLDER / "sites.png", dpi=110)


def print_tables() -> None:
    """All tables."""
    print_failure()
    print_rules()
    print_churn(CRASHES, "crashes")
    print_churn(LEAVES, "leaves")
    print_churn_rules()
    print_repair()
    print_length()
    print_distribution()
    print_load()
    print_stretch()
    print_sites()


def keep(name: str, rows: Sequence[Row]) -> None:
    """Writes a table."""
    with open(FOLDER / name, "w", encoding="utf-8", newline="") as file:
        writer = csv.DictWriter(file, list(rows[0]), lineterminator="\n")
        writer.writeheader()
        writer.writerows(rows)


def keep_hops() -> None:
    """Keeps the lines of hops of the studies' cdf.csv, which are large."""
    for study in ("length", "circle"):
        if (FOLDER / study / "cdf.csv").exists():
            keep(f"{study}/hops.csv", [row for row in table(f"{study}/cdf.csv") if row.pop("number") == "hops"])


def keep_last() -> None:
    """Keeps the end of the last second with a timeout of each run of repair.toml; steps.csv is large."""
    if (FOLDER / "repair/steps.csv").exists():
        last: dict[tuple[str, ...], Row] = {}
        for row in table("repair/steps.csv"):
            if int(row["timeouts"]):
                keys = {key: row[key] for key in ("list", CRASH, "seed")}
                last[tuple(keys.values())] = {**keys, "last-timeout-us": str(int(row["from_us"]) + 1_000_000)}
        keep("repair/last.csv", list(last.values()))


def keep_times() -> None:
    """Keeps percentiles of the times of each run of sites.toml: of cdf.csv, those whose shares are nearest."""
    if (FOLDER / "sites/cdf.csv").exists():
        runs: dict[tuple[str, ...], list[Row]] = defaultdict(list)
        for row in table("sites/cdf.csv"):
            if row["number"] == "us":
                runs[row["list"], row[NODES], row["seed"]].append(row)
        keep("sites/times.csv", [
            {**dict(zip(("list", NODES, "seed"), run, strict=True)),
             **{name: nearest(rows, share) for name, share in TIMES.items()}} for run, rows in runs.items()
        ])


def nearest(rows: Iterable[Row], share: float) -> str:
    """The value within which the share of the lookups is nearest to this one."""
    return min(rows, key=lambda row: abs(float(row["share"]) - share))["value"]


def main() -> None:
    """All tables and plots."""
    keep_hops()
    keep_last()
    keep_times()
    print_tables()
    pyplot = importlib.import_module("matplotlib.pyplot")
    draw_failure(pyplot)
    draw_churn(pyplot)
    draw_repair(pyplot)
    draw_length(pyplot)
    draw_load(pyplot)
    draw_sites(pyplot)


if __name__ == "__main__":
    main()
