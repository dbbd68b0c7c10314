"""`tools/study compare`: two settings of a study that was run, as a text and as a table."""

from pathlib import Path

from chordsim_tools.cli import Refused, write_out
from chordsim_tools.files import write_whole
from chordsim_tools.study.compare import Pair, error_told, scale_of, settings_of
from chordsim_tools.study.exact import mcnemar, share_interval
from chordsim_tools.study.interval import outward
from chordsim_tools.study.names import is_wild, name_of
from chordsim_tools.study.numbers import Summary, has_number
from chordsim_tools.study.so_far import whole_tables
from chordsim_tools.study.tables import csv_text


def parts_of(label: str) -> list[str]:
    """The keys of a label with their values, in one order, so that a label may have them in any."""
    return sorted(label.replace(" ", "").split(","))


def named(found: list[Summary], name: str) -> Summary:
    """The setting of a label or of a number, from 1."""
    for place, one in enumerate(found, start=1):
        if name == str(place) or parts_of(name) == parts_of(one.label):
            return one
    labels = "; ".join(f"{place}: {one.label}" for place, one in enumerate(found, start=1))
    raise Refused(f"no setting {name!r}; there are {labels}")


def numbers_of(pair: Pair) -> list[str]:
    """The numbers that the tables have, those of the spans after the others."""
    return [number for number in pair.first.numbers if has_number(number, pair.first.rows[0])]


def table_of(pair: Pair) -> list[list[str]]:
    """A line a number: both means, the mean difference, its interval, the seeds that it is over, and equal runs."""
    lines = [["A", "B", "number", "mean-A", "mean-B", "difference", "half", "low", "high", "seeds", "of", "equal-runs",
              "estimate-off"]]
    for number in numbers_of(pair):
        found = pair.difference(number)
        means = (one.numbers[number].mean for one in (pair.first, pair.second))
        numbers = (*means, found.mean, found.half, *(found.ends() or (None, None)))
        cells = ["" if value is None else f"{value:.6g}" for value in numbers]
        counts = [str(count) for count in (found.count, found.of, pair.equal())]
        lines.append([pair.first.label, pair.second.label, number, *cells, *counts, f"{pair.error(number):.6g}"])
    return lines


def differing(equal: int, seeds: int) -> str:
    """How many worlds may have other runs, if so many of the seeds have the same run in both settings."""
    most = outward(100 * share_interval(seeds - equal, seeds, 0.9)[1], 2, 1)
    return f"the same run in {equal} of {seeds} seeds: at most {most:g} % of runs differ (95%)"


def line_of(pair: Pair, number: str, width: int) -> str:
    """The line of a number, whose name takes so much place."""
    unit, scale = scale_of(number)
    found = pair.difference(number)
    told = f"  {name_of(number):<{width}} {found.told(scale)} {'' if found.mean is None else unit}".rstrip()
    more, less = pair.more_and_less(number)
    if found.mean is None or more + less == 0:
        # Seeds that were left out are no likeness.
        is_whole = found.count == found.of
        equal = "all seeds" if is_whole else f"the {found.count} seeds in which both kept their rings"
        return told + (f"  equal in {equal}" if found.count else "") + "\n"
    signs = f"A more in {more}, less in {less}" if is_wild(number) else ""
    return "  ".join(filter(None, (told, signs, error_told(pair.error(number)), pair.verdict(number)))) + "\n"


def text_of(pair: Pair) -> str:
    """What the command prints."""
    seeds, equal = len(pair.seeds()), pair.equal()
    text = f"A: {pair.first.label}\nB: {pair.second.label}\n\nrings kept: A {pair.first.kept_told()}, "
    text += f"B {pair.second.kept_told()}; only A lost its ring in {pair.lost()[0]} seeds, only B in {pair.lost()[1]}"
    text += f" (exact test of McNemar: p = {mcnemar(*pair.lost()):.2g})\n"
    if equal:
        text += f"\n{differing(equal, seeds)}\n"
    if equal == seeds:
        return text
    text += f"\nA less B, paired by seed ({seeds} seeds):\n"
    width = max(15, *(len(name_of(number)) for number in numbers_of(pair)))
    return text + "".join(line_of(pair, number, width) for number in numbers_of(pair)) + (
        "\nServed is over all seeds, all other numbers over those in which both kept their rings. ± is half of a 95% "
        "interval\nof the mean difference (Student's t). (low..high) is one that holds for any law (by betting); such "
        "numbers are also\ncompared by the exact sign test. Each line is a comparison by itself: of ten numbers that "
        "are equal, one or the other\nmay seem to differ.\n"
    )


def write_comparison(folder: Path, first: str, second: str, study: Path | None = None) -> None:
    """Prints the comparison and writes compare.csv."""
    found = settings_of(whole_tables(folder, study))
    pair = Pair(named(found, first), named(found, second))
    if pair.first is pair.second:
        raise Refused(f"A and B are the same setting: {pair.first.label}")
    if not pair.seeds():
        raise Refused(f"{folder}: {pair.first.label} and {pair.second.label} have no seed in common")
    write_whole(folder / "compare.csv", csv_text([list(line) for line in table_of(pair)]))
    write_out(text_of(pair))
