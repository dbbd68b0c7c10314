"""What tools/latency does by --fit and --king: coordinates of nodes, in place of a row for each pair."""

from collections.abc import Sequence
from dataclasses import dataclass

from chordsim_tools.cli import Refused
from chordsim_tools.draws import Draws
from chordsim_tools.files import read_input
from chordsim_tools.latency.fit import Pair, errors_of, fitted
from chordsim_tools.places import King, places_of
from chordsim_tools.scenario.coordinates import Coordinates, greatest_latency, least_latency
from chordsim_tools.scenario.faults import Document, faults_of
from chordsim_tools.scenario.tables import GREATEST_SIZE, rows_of
from chordsim_tools.study.survival import percentile


@dataclass(frozen=True)
class Placed:
    """The coordinates of some nodes; if they were fitted, the errors of all pairs in hundredths of a per cent."""

    names: list[str]
    places: Sequence[Coordinates]
    errors: list[int]

    def facts(self) -> str:
        """What is said at the end."""
        told = f"nodes {len(self.names)}, "
        if self.errors:
            median, most = (percentile(self.errors, share) or 0 for share in (50, 90))
            told += f"pairs {len(self.errors)}, relative error: median {median / 100:.2f} %, "
            told += f"90th percentile {most / 100:.2f} %; "
        least = least_latency(self.places)
        return f"{told}greatest latency {greatest_latency(self.places)} us; window_us may be at most {least}\n"


def read_pairs(file: str) -> tuple[list[str], list[Pair]]:
    """The nodes of a latency file, in the order in which they are first named, and its rows."""
    rows = rows_of(read_input(file, GREATEST_SIZE))
    for fault in faults_of(Document(None, rows)):
        raise Refused(f"{file}: {fault.text}")
    if not rows:
        raise Refused(f"{file}: there is no row")
    names = list(dict.fromkeys(name for row in rows for name in row.fields[:2]))
    numbers = {name: number for number, name in enumerate(names)}
    return names, [(numbers[row.fields[0]], numbers[row.fields[1]], int(row.fields[2])) for row in rows]


def placed_by_fit(file: str, wanted: list[str] | None, floor: int | None, seed: int) -> Placed:
    """Coordinates fitted to a latency file. No latency of theirs is below the floor, or the least one of the file.

    All nodes of the file are fitted; those that are wanted are kept, in their order."""
    names, pairs = read_pairs(file)
    least = min(micros for *_, micros in pairs) if floor is None else floor
    places = dict(zip(names, fitted(pairs, len(names), (least + 1) // 2, Draws(seed)), strict=True))
    kept = names if wanted is None else wanted
    missing = next((name for name in kept if name not in places), None)
    if missing is not None:
        raise Refused(f"{file}: no row names {missing}")
    return Placed(kept, [places[name] for name in kept], errors_of(pairs, list(places.values())))


def placed_by_king(names: list[str], floor: int | None, seed: int) -> Placed:
    """Coordinates that are made, of these nodes."""
    law = King() if floor is None else King((floor + 1) // 2)
    return Placed(names, places_of(law, seed, names), [])
