"""The latencies of a run between any two nodes, by their names."""

import csv
import io
from collections.abc import Iterable
from itertools import repeat
from typing import Any

from chordsim_tools.scenario.coordinates import coordinates_of


class Latencies:
    """The latencies of a scenario and the rows of its latency file, without the spread. All nodes have coordinates, or
    none has."""

    def __init__(self, top: dict[str, Any], rows: bytes) -> None:
        """Both were accepted by the program."""
        text = rows.decode("utf-8", "replace").removeprefix("\ufeff")
        columns = list(zip(*filter(None, csv.reader(io.StringIO(text, newline="")))))
        firsts, seconds, texts = columns or ((), (), ())
        micros = list(map(int, texts))
        names = [node["name"] for node in top["node"]]
        self.usual = int(top["latency_us"])
        self.of_pairs = dict(zip(zip(firsts, seconds), micros))
        self.of_pairs.update(zip(zip(seconds, firsts), micros))
        self.of_pairs.update(zip(zip(names, names), repeat(1)))
        places = zip(names, map(coordinates_of, top["node"]))
        self.places = {name: place for name, place in places if place is not None}

    def between(self, first: str, second: str) -> int:
        """That of a pair."""
        if first != second and self.places:
            return self.places[first].latency_to(self.places[second])
        return self.of_pairs.get((first, second), self.usual)

    def of_all(self, firsts: Iterable[str], seconds: Iterable[str]) -> list[int]:
        """Those of many pairs."""
        if not self.places:
            return list(map(self.of_pairs.get, zip(firsts, seconds), repeat(self.usual)))
        pairs = list(zip(firsts, seconds))
        known = {pair: self.between(*pair) for pair in set(pairs)}
        return list(map(known.__getitem__, pairs))
