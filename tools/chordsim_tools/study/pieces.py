"""Numbers in pieces of the judged span, by which a page sees whether they are steady."""

from collections.abc import Iterable

from chordsim_tools.members import Members
from chordsim_tools.study.judged import Judged
from chordsim_tools.study.reading import LineReader, Taker
from chordsim_tools.study.served import Integral, Scope

LEAST_LOOKUPS = {"50": 10, "90": 20, "99": 100, "99.9": 1000}
"""The percentiles, and how many lookups each piece needs to have one."""
COLUMN = "pieces-"
"""How the columns of runs.csv begin that have a number for each piece, with blanks between them. Except for the
percentiles, what follows is the name of the column that has the number of the whole span."""


def ranked(times: list[int], lost: int, share: str) -> str:
    """A percentile of the times by nearest rank, or nothing. A lookup without an answer never ends."""
    count = len(times) + lost
    place = (count * round(10 * float(share)) + 999) // 1000
    return str(times[place - 1]) if LEAST_LOOKUPS[share] <= count and place <= len(times) else ""


def cell_of(values: Iterable[int]) -> str:
    """A number of each piece, as a cell of runs.csv."""
    return " ".join(map(str, values))


class Pieces(LineReader):
    """Reads the lines of nodes. Lookups count by their begin; those that are cut off are left out."""

    def __init__(self, scope: Scope, members: Members) -> None:
        """No lines yet. The members are those of the reader of the trace, which reads each line before."""
        self.scope = scope
        self.members = members
        self.member_time = Integral(scope.edges(), len(members.places))

    def takers(self) -> Iterable[tuple[str, Taker]]:
        """The lines that change the members."""
        return [(word, self.move) for word in ("member", "create", "crash", "leave", "stranded")]

    def move(self, time: int, _fields: list[str]) -> None:
        """A member comes or goes."""
        self.member_time.change(time, len(self.members.places) - self.member_time.count)

    def numbers(self, judged: Judged) -> dict[str, int | str | None]:
        """What a row of runs.csv has of it, at the end of the run."""
        self.member_time.change(self.scope.duration_us, 0)
        columns = {
            "judged-found": [len(piece.answered) for piece in judged.pieces],
            "judged-lost": [len(piece.lost) for piece in judged.pieces],
            **{f"ended-{word}": [piece.sum_of(word) for piece in judged.pieces] for word in ("hops", "timeouts", "us")},
            "cost-member-us": self.member_time.sums,
        }
        return {f"{COLUMN}{word}": cell_of(values) for word, values in columns.items()} | percentiles(judged)


def percentiles(judged: Judged) -> dict[str, int | str | None]:
    """The times. One that a piece does not have is left out in all."""
    found: dict[str, int | str | None] = {}
    lost = [len(piece.lost) for piece in judged.pieces]
    for share in LEAST_LOOKUPS:
        cells = [ranked(*piece, share) for piece in zip(judged.times_in_pieces, lost, strict=True)]
        found[f"{COLUMN}us-p{share}"] = " ".join(cells) if all(cells) else None
    return found
