"""Tables: rows of one form, and how pandas and Arrow take them."""

import importlib
from collections.abc import Mapping, Sequence
from dataclasses import dataclass
from typing import Any, Generic, TypeVar, overload

from chordsim.errors import Failed

Cell = str | int | float | bool | None
Row = TypeVar("Row", bound=tuple[Cell, ...] | Mapping[str, Cell])
ARROW = {"boolean": "bool_", "Int64": "int64", "Float64": "float64", "string": "string", "object": "string"}
"""The types of Arrow for those of pandas."""


@dataclass(frozen=True, repr=False)
class Table(Sequence[Row], Generic[Row]):
    """Rows of one form, in their order. They never change."""

    names: tuple[str, ...]
    """The columns."""
    rows: tuple[Row, ...]

    @property
    def columns(self) -> dict[str, list[Cell]]:
        """The cells of each column. What is not there is None."""
        lines = [list(row.values()) if isinstance(row, Mapping) else list(row) for row in self.rows]
        return {name: [line[place] for line in lines] for place, name in enumerate(self.names)}

    def to_pandas(self) -> Any:
        """The table as a pandas.DataFrame, with types that can miss values. Integers beyond 64 bits are objects."""
        pandas = library("pandas")
        return pandas.DataFrame({
            name: pandas.array(cells, dtype=type_of(cells)) for name, cells in self.columns.items()
        })

    def to_arrow(self) -> Any:
        """The table as a pyarrow.Table. Integers beyond 64 bits are texts."""
        arrow = library("pyarrow")
        arrays = {}
        for name, cells in self.columns.items():
            kind = type_of(cells)
            whole = [None if cell is None else str(cell) for cell in cells] if kind == "object" else cells
            arrays[name] = arrow.array(whole, type=getattr(arrow, ARROW[kind])())
        return arrow.table(arrays)

    @overload
    def __getitem__(self, place: int) -> Row: ...

    @overload
    def __getitem__(self, place: slice) -> "Table[Row]": ...

    def __getitem__(self, place: int | slice) -> "Row | Table[Row]":
        """A row, or a table of some rows."""
        return Table(self.names, self.rows[place]) if isinstance(place, slice) else self.rows[place]

    def __len__(self) -> int:
        """How many rows there are."""
        return len(self.rows)

    def __repr__(self) -> str:
        """The columns, and how many rows there are."""
        return f"<Table of {len(self.rows)} rows: {', '.join(self.names)}>"


def type_of(cells: Sequence[Cell]) -> str:
    """The type of pandas that holds these cells as they are."""
    there = [cell for cell in cells if cell is not None]
    kinds = {type(cell) for cell in there}
    if kinds == {bool}:
        return "boolean"
    if kinds == {int}:
        return "Int64" if all(-2**63 <= cell < 2**63 for cell in there if isinstance(cell, int)) else "object"
    if kinds and kinds <= {int, float}:
        return "Float64"
    return "string" if kinds == {str} else "object"


def library(name: str) -> Any:
    """A library that not every user has."""
    try:
        return importlib.import_module(name)
    except ImportError as fault:
        raise Failed(f"{name} cannot be imported: {fault}", f"install it, as by `pip install {name}`") from None
