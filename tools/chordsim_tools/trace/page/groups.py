"""The groups of nodes that a page has colours for: by a file, or by the nodes' names."""

from chordsim_tools.cli import Refused
from chordsim_tools.files import read_input
from chordsim_tools.scenario.tables import GREATEST_SIZE, rows_of


MOST_GROUPS = 12
"""If the names make more groups than this, they are hardly meant as groups."""


def groups_by_name(names: list[str]) -> list[str]:
    """The group of each node: what is before the last hyphen of its name, or nothing."""
    groups = [name.rpartition("-")[0] for name in names]
    return groups if len(set(groups)) <= MOST_GROUPS else [""] * len(names)


def read_groups(file: str, names: list[str]) -> list[str]:
    """The group of each node by the rows NODE,GROUP of a file. A node that has no row is in no group."""
    groups: dict[str, str] = dict.fromkeys(names, "")
    for row in rows_of(read_input(file, GREATEST_SIZE)):
        if len(row.fields) != 2:
            raise Refused(f"{file}: line {row.line} is not NODE,GROUP")
        name, group = row.fields
        if name not in groups:
            raise Refused(f"{file}: line {row.line}: the scenario has no node {name[:120]!r}")
        groups[name] = group.strip()
    return list(groups.values())
