"""The classes of nodes of a scenario that is made: nodes that are alike have one table."""

from collections import Counter
from collections.abc import Iterable, Sequence
from dataclasses import asdict, dataclass, replace

from chordsim_tools.cli import Failure
from chordsim_tools.generate.plan import Plan
from chordsim_tools.known import known
from chordsim_tools.places import Square, streams_of
from chordsim_tools.reference.circle import Circle
from chordsim_tools.scenario.classes import class_places
from chordsim_tools.scenario.coordinates import Coordinates
from chordsim_tools.scenario.tables import MOST_CLASSES, MOST_OF_PREFIX

Kind = tuple[str, bool, bool, bool, Coordinates | None]
"""What nodes are alike in: their group, whether they are initial, churn and are bootstrap nodes, and their place.

If the places of a class are drawn, this is the corner of their square."""
LETTERS = ("", *"bcdefghijklmnop")
"""What is in the names of the nodes of each kind of a group."""


@dataclass(frozen=True)
class NodeClass:
    """Nodes that are alike, by their numbers, and what their names begin with.

    So many of them, the first ones, are in one table, and the others have tables of their own."""

    prefix: str
    nodes: list[int]
    counted: int

    def name(self, place: int) -> str:
        """The name of the node at a place of these."""
        return f"{self.prefix}{place}"


def churns(plan: Plan, node: int) -> bool:
    """Whether a node churns by itself."""
    return plan.churn is not None and node >= plan.stay


def kind_of(plan: Plan, node: int, is_initial: bool) -> Kind:
    """What the class of a node has."""
    place = plan.places[node] if plan.places else None
    return plan.hosts[node].group, is_initial, churns(plan, node), node < plan.bootstraps, place


def nodes_by_kind(plan: Plan, initial: set[int]) -> dict[Kind, list[int]]:
    """The nodes of each kind."""
    kinds: dict[Kind, list[int]] = {}
    for node in range(plan.nodes):
        kinds.setdefault(kind_of(plan, node, node in initial), []).append(node)
    return kinds


def classes_of(plan: Plan, initial: set[int]) -> list[NodeClass]:
    """The nodes of each kind, in the order of their first nodes. If a plan has no classes there are none."""
    if not plan.is_classed:
        return []
    kinds = nodes_by_kind(plan, initial)
    if len(kinds) > MOST_CLASSES:
        told = f"the nodes are of {len(kinds)} kinds, and a scenario has at most {MOST_CLASSES} classes"
        raise Failure(2, f"--nodes: {told}; fewer groups make fewer")
    of_group: Counter[str] = Counter()
    classes = []
    for (group, *_), nodes in kinds.items():
        prefix = prefix_of(plan, group, LETTERS[of_group[group]])
        classes.append(NodeClass(prefix, nodes, len(nodes) if len(nodes) > 1 else 0))
        of_group[group] += 1
    check_idents(plan, names_of(plan, classes))
    return with_another(classes) if len(alone_of(classes)) == 1 else classes


def alone_of(classes: Iterable[NodeClass]) -> list[int]:
    """The nodes that have tables of their own."""
    return [node for one in classes for node in one.nodes[one.counted :]]


def counted_of(classes: Iterable[NodeClass]) -> list[NodeClass]:
    """The classes that have tables."""
    return [one for one in classes if one.counted > 0]


def with_another(classes: list[NodeClass]) -> list[NodeClass]:
    """The same classes, of which the greatest leaves its last node alone: there are no tables [[node]], or two or more.

    A class of two leaves both."""
    greatest = max(classes, key=lambda one: one.counted)
    left = replace(greatest, counted=greatest.counted - 1 if greatest.counted > 2 else 0)
    return [left if one is greatest else one for one in classes]


def place_of(plan: Plan, node: int) -> Coordinates:
    """The place of a node that has a table of its own. If there is a square, it is drawn here as without classes."""
    place = plan.places[node]
    if plan.side == 0:
        return place
    square = Square(plan.side, place.height_us, place.height_us)
    return square.draw(streams_of(plan.top["seed"], node + 1)[node])


def drawn_places(plan: Plan, classes: Sequence[NodeClass]) -> Sequence[Coordinates]:
    """The places of all nodes, with those that the program draws."""
    if plan.side == 0:
        return plan.places
    places = [place_of(plan, node) for node in alone_of(classes)]
    for number, one in enumerate(counted_of(classes)):
        table = {"count": one.counted, **asdict(plan.places[one.nodes[0]]), "side_us": plan.side}
        places += map(known, class_places(plan.top["seed"], number, table))
    return places


def prefix_of(plan: Plan, group: str, letter: str) -> str:
    """What the names of the nodes of a kind begin with: the seed is in it, so that each seed has other identifiers."""
    prefix = (f"{group}-" if group else "n") + letter + ("" if plan.are_names else f"{plan.top['seed']}.")
    if len(prefix) > MOST_OF_PREFIX:
        told = f"names of a class begin with at most {MOST_OF_PREFIX} characters, and {prefix} has {len(prefix)}"
        raise Failure(2, f"--group: {told}; take a shorter NAME" + ("" if plan.are_names else ", or --ids names"))
    return prefix


def names_of(plan: Plan, classes: Iterable[NodeClass]) -> list[str]:
    """The name of each node."""
    names = [host.name for host in plan.hosts]
    for one, place, node in ((one, place, node) for one in classes for place, node in enumerate(one.nodes)):
        names[node] = one.name(place)
    return names


def check_idents(plan: Plan, names: Sequence[str]) -> None:
    """Refuses names of which two have the same identifier, since a node of a class has no other."""
    circle = Circle(plan.top["bits"])
    if len({circle.identifier_of_name(name) for name in names}) < len(names):
        told = f"the names of two of the {len(names)} nodes have the same identifier of {circle.bits} bits"
        raise Failure(2, f"--bits: {told}; more bits" + ("" if plan.are_names else ", or another --seed"))
