"""The world of a setting and a seed: its scenario and its latencies, fixed or made for this seed."""

import io
from argparse import Namespace
from collections.abc import Callable, Mapping, Sequence
from contextlib import redirect_stderr
from functools import lru_cache
from pathlib import Path
from typing import Any, TypeVar

from chordsim_tools.cli import Failure, Parser, Refused
from chordsim_tools.generate import arguments as made_by
from chordsim_tools.generate import command as generate
from chordsim_tools.generate.bare import LIMITS, bare_traps
from chordsim_tools.latency import command as latency
from chordsim_tools.place import tool
from chordsim_tools.scenario.classes import expanded
from chordsim_tools.study.document import toml_text
from chordsim_tools.study.keys import BOOLEANS, COUNT, OF_GENERATE, parsed
from chordsim_tools.study.plan import Setting, Study

FILES = ("regions", "measured", "names")
"""The arguments of tools/latency that are files."""
T = TypeVar("T")
COUNTED = 4
"""The profile whose runs have lines for each message, which a study counts."""


def scenario_of(study: Study, setting: Setting, seed: int) -> str:
    """The scenario of a setting and a seed."""
    try:
        return toml_text(changed_top(study, setting, seed))
    except TypeError as fault:
        raise Refused(f"{study.path if study.base is None else study.beside(study.base)}: {fault}") from None


def changed_top(study: Study, setting: Setting, seed: int) -> dict[str, Any]:
    """The top table of a setting and a seed: that of the base, or of the made world, but for these keys."""
    top = top_of(study, setting, seed)
    for key, value in setting:
        table, dot, name = key.partition(".")
        if key == COUNT:
            top["nodes"] = [{**top["nodes"][0], name: value}]
        elif not dot:
            top[key] = value == "true" if key in BOOLEANS else value
        elif table != "generate" and isinstance(top.get(table, {}), dict):
            top[table] = {**top.get(table, {}), name: value}
    top["seed"] = seed
    if top.get("profile") == COUNTED:
        top["detail"] = True
    return top


def top_of(study: Study, setting: Setting, seed: int) -> dict[str, Any]:
    """The top table that a setting changes: of the base, or of the world that is made for the seed."""
    if study.generate is None:
        return dict(study.scenario)
    return dict(made(study.path, arguments_of(study, setting, seed)))


def arguments_of(study: Study, setting: Setting, seed: int) -> tuple[str, ...]:
    """The arguments of tools/generate for a setting and a seed. A varied option takes the place of the study's own."""
    varied = {key.removeprefix(OF_GENERATE): str(value) for key, value in setting if key.startswith(OF_GENERATE)}
    kept: list[str] = []
    takes = True
    for word in study.generate or []:
        if word.startswith("--"):
            takes = word.partition("=")[0] not in varied
        if takes:
            kept.append(word)
    again = [word for name, value in varied.items() for word in (name, *value.split(" "))]
    return (*kept, *again, "--seed", str(seed))


def generated(study: Study, setting: Setting, seed: int) -> str:
    """The text of the scenario that tools/generate makes of a study's arguments."""
    return text_of(str(study.path), arguments_of(study, setting, seed))


# The settings of one seed mostly share a world, and follow each other only after all other seeds.
@lru_cache(maxsize=256)
def made(path: Any, arguments: tuple[str, ...]) -> dict[str, Any]:
    """The document that tools/generate makes."""
    top = parsed(path, text_of(str(path), arguments).encode())
    for node in top.get("node", []):
        # Identifiers stay behind the other keys, so that the results of earlier studies are still those of their runs.
        if "id" in node:
            node["id"] = node.pop("id")
    return top


def forget_worlds() -> None:
    """Forgets the worlds that were made, since the files that they were made of may have changed."""
    made.cache_clear()
    rows_text.cache_clear()


def text_of(path: str, arguments: tuple[str, ...]) -> str:
    """What tools/generate writes for these arguments."""
    # A file is named relative to the study file.
    folder = Path(path).parent
    return called(
        f"{path}: generate", lambda: generate.text_of_arguments(arguments, made_by.parser_of(), folder)
    )


def argument_traps(study: Study) -> list[str]:
    """Times without a unit in the arguments of a study, each once. `tell_traps` has the traps of scenarios."""
    told: list[str] = []
    if study.generate is not None:
        for setting in study.settings():
            told += bare_times(study, made_by.parser_of(), arguments_of(study, setting, study.seeds[0]), LIMITS)
    if study.latency_arguments is not None:
        told += bare_times(study, latency.parser_of(), study.latency_arguments, latency.TIMES)
    return list(dict.fromkeys(told))


def bare_times(study: Study, parser: Parser, arguments: Sequence[str], limits: Mapping[str, int]) -> list[str]:
    """What a tool warns of that has these arguments."""
    return [f"{name_of(parser)}: {trap}" for trap in bare_traps(parsed_by(parser, study, arguments), limits)]


def name_of(parser: Parser) -> str:
    """A tool as messages name it."""
    return parser.prog.removeprefix("tools/")


def parsed_by(parser: Parser, study: Study, arguments: Sequence[str]) -> Namespace:
    """The arguments of a study as a tool reads them."""
    return called(f"{study.path}: {name_of(parser)}", lambda: parser.parse_args(list(arguments)))


def called(name: str, work: Callable[[], T]) -> T:
    """Calls a tool in this process. What it says of its arguments becomes the reason of a refusal."""
    said = io.StringIO()
    try:
        with redirect_stderr(said):
            return work()
    except SystemExit:
        raise Refused(f"{name}: {' '.join(said.getvalue().split())}") from None
    except Failure as fault:
        raise Refused(f"{name}: {fault.text}") from None


def latency_of(study: Study, setting: Setting, seed: int) -> bytes | None:
    """The latency file of a setting and a seed, if the study has one: the same for all, or made for the seed."""
    if study.latency_arguments is None:
        return study.latency_content
    names = tuple(node["name"] for node in expanded(changed_top(study, setting, seed), is_drawn=False)["node"])
    return rows_of(study, tuple(study.latency_arguments), names, seed)


@lru_cache(maxsize=64)
def rows_text(path: str, folder: str, arguments: tuple[str, ...], names: tuple[str, ...]) -> bytes:
    """What tools/latency writes for these arguments, and these nodes if the arguments name none.

    Files are named relative to the study file."""

    def work() -> bytes:
        """The tool itself."""
        parser = latency.parser_of()
        args = parser.parse_args(list(arguments))
        if args.king or args.fit is not None:
            raise Refused(f"{path}: latency has --{'king' if args.king else 'fit'}, which makes coordinates; give them "
                          f"to {tool('generate')} by --coordinates")
        for word in FILES:
            name = getattr(args, word)
            setattr(args, word, None if name is None else str(Path(folder) / name))
        options = latency.check(args, parser)
        nodes = list(names) or latency.nodes_of(options)
        return latency.rows_text(nodes, latency.latencies(options, nodes)).encode()

    return called(f"{path}: latency", work)


def rows_of(study: Study, arguments: tuple[str, ...], names: tuple[str, ...], seed: int) -> bytes:
    """The latencies of these nodes for a seed, or of the nodes that the arguments name."""
    has_names = any(word.partition("=")[0] in ("--names", "--nodes") for word in arguments)
    whole = (*arguments, *(() if has_names else ("--nodes", str(len(names)))), "--seed", str(seed))
    return rows_text(str(study.path), str(study.path.parent), whole, () if has_names else names)
