"""The command tools/generate."""

from argparse import Namespace
from collections.abc import Sequence
from dataclasses import replace
from pathlib import Path

from chordsim_tools.cli import Failure, Parser, run, say
from chordsim_tools.explain.traps import duration_traps, timeout_trap, warn
from chordsim_tools.explain.world_traps import world_traps
from chordsim_tools.files import check_output, check_apart, put
from chordsim_tools.generate.arguments import OPTIONS, PROG, arguments_again, parser_of
from chordsim_tools.generate.bare import LIMITS, bare_traps
from chordsim_tools.generate.classes import classes_of, drawn_places, names_of
from chordsim_tools.generate.commands import Streams, commands_of, initial_nodes, lives_of
from chordsim_tools.generate.outages import struck
from chordsim_tools.generate.plan import Plan, check
from chordsim_tools.generate.random_scenario import scenario_files
from chordsim_tools.generate.text import Made, document_of, idents_of, text_of
from chordsim_tools.options import Options
from chordsim_tools.places import PlacesFile, RegionsFile
from chordsim_tools.scenario.coordinates import greatest_latency
from chordsim_tools.scenario.tables import GREATEST_SIZE


def scenario_of(plan: Plan, arguments: list[str]) -> str:
    """The text of the scenario that a plan asks for."""
    return whole_text(plan, made_of(plan), arguments)


def made_of(plan: Plan) -> Made:
    """What is drawn for a plan."""
    seed = plan.top["seed"]
    streams = Streams(seed, plan.nodes)
    lives = lives_of(plan, streams)
    initial = initial_nodes(plan, lives)
    told = struck(plan.hosts, lives, plan.outages, plan.back, seed)
    commands, classes = commands_of(plan, lives, streams), classes_of(plan, initial)
    return Made(commands, initial, told, idents_of(plan, streams.idents), names_of(plan, classes), classes)


def text_of_arguments(arguments: Sequence[str], parser: Parser, folder: Path) -> str:
    """The text of the scenario that these arguments ask for, which name files relative to a folder."""
    args = parser.parse_args(list(arguments))
    beside(args, folder)
    return scenario_of(check(args, parser), arguments_again(args))


def whole_text(plan: Plan, made: Made, arguments: list[str]) -> str:
    """The text of the scenario, if it is not too long."""
    text = text_of(plan, made, arguments)
    if len(text) > GREATEST_SIZE:
        raise Failure(2, f"--nodes: the scenario has {len(text)} bytes, and chordsim reads at most {GREATEST_SIZE}")
    return text


def files_read(args: Namespace) -> list[str]:
    """The files that the arguments name, which the scenario is made of."""
    law = None if args.coordinates is None else args.coordinates.value
    places = [law.name] if isinstance(law, (PlacesFile, RegionsFile)) else []
    return places + ([] if args.churn_trace is None else [args.churn_trace.value])


def beside(args: Namespace, folder: Path) -> None:
    """Makes the names of these files relative to a folder."""
    law = None if args.coordinates is None else args.coordinates.value
    if isinstance(law, (PlacesFile, RegionsFile)):
        args.coordinates = replace(args.coordinates, value=replace(law, name=str(folder / law.name)))
    if args.churn_trace is not None:
        args.churn_trace = replace(args.churn_trace, value=str(folder / args.churn_trace.value))


def check_random(args: Namespace, parser: Parser) -> None:
    """Refuses what does not go with a random scenario, or needs one."""
    options = Options(args, parser)
    options.only_with("links", options.has("random"), "--random")
    others = [name for name, *_ in OPTIONS if options.has(name)]
    if options.has("random") and others:
        options.refuse(others[0], "not with --random")


def write_random(seed: int, file: str | None, links: str | None) -> None:
    """Writes a random scenario, and its latency file if one is named."""
    check_apart("--links", links, "-o", file)
    scenario, rows = scenario_files(seed)
    if links is not None:
        put(rows, links)
    put(scenario, file)


def write_planned(plan: Plan, args: Namespace) -> None:
    """Writes the scenario of a plan, and warns of what is hardly meant."""
    made = made_of(plan)
    put(whole_text(plan, made, arguments_again(args)), args.file)
    say("".join(f"{note}\n" for note in plan.notes))
    latency = greatest_latency(drawn_places(plan, made.classes)) if plan.places else plan.top["latency_us"]
    slowest = latency + plan.top.get("spread_us", 0)
    traps = timeout_trap(plan.top["timeout_us"], slowest, plan.top.get("retries", 0))
    warn([*bare_traps(args, LIMITS), *traps, *duration_traps(plan.top), *world_traps(document_of(plan, made))])


def write_scenario(args: Namespace, parser: Parser) -> None:
    """Writes the scenario that the arguments ask for."""
    check_output("-o", args.file, files_read(args))
    write_planned(check(args, parser), args)


def main(arguments: list[str]) -> int:
    """The command."""
    parser = parser_of()
    args = parser.parse_args(arguments)
    check_random(args, parser)
    if args.random is not None:
        return run(PROG, lambda: write_random(args.random.value, args.file, args.links))
    return run(PROG, lambda: write_scenario(args, parser))
