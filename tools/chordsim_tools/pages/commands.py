"""The tools as their parsers describe them."""

from argparse import Action
from dataclasses import dataclass
from importlib import import_module
from types import ModuleType

from chordsim_tools.cli import Parser

TOOLS = ("explain", "generate", "latency", "reference", "study", "trace")


@dataclass(frozen=True)
class Argument:
    """An option, or a positional argument, which has no names."""

    names: tuple[str, ...]
    places: tuple[str, ...]
    """What follows the names, as `FILE`, or the name of a positional argument."""
    values: tuple[str, ...]
    """All values that it may have, if they are few."""
    is_required: bool
    is_several: bool
    """Whether it takes several values, or may be given several times."""
    told: str


@dataclass(frozen=True)
class Command:
    """A tool, or a command of one."""

    name: str
    short: str
    description: str
    epilog: str
    arguments: list[Argument]
    commands: "list[Command]"


def tool_commands() -> list[Command]:
    """All tools."""
    return [command_of(name, import_module(f"chordsim_tools.{name}.command")) for name in TOOLS]


def command_of(tool: str, module: ModuleType) -> Command:
    """A tool. What it does in short is what its package says after the colon."""
    package = import_module(f"chordsim_tools.{tool}")
    short = str(package.__doc__).partition(": ")[2].strip().removesuffix(".")
    shorts = {name: told for name, (told, _) in getattr(module, "COMMANDS", {}).items()}
    return described(module.parser_of(), short, shorts)


def described(parser: Parser, short: str, shorts: dict[str, str]) -> Command:
    """What a parser reads. Its commands have these short descriptions."""
    arguments: list[Argument] = []
    commands: list[Command] = []
    for action in parser.arguments():
        if isinstance(action.choices, dict):
            commands = [described(part, shorts[name], {}) for name, part in action.choices.items()]
        else:
            arguments.append(argument_of(action))
    return Command(parser.prog, short, parser.description or "", parser.epilog or "", arguments, commands)


def argument_of(action: Action) -> Argument:
    """An argument of a parser."""
    # Only a `Reader` knows its values.
    return Argument(
        tuple(action.option_strings),
        places_of(action),
        getattr(action.type, "values", ()),
        action.required,
        action.nargs == "+" or type(action).__name__ == "_AppendAction",
        (action.help or "").replace("%%", "%"),
    )


def places_of(action: Action) -> tuple[str, ...]:
    """What follows the names of an option: nothing if it takes no value."""
    if action.nargs == 0:
        return ()
    return action.metavar if isinstance(action.metavar, tuple) else (action.metavar or action.dest.upper(),)
