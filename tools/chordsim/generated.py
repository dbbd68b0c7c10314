"""Scenarios that tools/generate makes of options given by keyword."""

from collections.abc import Iterator, Mapping
from pathlib import Path
from typing import Any, NoReturn

from chordsim.errors import refused_argument
from chordsim_tools.cli import Failure, Parser
from chordsim_tools.explain.hints import close_to
from chordsim_tools.generate.arguments import AGAIN, OPTIONS, PROG, parser_of
from chordsim_tools.generate.command import text_of_arguments

NAMES = {name.replace("-", "_"): name for name, *_ in OPTIONS}
"""The options by their keywords."""
ALONE = {name for name, metavar, *_ in OPTIONS if not metavar}
"""The options without a value."""
PAIRS = {"churn-uniform"}
"""The options of two values."""


class Asked(Parser):
    """A parser that raises what it refuses."""

    def error(self, message: str) -> NoReturn:
        """Raises it."""
        raise Failure(2, message.removeprefix("argument "))


def generated_text(options: Mapping[str, Any]) -> str:
    """The text of the scenario of these options. Files are named relative to the current folder."""
    arguments = [word for keyword, value in options.items() for word in words_of(keyword, value)]
    return text_of_arguments(arguments, parser_of(Asked), Path())


def words_of(keyword: str, value: Any) -> Iterator[str]:
    """The arguments of an option."""
    name = NAMES.get(keyword)
    if name is None:
        meant = close_to(keyword, NAMES)
        hint = f"{PROG} --help lists them" if meant is None else f"did you mean `{meant}`?"
        raise refused_argument(keyword, "there is no such option", hint)
    if value is None or value is False:
        return
    if name in ALONE:
        if value is not True:
            raise refused_argument(keyword, f"True or False is wanted, not {value!r}")
        yield f"--{name}"
        return
    values = list(value) if isinstance(value, list | tuple) else [value]
    if any(one is True or not isinstance(one, str | int | float | Path) for one in values):
        raise refused_argument(keyword, f"a text or a number is wanted, not {value!r}")
    if name in PAIRS:
        texts = [text for one in values for text in str(one).split()]
        yield from (f"--{name}", *texts)
    elif name not in AGAIN and len(values) != 1:
        raise refused_argument(keyword, f"one value is wanted, not {value!r}")
    else:
        yield from (f"--{name}={one}" for one in values)
