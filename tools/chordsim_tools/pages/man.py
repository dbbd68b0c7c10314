"""The man page of a tool."""

import re

from chordsim_tools import __version__
from chordsim_tools.pages.commands import Argument, Command

WIDTH = 120
"""The help texts are wrapped at this column."""
ESCAPES = {"\\": "\\e", "-": "\\-", "'": "\\(aq", "`": "\\(ga", "^": "\\(ha", "~": "\\(ti"}
EXAMPLES = "examples:\n"
STATUS = "status: "


def man_page(tool: Command, others: list[str]) -> str:
    """The whole page, which names other pages."""
    notes, examples, status = parts_of(tool.epilog)
    lines = [
        f'.TH {tool.name.upper()} 1 "" "chordsim {__version__}" "User Commands"',
        ".nh", ".ad l",
        ".SH NAME", f"{escaped(tool.name)} \\- {escaped(tool.short)}",
        ".SH SYNOPSIS", *synopsis(tool),
        ".SH DESCRIPTION", *prose(tool.description),
        *([".SH COMMANDS"] if tool.commands else []),
        *(line for command in tool.commands for line in section_of(command)),
        ".SH OPTIONS", *entries(tool.arguments),
        *([".SH NOTES", *prose(notes)] if notes else []),
        ".SH EXAMPLES", *prose(examples),
        '.SH "EXIT STATUS"', *map(filled, status.splitlines()),
        '.SH "SEE ALSO"', *(f".BR {escaped(other)} (1)," for other in others), ".BR chordsim (1)",
    ]
    return "\n".join(lines) + "\n"


def parts_of(epilog: str) -> tuple[str, str, str]:
    """The notes, the examples and the status of a help text."""
    rest, _, status = epilog.partition(f"\n{STATUS}")
    notes, _, examples = rest.partition(EXAMPLES)
    return notes.strip(), examples.strip("\n"), status


def synopsis(tool: Command) -> list[str]:
    """A line for each command of a tool, or for the tool itself, and one for its own options."""
    lines = [line for command in tool.commands or [tool] for line in (*call_of(command), ".br")]
    return [*lines, f".B {escaped(tool.name)}", ".RB [ \\-\\-help | \\-\\-version ]"]


def call_of(command: Command) -> list[str]:
    """How a command is called."""
    lines = [f".B {escaped(command.name)}", ".RI [ OPTION ]..\\&"]
    for argument in command.arguments:
        if argument.names and argument.is_required:
            lines.append(heading(argument))
        elif not argument.names:
            name, more = argument.places[0], " ..\\&" if argument.is_several else ""
            lines.append(f".IR {name}{more}" if argument.is_required else f".RI [ {name} ]")
    return lines


def section_of(command: Command) -> list[str]:
    """What a command of a tool does, and its options."""
    own = [argument for argument in command.arguments if "--help" not in argument.names]
    return [f'.SS "{escaped(command.name.split()[-1])}"', *prose(command.description), *entries(own)]


def entries(arguments: list[Argument]) -> list[str]:
    """A paragraph for each option, and for each positional argument before them."""
    lines: list[str] = []
    for argument in sorted(arguments, key=lambda one: bool(one.names)):
        lines += [".TP", heading(argument), filled(sentence(argument.told))]
    return lines


def heading(argument: Argument) -> str:
    """An option with what follows it."""
    places = escaped(" ".join(argument.places)) + (".." if argument.is_several else "")
    if not argument.names:
        return f".I {places}"
    names = ", ".join(escaped(name) for name in argument.names)
    return f'.BI "{names}" " {places}"' if argument.places else f'.B "{names}"'


def sentence(text: str) -> str:
    """A text with a full stop, whose first letter is a capital one."""
    return text[:1].upper() + text[1:] + "."


def prose(text: str) -> list[str]:
    """Paragraphs, and what is indented as it is."""
    lines: list[str] = []
    block: list[str] = []
    before = ""
    for line in [*text.split("\n"), ""]:
        if block and not line.startswith("  "):
            lines += verbatim(block)
            block = []
        if line.startswith("  "):
            block.append(line)
        elif line:
            lines += ([] if is_wrapped(before, line) else [".PP"]) + [filled(line)]
        before = line
    return lines


def is_wrapped(before: str, line: str) -> bool:
    """Whether a line goes on with the paragraph of the line before.

    It does if that one is the middle of a sentence, or has no room for its first word."""
    if not before or before.startswith("  "):
        return False
    return before[-1] not in ".:" or len(before) + 1 + len(line.split()[0]) > WIDTH


def verbatim(lines: list[str]) -> list[str]:
    """Lines that are kept as they are."""
    return [".PP", ".nf", *(guarded(escaped(line)) for line in lines), ".fi"]


def filled(line: str) -> str:
    """A line of a paragraph. What is in backquotes is bold."""
    return guarded(re.sub(r"\\\(ga(.+?)\\\(ga", r"\\fB\1\\fR", escaped(line)))


def escaped(text: str) -> str:
    """A text whose characters mean themselves."""
    return "".join(ESCAPES.get(letter, letter) for letter in text)


def guarded(line: str) -> str:
    """A line that is no request."""
    return "\\&" + line if line.startswith((".", "'")) else line
