"""Where the tools are, in the repository or installed by pip or apt, and what they are called there."""

import re
from pathlib import Path

FOLDER = Path(__file__).resolve().parents[1]
"""The folder of the packages."""
IS_INSTALLED = not (FOLDER / "program.sh").is_file()
"""Whether the tools were installed. In the repository tools/program.sh is beside their package, and is never copied."""
NAMED = re.compile(r"\btools/(explain|generate|latency|reference|study|trace)\b")
"""A tool as it is called in the top folder of the repository."""
FAR = 20
"""A line of a help text with this indent or a greater one continues the second column of the line above."""


def tool(name: str) -> str:
    """What a user calls a tool by."""
    return f"chordsim-{name}" if IS_INSTALLED else f"tools/{name}"


def here(text: str) -> str:
    """A text of the repository with the names that the tools have here. It is a help text: paths of users stay."""
    return installed(text) if IS_INSTALLED else text


def installed(text: str) -> str:
    """A help text with the names of installed tools. Columns that are continued on the next line stay in line."""
    lines: list[str] = []
    wider = 0
    for line in text.split("\n"):
        named = NAMED.sub(r"chordsim-\1", line)
        is_continued = line.startswith(" " * FAR)
        wider = wider if is_continued else len(named) - len(line)
        lines.append(" " * wider + named if is_continued else named)
    return "\n".join(lines)


def remedy(debian: str, names: str, command: str) -> str:
    """What to do if a command of the tool `study` needs Python packages that are missing."""
    if IS_INSTALLED:
        return f"install them as chordsim was: apt-get install {debian}, or pip install {names}"
    return f"apt-get install {debian}, and start this with Debian's Python: /usr/bin/python3 {tool('study')} {command}"
