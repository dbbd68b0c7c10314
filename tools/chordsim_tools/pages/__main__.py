"""`python3 -m chordsim_tools.pages TOP`, as packaging/make-pages calls it: writes the pages and the completions.

Pages name the tools as they are called when they are installed, so this is run in a copy of the package."""

import sys
from pathlib import Path

from chordsim_tools.pages.commands import tool_commands
from chordsim_tools.pages.completions import bash_completions, fish_completions, zsh_completions
from chordsim_tools.pages.man import man_page


def write_pages(top: Path) -> None:
    """Writes docs/chordsim-TOOL.1, and the scripts of completions/."""
    tools = tool_commands()
    names = [tool.name for tool in tools]
    files = {f"docs/{tool.name}.1": man_page(tool, [name for name in names if name != tool.name]) for tool in tools} | {
        "completions/chordsim-tools.bash": bash_completions(tools),
        "completions/_chordsim-tools": zsh_completions(tools),
        "completions/chordsim-tools.fish": fish_completions(tools),
    }
    for name, text in files.items():
        (top / name).parent.mkdir(parents=True, exist_ok=True)
        (top / name).write_text(text, encoding="utf-8")


write_pages(Path(sys.argv[1]))
