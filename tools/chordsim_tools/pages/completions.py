"""The completions of the tools' arguments, for bash, zsh and fish."""

from chordsim_tools.pages.commands import Argument, Command

HEAD = "Completion of the tools' arguments for {}. Made by packaging/make-pages."
HOW = {
    "bash": "Source this file, or copy it to /etc/bash_completion.d.",
    "zsh": "Copy this file to a folder of $fpath.",
    "fish": "Copy this file to ~/.config/fish/conf.d.",
}
FILES = ("FILE", "FOLDER", "LATENCY", "MEASURED", "OUT", "ROWS", "SCENARIO", "STUDY", "TRACE")
"""What is the name of a file or of a folder."""
BASH = """\
{head}

_chordsim_tools() {{
    local current=${{COMP_WORDS[COMP_CWORD]}} previous=${{COMP_WORDS[COMP_CWORD - 1]}}
    local tool=${{COMP_WORDS[0]##*/}} options='' of_files='' of_others='' values='' takes_files=''
    COMPREPLY=()
    # Bash takes --seed=5 for three words.
    if [ "$current" = "=" ]; then
        current=
    elif [ "$previous" = "=" ]; then
        previous=${{COMP_WORDS[COMP_CWORD - 2]}}
    fi
    tool=${{tool#chordsim-}}
    [ "$tool" != study ] || [ "$COMP_CWORD" -eq 1 ] || tool="study ${{COMP_WORDS[1]}}"
    case $tool in
{tools}
    esac
    case "$tool $previous" in
{values}
    esac
    if [ -n "$values" ]; then
        mapfile -t COMPREPLY < <(compgen -W "$values" -- "$current")
    elif [[ " $of_others " == *" $previous "* ]]; then
        return
    elif [[ " $of_files " == *" $previous "* || ( -n $takes_files && $current != -* ) ]]; then
        mapfile -t COMPREPLY < <(compgen -f -- "$current")
    else
        mapfile -t COMPREPLY < <(compgen -W "$options" -- "$current")
    fi
}}

complete -o filenames -F _chordsim_tools {names}
"""
ZSH = """\
#compdef {names}
{head}

_chordsim_tools() {{
    local context state line
    local -a commands
    case $service in
{tools}
    esac
}}

_chordsim_tools "$@"
"""


def head_of(shell: str) -> str:
    """The first lines of a script: what it is, and where it belongs."""
    return f"# {HEAD.format(shell)}\n# {HOW[shell]}"


def all_of(tools: list[Command]) -> list[Command]:
    """The tools and their commands."""
    return [one for tool in tools for one in (tool, *tool.commands)]


def options_of(command: Command) -> list[Argument]:
    """The options of a command."""
    return [argument for argument in command.arguments if argument.names]


def takes_file(argument: Argument) -> bool:
    """Whether a value of an argument is a file or a folder."""
    return argument.places[:1] != () and argument.places[0] in FILES


def short_name(command: Command) -> str:
    """The name without what the names of all tools begin with."""
    return command.name.removeprefix("chordsim-")


def last_name(command: Command) -> str:
    """The name of a command without that of its tool."""
    return command.name.split()[-1]


def bash_completions(tools: list[Command]) -> str:
    """The script for bash. In the top folder of the repository it completes `tools/study` too."""
    return BASH.format(
        head=head_of("bash"),
        tools="\n".join(line for command in all_of(tools) for line in bash_options(command)),
        values="\n".join(line for command in all_of(tools) for line in bash_values(command)),
        names=" ".join(name for tool in tools for name in (tool.name, f"tools/{short_name(tool)}")),
    )


def bash_options(command: Command) -> list[str]:
    """What can follow a command: its own commands or its options, and which of these take files or other values."""
    options = options_of(command)
    with_files = [option for option in options if takes_file(option)]
    with_others = [option for option in options if option.places and not option.values and option not in with_files]
    lists = {"options": [last_name(part) for part in command.commands] + [option.names[-1] for option in options]}
    lists |= {"of_files": [option.names[-1] for option in with_files]}
    lists |= {"of_others": [option.names[-1] for option in with_others]}
    lines = [f'        {name}="{" ".join(words)}"' for name, words in lists.items() if words]
    if any(not argument.names for argument in command.arguments):
        lines.append("        takes_files=yes")
    return [f'    "{short_name(command)}")', *lines, "        ;;"]


def bash_values(command: Command) -> list[str]:
    """The options that have few values."""
    name = short_name(command)
    few = [option for option in options_of(command) if option.values]
    return [f'    "{name} {option.names[-1]}") values="{" ".join(option.values)}" ;;' for option in few]


def zsh_completions(tools: list[Command]) -> str:
    """The script for zsh."""
    return ZSH.format(
        head=head_of("zsh"),
        names=" ".join(tool.name for tool in tools),
        tools="\n".join(line for tool in tools for line in zsh_tool(tool)),
    )


def zsh_tool(tool: Command) -> list[str]:
    """The branch of a tool."""
    if not tool.commands:
        return zsh_branch(tool.name, tool)
    described = [quoted(f"{last_name(part)}:{part.short}") for part in tool.commands]
    branches = [f"        {line}" for part in tool.commands for line in zsh_branch(last_name(part), part)]
    own = " ".join(zsh_argument(argument) for argument in tool.arguments)
    return [
        f"    {tool.name})",
        f"        commands=({' '.join(described)})",
        f"        _arguments -C {own} '1: :->command' '*:: :->rest'",
        "        case $state in",
        "        command) _describe command commands ;;",
        "        rest)",
        "            case $words[1] in",
        *branches,
        "            esac ;;",
        "        esac ;;",
    ]


def zsh_branch(name: str, command: Command) -> list[str]:
    """What _arguments reads for a command."""
    lines = [f"        {zsh_argument(argument)} \\" for argument in command.arguments]
    return [f"    {name})", "        _arguments \\", *lines[:-1], lines[-1].removesuffix(" \\") + " ;;"]


def zsh_argument(argument: Argument) -> str:
    """An argument as _arguments reads it."""
    action = "_files" if takes_file(argument) else f"({' '.join(argument.values)})" if argument.values else ""
    follows = "".join(f":{place}:{action}" for place in argument.places)
    if not argument.names:
        return quoted(f"*{follows}" if argument.is_several else follows if argument.is_required else f":{follows}")
    told = "".join(f"\\{letter}" if letter in "[]:\\" else letter for letter in argument.told)
    if len(argument.names) > 1:
        return f"'(- *)'{{{','.join(argument.names)}}}{quoted(f'[{told}]{follows}')}"
    return quoted(f"{'*' if argument.is_several else ''}{argument.names[0]}[{told}]{follows}")


def fish_completions(tools: list[Command]) -> str:
    """The script for fish."""
    lines = [head_of("fish"), ""]
    for tool in tools:
        if all(argument.names for argument in tool.arguments) and not tool.commands:
            lines.append(f"complete -c {tool.name} -f")
        lines += [fish_option(tool.name, option) for option in options_of(tool)]
        lines += [line for part in tool.commands for line in fish_command(tool, part)]
    return "\n".join(lines) + "\n"


def fish_command(tool: Command, part: Command) -> list[str]:
    """The lines of a command of a tool, and of its options."""
    name = last_name(part)
    seen = f"{tool.name} -n '__fish_seen_subcommand_from {name}'"
    options = [option for option in options_of(part) if "--help" not in option.names]
    return [
        f"complete -c {tool.name} -n __fish_use_subcommand -f -a {name} -d {quoted(part.short)}",
        *(fish_option(seen, option) for option in options),
    ]


def fish_option(command: str, option: Argument) -> str:
    """An option of a command."""
    names = " ".join(f"-l {name[2:]}" if name.startswith("--") else f"-s {name[1:]}" for name in option.names)
    values = f" -a '{' '.join(option.values)}'" if option.values else ""
    takes = " -r -F" if takes_file(option) else f" -x{values}" if option.places else ""
    told = option.told.replace("\\", "\\\\").replace("'", "\\'")
    return f"complete -c {command} {names}{takes} -d '{told}'"


def quoted(text: str) -> str:
    """A text that a shell takes as it is."""
    return "'" + text.replace("'", "'\\''") + "'"
