"""The command tools/study."""

import os
import shlex
from argparse import ArgumentParser, ArgumentTypeError, Namespace
from pathlib import Path

from chordsim_tools.cli import Parser, ToolParser, run, write_out
from chordsim_tools.place import tool
from chordsim_tools.study.comparison import write_comparison
from chordsim_tools.study.confirm import confirm_here
from chordsim_tools.study.help import (
    COMPARE_HELP, EXAMPLES, HELP, MERGE_HELP, PLOT_HELP, REPORT_HELP, RUN_HELP, SEARCH_HELP, STATUS,
)
from chordsim_tools.study.parts import merge, share_of
from chordsim_tools.study.plan import read_study
from chordsim_tools.study.plot import Wish, write_plots
from chordsim_tools.study.runs import Share, run_study
from chordsim_tools.study.search_runs import run_search
from chordsim_tools.study.so_far import write_report
from chordsim_tools.study.stops import stopped_cleanly

PROG = tool("study")
COMMANDS = {
    "run": ("run all settings and seeds", RUN_HELP),
    "search": ("run settings around the best one", SEARCH_HELP),
    "merge": ("put shares together", MERGE_HELP),
    "plot": ("draw plots of a study that was run", PLOT_HELP),
    "report": ("write a page", REPORT_HELP),
    "compare": ("compare two settings", COMPARE_HELP),
}
"""What each command does, in short and at length."""


def parsed(arguments: list[str]) -> Namespace:
    """The arguments of the command line."""
    parser = parser_of()
    if arguments and arguments[0] not in COMMANDS and arguments[0].endswith(".toml"):
        parser.error(f"{arguments[0]} is no command: did you mean `{PROG} run {arguments[0]}`?")
    return parser.parse_args(arguments)


def parser_of() -> ToolParser:
    """The parser of the arguments."""
    parser = ToolParser(PROG, HELP, epilog_of(*EXAMPLES))
    of_all = parser.add_subparsers(dest="command", required=True, metavar="|".join(COMMANDS), parser_class=Parser)
    commands = {
        name: of_all.add_parser(name, help=short, description=long, epilog=epilog_of(name))
        for name, (short, long) in COMMANDS.items()
    }
    add_runs(commands["run"])
    add_parts(commands["run"])
    add_runs(commands["search"])
    add_folders(commands["merge"])
    add_folder(commands["plot"])
    add_plot(commands["plot"])
    add_folder(commands["report"])
    add_folder(commands["compare"])
    add_settings(commands["compare"])
    for name in ("merge", "plot", "report", "compare"):
        moved = "the study file, if it is no longer in its place"
        commands[name].add_argument("--study", metavar="STUDY", type=Path, help=moved)
    return parser


def epilog_of(*names: str) -> str:
    """The examples of these commands, and the status."""
    return "examples:\n" + "".join(EXAMPLES[name] for name in names) + "\n" + STATUS


def add_runs(parser: ArgumentParser) -> None:
    """The arguments of `tools/study run` and `tools/study search`."""
    parser.add_argument("study", metavar="STUDY", type=Path, help="the study file (TOML)")
    parser.add_argument("--jobs", metavar="N", type=positive, help="N runs side by side (default: all processors)")
    where = "the folder (default: STUDY without .toml)"
    parser.add_argument("-o", dest="folder", metavar="FOLDER", type=Path, help=where)


def add_parts(parser: ArgumentParser) -> None:
    """The arguments of `tools/study run` alone."""
    part = "the Kth of N shares of the runs, without tables"
    parser.add_argument("--part", metavar="K/N", type=share_of, default=(1, 1), help=part)
    parser.add_argument("--dask", metavar="ADDRESS", help="the scheduler of a Dask cluster, as tcp://host:8786")


def add_folders(parser: ArgumentParser) -> None:
    """The folders of `tools/study merge`."""
    parser.add_argument("folders", metavar="FOLDER", nargs="+", type=Path, help="a folder of runs")
    parser.add_argument("-o", dest="out", metavar="OUT", type=Path, required=True, help="the folder for all")


def add_folder(parser: ArgumentParser) -> None:
    """The folder that `tools/study plot`, `report` and `compare` read."""
    parser.add_argument("folder", metavar="FOLDER", type=Path, help="the folder of a study that was run")


def add_settings(parser: ArgumentParser) -> None:
    """The settings of `tools/study compare`."""
    for name in ("A", "B"):
        meaning = "a setting: its label on the page, or its number, from 1"
        parser.add_argument(name.lower(), metavar=name, help=meaning)


def add_plot(parser: ArgumentParser) -> None:
    """The options of `tools/study plot`."""
    parser.add_argument("--x", metavar="KEY", help="the varied key along the axis")
    for option, meaning in (("by", "make lines of these"), ("panels", "make panels of these")):
        parser.add_argument(f"--{option}", metavar="KEY", nargs="+", help=meaning)
    most_lost = "the share of seeds whose ring may be lost by a setting on the front (0)"
    parser.add_argument("--most-lost", metavar="SHARE", type=share, default=0.0, help=most_lost)
    parser.add_argument("--y", metavar="COLUMN", nargs="+", help="draw these alone")


def positive(text: str) -> int:
    """A number of jobs."""
    if not text.isdecimal() or not 1 <= int(text) <= 1024:
        raise ArgumentTypeError("1 to 1024 is wanted")
    return int(text)


def share(text: str) -> float:
    """A share of 0 to 1."""
    try:
        number = float(text)
    except ValueError:
        number = -1
    if not 0 <= number <= 1:
        raise ArgumentTypeError("0 to 1 is wanted")
    return number


def folder_of(study: Path) -> Path:
    """Where the results of a study go by default."""
    return study.with_suffix("") if study.suffix == ".toml" else study.with_name(study.name + ".out")


def jobs_of(args: Namespace) -> int:
    """How many runs are done side by side."""
    return args.jobs or len(os.sched_getaffinity(0))


def work(args: Namespace) -> None:
    """Does what the arguments ask for."""
    match args.command:
        case "run":
            folder = args.folder or folder_of(args.study)
            study = read_study(args.study)
            run_study(study, folder, jobs_of(args), args.part, args.dask)
            if args.part[1] == 1:
                confirm_here(study, folder, jobs_of(args), args.dask)
            write_out(run_told(folder, args.part))
        case "search":
            study, folder = read_study(args.study), args.folder or folder_of(args.study)
            run_search(study, folder, jobs_of(args))
            confirm_here(study, folder, jobs_of(args))
            write_report(folder)
        case "merge":
            merge(args.folders, args.out, args.study)
            write_out(run_told(args.out))
        case "plot":
            write_plots(args.folder, args.study, Wish(args.x, args.by, args.panels, args.y, args.most_lost))
        case "compare":
            write_comparison(args.folder, args.a, args.b, args.study)
        case _:
            write_report(args.folder, args.study)
            write_out(f"page: {args.folder / 'report.md'}\n")


def run_told(folder: Path, part: Share = (1, 1)) -> str:
    """What was written, and the command that comes next."""
    name = shlex.quote(str(folder))
    if part[1] > 1:
        return f"runs in {folder}; next, with the folders of all parts: {PROG} merge {name} .. -o OUT\n"
    return f"tables in {folder}; next: {PROG} report {name}\n"


def main(arguments: list[str]) -> int:
    """The command."""
    args = parsed(arguments)
    with stopped_cleanly():
        return run(PROG, lambda: work(args), interrupted="interrupted: run the same command again to continue")
