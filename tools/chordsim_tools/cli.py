"""What the tools share: how they end, how they read their arguments, and how they say how far they are."""

import argparse
import errno
import io
import os
import re
import sys
import time
from collections.abc import Callable
from types import TracebackType
from typing import Any, NoReturn

from chordsim_tools import __version__
from chordsim_tools.place import here


class Failure(Exception):
    """A command ends with this status and this text. 1: a file is refused. 2: wrong arguments. 3: something failed."""

    def __init__(self, status: int, text: str) -> None:
        """The status, and the text without the beginning that the status gives the line."""
        super().__init__(text)
        self.status = status
        self.text = text

    def line(self, prog: str) -> str:
        """The line for standard error."""
        if self.status == 2:
            return usage_line(prog, self.text)
        return f"{'refused' if self.status == 1 else 'failed'}: {self.text}"


class Refused(Failure):
    """A file is refused. For scenarios and latency files the text is that of docs/formats.md, section 4."""

    def __init__(self, text: str) -> None:
        """Status 1."""
        super().__init__(1, text)


def run(prog: str, work: Callable[[], int | None], interrupted: str = "interrupted") -> int:
    """Does a command's work. Returns its status, else prints one line to standard error and returns 1, 2, 3 or 130."""
    buffer_output()
    try:
        return work() or 0
    except Failure as fault:
        return ended(fault.status, fault.line(prog))
    except OSError as fault:
        return ended(3, f"failed: {fault.filename or 'standard output'}: {fault.strerror}")
    except MemoryError:
        return ended(3, "failed: no memory is left")
    except KeyboardInterrupt:
        return ended(130, interrupted)


def ended(status: int, line: str) -> int:
    """Prints the reason and returns the status."""
    say(line + "\n")
    return status


def usage_line(prog: str, text: str) -> str:
    """What is wrong with the arguments, in one line."""
    return f"{prog}: {text} (see {prog} --help)"


def say(text: str) -> None:
    """Writes to standard error, if it is open and can be written."""
    if sys.stderr is None:
        return
    try:
        print(text, end="", file=sys.stderr, flush=True)
    except OSError:
        close_quietly(2)


def buffer_output() -> None:
    """Gives standard output a buffer, which writes all of a text or fails.

    If PYTHONUNBUFFERED is set it has none, and Python forgets what a write to a full disk left over."""
    out = sys.stdout
    if isinstance(out, io.TextIOWrapper) and isinstance(out.buffer, io.RawIOBase):
        sys.stdout = open(out.fileno(), "w", encoding=out.encoding, errors=out.errors, closefd=False)


def write_out(text: str) -> None:
    """Writes a whole text to standard output, and what is in its buffer. What its encoding lacks is escaped."""
    out = sys.stdout
    if out is None:
        raise OSError(errno.EBADF, os.strerror(errno.EBADF))
    try:
        if isinstance(out, io.TextIOWrapper) and out.errors == "strict":
            # A file's name may be no text.
            out.reconfigure(errors="backslashreplace")
        out.write(text)
        out.flush()
    except OSError:
        close_quietly(1)
        raise


def close_quietly(stream: int) -> None:
    """Lets what is left in a stream's buffer go nowhere, else Python complains about it at its end."""
    os.dup2(os.open(os.devnull, os.O_WRONLY), stream)


class Once(argparse.Action):
    """Keeps the value of an option that may be given once."""

    def __call__(
        self, parser: argparse.ArgumentParser, namespace: argparse.Namespace, values: Any,
        option_string: str | None = None,
    ) -> None:
        """Keeps it, or refuses the second one."""
        if getattr(namespace, self.dest) is not None:
            parser.error(f"{option_string}: given twice")
        setattr(namespace, self.dest, values)


class Parser(argparse.ArgumentParser):
    """A parser that says what is wrong in one line. A strict one takes each option once, and none shortened."""

    def __init__(self, prog: str, description: str, epilog: str, strict: bool = False) -> None:
        """A parser whose help keeps its own line breaks."""
        style = argparse.RawDescriptionHelpFormatter
        super().__init__(
            prog, description=here(description), epilog=here(epilog), formatter_class=style, allow_abbrev=not strict
        )
        # A value such as -5s is one that its option refuses, and no option.
        self._negative_number_matcher = re.compile("-[0-9]")
        if strict:
            self.register("action", None, Once)

    def arguments(self) -> list[argparse.Action]:
        """The options and the positional arguments, in the order of the help."""
        return list(self._actions)

    def print_help(self, file: Any = None) -> None:
        """Writes the help to standard output as all tools write: whole, or it ends with status 3."""
        if file is not None:
            super().print_help(file)
            return
        status = run(self.prog, lambda: write_out(self.format_help()))
        if status:
            self.exit(status)

    def error(self, message: str) -> NoReturn:
        """Ends with status 2."""
        # All tools name an option by itself, as `--seed: given twice`.
        self.exit(2, usage_line(self.prog, message.removeprefix("argument ")) + "\n")


class Version(argparse.Action):
    """Prints the name and the version of a tool, and ends it."""

    def __call__(
        self, parser: argparse.ArgumentParser, namespace: argparse.Namespace, values: Any,
        option_string: str | None = None,
    ) -> NoReturn:
        """Writes the line as all tools write: whole, or the tool ends with status 3."""
        parser.exit(run(parser.prog, lambda: write_out(f"{parser.prog} {__version__}\n")))


class ToolParser(Parser):
    """The parser of a whole tool, which has a version."""

    def __init__(self, prog: str, description: str, epilog: str, strict: bool = False) -> None:
        """A parser with the option `--version`."""
        super().__init__(prog, description, epilog, strict)
        meaning = "show the version and exit"
        self.add_argument("--version", action=Version, nargs=0, default=argparse.SUPPRESS, help=meaning)


def add_files(parser: argparse.ArgumentParser) -> None:
    """The arguments for a scenario and its latency file."""
    parser.add_argument("scenario", metavar="SCENARIO", help="the scenario file (TOML)")
    parser.add_argument("latency", metavar="LATENCY", nargs="?", help="the latency file (CSV)")


class Progress:
    """A line on standard error, if that is a terminal, on work that takes longer than two seconds."""

    def __init__(self, what: str, total: int | None = None, done: int = 0, stays: bool = False) -> None:
        """Work that begins now, on `total` things if that is known. The line stays at the end, or is taken away."""
        self.what = what
        self.total = total
        self.done = done
        self.stays = stays
        self.next = time.monotonic() + 2
        self.said = False

    def one_more(self) -> None:
        """One more is done."""
        self.done += 1
        if time.monotonic() >= self.next and sys.stderr is not None and sys.stderr.isatty():
            self.next = time.monotonic() + 0.2
            self.said = True
            of_all = "" if self.total is None else f" of {self.total}"
            say(f"\r{self.done}{of_all} {self.what}\x1b[K")

    def __enter__(self) -> "Progress":
        """The work itself."""
        return self

    def __exit__(
        self, kind: type[BaseException] | None, fault: BaseException | None, trace: TracebackType | None
    ) -> None:
        """Ends the line."""
        if self.said:
            say("\n" if self.stays else "\r\x1b[K")
