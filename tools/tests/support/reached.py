"""Which lines of some modules a test reaches."""

import sys
from collections.abc import Callable, Iterator
from contextlib import contextmanager
from pathlib import Path
from types import CodeType, FrameType, ModuleType
from typing import Any

Tracer = Callable[[FrameType, str, Any], Any]
"""What `sys.settrace` calls."""


class Lines:
    """The lines of the functions of some modules, and those of them that no run has reached yet."""

    def __init__(self, *modules: ModuleType) -> None:
        """All lines, none of which is reached."""
        self.left: dict[tuple[str, int], set[int]] = {}
        for module in modules:
            path = str(module.__file__)
            for code in functions(compile(Path(path).read_text(encoding="utf-8"), path, "exec")):
                self.left[place(code)] = {line for _, _, line in code.co_lines() if line} - {code.co_firstlineno}
        self.count = sum(map(len, self.left.values()))

    def missed(self) -> list[str]:
        """The lines that are not reached, as `file:line`."""
        return [f"{Path(path).name}:{line}" for (path, _), left in self.left.items() for line in sorted(left)]

    @contextmanager
    def watched(self) -> Iterator[None]:
        """Notes which lines are reached in here."""
        before = sys.gettrace()
        sys.settrace(self.called)
        try:
            yield
        finally:
            sys.settrace(before)

    def called(self, frame: FrameType, _event: str, _argument: Any) -> Tracer | None:
        """Watches the lines of a function of which some are not reached."""
        left = self.left.get(place(frame.f_code), set())
        if not left:
            return None

        def reach(inner: FrameType, _event: str, _argument: Any) -> Tracer | None:
            left.discard(inner.f_lineno)
            return reach if left else None

        return reach


def place(code: CodeType) -> tuple[str, int]:
    """The file of a function, and its first line."""
    return code.co_filename, code.co_firstlineno


def functions(code: CodeType) -> Iterator[CodeType]:
    """The functions in a module or in another function."""
    for constant in code.co_consts:
        if isinstance(constant, CodeType):
            # The body of a class is no function, and neither is a comprehension, whose line is that of its function.
            if constant.co_name[0].islower() or constant.co_name[0] == "_":
                yield constant
            yield from functions(constant)
