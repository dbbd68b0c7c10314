"""Numbers for readers: times in seconds, shares in per cent."""

from chordsim_tools.files import put
from chordsim_tools.study.survival import NEVER


def seconds(micros: int | str | None) -> str:
    """A time in seconds with all its digits, but no zeros at its end."""
    if micros is None:
        return "-"
    if isinstance(micros, str):
        return NEVER
    whole, part = divmod(micros, 1_000_000)
    return f"{whole}.{part:06d}".rstrip("0").rstrip(".") + " s"


def timed(text: str) -> str:
    """A line of the trace, its time in seconds."""
    time, _, rest = text.partition(" ")
    whole, part = divmod(int(time), 1_000_000)
    return f"{whole:>8}.{part:06d} s  {rest}"


def share(part: int, of: int) -> str:
    """A share in per cent. What is neither none nor all is not rounded to 0 or 100."""
    if of == 0:
        return "-"
    hundredths = (20000 * part + of) // (2 * of)
    if part not in (0, of):
        hundredths = min(max(hundredths, 1), 9999)
    return f"{hundredths // 100}.{hundredths % 100:02d} %"


def counted(number: int) -> str:
    """A count with commas."""
    return f"{number:,}"


def table(heading: list[str], rows: list[list[str]]) -> list[str]:
    """The lines of a table; the first column is at the left, the others at the right."""
    widths = [max(map(len, column)) for column in zip(heading, *rows, strict=True)]
    lines = []
    for row in [heading, *rows]:
        first, *others = [cell.rjust(width) for cell, width in zip(row, widths, strict=True)]
        lines.append("  ".join([first.strip().ljust(widths[0]), *others]).rstrip())
    return lines


def show(lines: list[str]) -> None:
    """Prints lines."""
    put("".join(line + "\n" for line in lines), None)
