"""Paragraphs and notes of a page, wrapped so that the file can be read as it is."""

import re
import textwrap

WIDTH = 100
GLUE = "\0"
UNBROKEN = re.compile(r"`[^`]*`| (?=[±%])|(?<=±) |(?<=,) (?=[\w.-]+=)| (?=(?:[-+*>#]+|\d+[.)])(?: |$))")
"""Code; spaces in `91.5 ± 1.4 %` and in `list=4, stabilize_us=1s`; those before what begins a list or a heading."""


def wrapped(text: str, first: str = "", later: str = "") -> str:
    """A text in lines of at most 100 columns, which begin with these."""
    glued = UNBROKEN.sub(lambda found: found.group().replace(" ", GLUE), text)
    lines = textwrap.fill(
        glued, WIDTH, initial_indent=first, subsequent_indent=later, break_long_words=False, break_on_hyphens=False
    )
    return lines.replace(GLUE, " ")


def paragraph(text: str) -> str:
    """A paragraph and the empty line after it."""
    return f"{wrapped(text)}\n\n"


def note(text: str) -> str:
    """An item of a list."""
    return f"{wrapped(text, '- ', '  ')}\n"
