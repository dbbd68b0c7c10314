"""Names of files, as calls take them."""

import os

from chordsim.errors import refused_argument

Name = str | os.PathLike[str]
"""The name of a file or a folder."""


def name_of(argument: str, name: Name) -> str:
    """The name as a text. What cannot be one is refused."""
    text = os.fspath(name) if isinstance(name, str | os.PathLike) else None
    if not isinstance(text, str) or not text or "\0" in text:
        raise refused_argument(argument, f"{name!r} is no name of a file")
    return text
