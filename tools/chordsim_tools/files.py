"""Files: read whole, and written whole or not at all."""

import hashlib
import os
from collections.abc import Iterable
from pathlib import Path

from chordsim_tools.cli import Failure, Refused, write_out


def reason(fault: OSError) -> str:
    """Why the system refused."""
    return fault.strerror or str(fault)


def read_input(name: str | Path, most: int | None = None, reasons: bool = True) -> bytes:
    """The bytes of an input file, which may have a greatest size. Without reasons it is refused as chordsim does it."""
    try:
        with open(name, "rb") as file:
            content = file.read(-1 if most is None else most + 1)
    except OSError as fault:
        raise Refused(f"cannot read {name}" + (f": {reason(fault)}" if reasons else "")) from None
    if most is not None and len(content) > most:
        raise Refused(f"too long {name}" + (f": more than {most} bytes" if reasons else ""))
    return content


def put(text: str, name: str | None) -> None:
    """Writes a text to a file, or to standard output if none is named."""
    if name is None:
        write_out(text)
    else:
        write_whole(name, text, "")


def write_whole(name: str | Path, content: str | bytes, told: str = "cannot write ") -> None:
    """Writes a whole file or none: to NAME.part, which is then renamed. Devices and pipes are written as they are.

    What is no text, as a file's name may be, is escaped. The text of a failure begins with what is told."""
    data = content.encode(errors="backslashreplace") if isinstance(content, str) else content
    try:
        if is_stream(str(name)):
            Path(name).write_bytes(data)
        else:
            replace(Path(os.path.realpath(name)), data)
    except OSError as fault:
        raise Failure(3, f"{told}{name}: {reason(fault)}") from None


def is_stream(name: str) -> bool:
    """Whether a name is one that cannot be renamed to. /dev/stdout may lead to a plain file and is none itself."""
    return name.startswith(("/dev/std", "/dev/fd/")) or (os.path.exists(name) and not os.path.isfile(name))


def replace(target: Path, data: bytes) -> None:
    """Writes a file beside its place and renames it; if that fails, nothing is left."""
    part = target.with_name(target.name + ".part")
    try:
        part.write_bytes(data)
        os.replace(part, target)
    except BaseException:
        part.unlink(missing_ok=True)
        raise


def check_output(option: str, written: str | None, read: Iterable[str | None]) -> None:
    """Refuses an option that names a file to write, if that is one that is read. Devices and pipes may be both."""
    if written is None or not os.path.isfile(written):
        return
    for name in read:
        if name is not None and os.path.exists(name) and os.path.samefile(name, written):
            raise Failure(2, f"{option}: {written} is a file that is read")


def check_apart(option: str, written: str | None, other: str, first: str | None) -> None:
    """Refuses an option that names a file to write, if another option names it too."""
    if written is None or first is None or is_stream(written):
        return
    if os.path.realpath(written) == os.path.realpath(first):
        raise Failure(2, f"{option}: {written} is the file of {other}")


def make_folder(path: Path) -> None:
    """Makes a folder, unless it is there."""
    try:
        path.mkdir(parents=True, exist_ok=True)
    except OSError as fault:
        raise Failure(3, f"cannot make the folder {path}: {reason(fault)}") from None


def sum_of(content: str | bytes) -> str:
    """The SHA-256 digest of a content, in hexadecimal."""
    return hashlib.sha256(content.encode() if isinstance(content, str) else content).hexdigest()
