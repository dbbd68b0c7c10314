"""FOLDER/runs.json: which study the runs of a folder are of. It is there from the first run on, before any table."""

import contextlib
import json
import os
import tempfile
from dataclasses import asdict, dataclass
from pathlib import Path

from chordsim_tools.cli import Failure, Refused
from chordsim_tools.explain.traps import warn
from chordsim_tools.files import read_input, reason, sum_of
from chordsim_tools.place import tool
from chordsim_tools.program import TOP
from chordsim_tools.study.plan import Study, read_study
from chordsim_tools.study.tables import manifest_of
from chordsim_tools.study.worlds import forget_worlds

NAME = "runs.json"


@dataclass
class Record:
    """The study file (from the folder, and by its whole path), and the digests of all that the runs are made of."""

    study: str
    whole_path: str
    study_sum: str
    files: dict[str, str]
    program: str
    is_own_program: bool
    reading: int

    def program_path(self) -> Path:
        """A path that says whether the program was the repository's own; the program itself may be elsewhere."""
        return TOP / "chordsim" if self.is_own_program else Path("/chordsim")

    def difference(self, other: "Record") -> str | None:
        """What of the study, the files or the program is not the same, if anything is."""
        pairs = {"the study file": (self.study_sum, other.study_sum), "the program": (self.program, other.program)}
        for name in sorted(self.files.keys() | other.files.keys()):
            pairs.setdefault(name, (self.files.get(name, "none"), other.files.get(name, "none")))
        pairs["the tool's way to read traces"] = (str(self.reading), str(other.reading))
        found = next(((name, *pair) for name, pair in pairs.items() if pair[0] != pair[1]), None)
        return None if found is None else f"{found[0]} ({found[1][:12]} and {found[2][:12]})"


def write_record(study: Study, folder: Path, program: Path, program_sum: str, reading: int) -> None:
    """Writes the record, unless it is there. Several machines may do so at the same time in one folder."""
    record = Record(
        os.path.relpath(study.path.resolve(), folder.resolve()),
        str(study.path.resolve()),
        sum_of(study.content),
        manifest_of(study, program, program_sum)["sha256"],
        program_sum,
        program.is_relative_to(TOP),
        reading,
    )
    text = json.dumps(asdict(record), indent=2) + "\n"
    path = folder / NAME
    with contextlib.suppress(OSError):
        if path.read_text(encoding="utf-8") == text:
            return
    warn(replaced(record, folder))
    write_shared(path, text)


def replaced(record: Record, folder: Path) -> list[str]:
    """That a folder has results of another study file, if so."""
    try:
        before = read_record(folder)
    except (Refused, Failure):
        return []
    if before.study == record.study:
        return []
    return [f"{folder} has results of {before.study}, which are replaced: -o takes another folder"]


def write_shared(path: Path, text: str) -> None:
    """Writes a whole file by way of one that no other process has."""
    try:
        with tempfile.NamedTemporaryFile("w", dir=path.parent, prefix=NAME, delete=False, encoding="utf-8") as file:
            file.write(text)
        os.chmod(file.name, 0o644)
        os.replace(file.name, path)
    except OSError as fault:
        raise Failure(3, f"cannot write {path}: {reason(fault)}") from None


def read_record(folder: Path) -> Record:
    """The record of a folder."""
    path = folder / NAME
    content = read_input(path)
    try:
        return Record(**json.loads(content))
    except (ValueError, TypeError):
        raise Refused(f"{path} is not one that {tool('study')} run wrote") from None


def study_of(folder: Path, record: Record, named: Path | None = None) -> Study:
    """The study of a folder: the file that is named, else where it was seen from the folder, else its whole path."""
    seen = [named] if named is not None else [folder / record.study, Path(record.whole_path)]
    forget_worlds()
    for path in seen:
        with contextlib.suppress(Refused):
            study = read_study(Path(os.path.normpath(path)))
            if sum_of(study.content) == record.study_sum:
                return study
    raise Refused(
        f"the study of {folder} is not there, or has changed since it was run: {' or '.join(map(str, seen))}"
        + (" (name it with --study)" if named is None else "")
    )
