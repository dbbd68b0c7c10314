"""A stand-in for the Rattle kit, which proves nothing, and the tool that builds the program with it."""

import shutil
from pathlib import Path

TOP = Path(__file__).resolve().parents[3]
KIT_ID = "kit-1 logic 1\n"

# Like rt: `ci` builds the program in the repository.
RT = """#!/bin/sh
[ "$1" = ci ] || exit 2
cd crates/chordsim && mkdir -p out
{ echo '#!/bin/sh'; echo "echo built of $(cat src/main.rt): \\"\\$@\\""; } > out/chordsim
chmod +x out/chordsim
"""

# Like rattle: `build` proves a crate and writes what the last word names. It notes each call when it begins and ends.
# The variables name the crates that are not proved, of which nothing is said, and that wait for a file.
RATTLE = """#!/bin/sh
echo "begin $3 in ${PWD##*/}: $*" >> "$CALLS"
for made; do :; done
case $3 in
chordsim) cat src/main.rt > "$made" ;;
*) mkdir -p "$made" ;;
esac
[ "$3" != "${WAITING:-}" ] || while [ ! -e "$CALLS.go" ]; do sleep 0.05; done
echo "end $3" >> "$CALLS"
[ "$3" != "${UNPROVED:-}" ] || { echo "$3: no proof"; exit 1; }
[ "$3" = "${SILENT:-}" ] || echo "logic=proved functions=1"
"""

# Like rattle-link: makes a program of the object. The program prints its arguments, and the source that it is made of.
LINK = """#!/bin/sh
echo "link: $*" >> "$CALLS"
{ echo '#!/bin/sh'; echo "echo built of $(cat "$7"): \\"\\$@\\""; } > "$6"
chmod +x "$6"
"""


def make_kit(folder: Path) -> None:
    """Makes the kit."""
    (folder / "bin").mkdir(parents=True)
    (folder / "KIT-ID").write_text(KIT_ID, encoding="utf-8")
    for name, script in (("rt", RT), ("rattle", RATTLE), ("rattle-link", LINK)):
        (folder / "bin" / name).write_text(script, encoding="utf-8")
        (folder / "bin" / name).chmod(0o755)


def copy_tool(top: Path) -> None:
    """Copies the tool that builds the program into a repository."""
    modules = (TOP / "tools" / "chordsim_tools").glob("*.py")
    for file in (TOP / "tools" / "build_program", TOP / "tools" / "program.sh", *modules):
        target = top / file.relative_to(TOP)
        target.parent.mkdir(parents=True, exist_ok=True)
        shutil.copy(file, target)


def make_crate(top: Path, name: str, is_program: bool) -> None:
    """Makes a crate of one source, with a folder of wrong bodies."""
    for folder, file in (("src", f"{'main' if is_program else 'lib'}.rt"), ("must-fail", "wrong.rt")):
        (top / "crates" / name / folder).mkdir(parents=True)
        (top / "crates" / name / folder / file).write_text("first\n", encoding="utf-8")
