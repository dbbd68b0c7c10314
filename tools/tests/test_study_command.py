"""The command tools/study: its help, what it says at the end, and two settings that cannot be compared."""

import shutil
from unittest import TestCase

from chordsim_tools.study.command import COMMANDS, main
from tests.support.programs import ended
from tests.test_study_run import STUDY, call, called, study_folder


class CommandTest(TestCase):
    """Help and last lines."""

    def test_help(self) -> None:
        """The help of a command has examples of it in one block, and none of another one alone."""
        assert set(COMMANDS) == {"run", "search", "merge", "plot", "report", "compare"}
        for command in COMMANDS:
            status, out, _ = ended(main, command, "--help")
            assert status == 0 and out.count("examples:\n") == 1 and out.count("status: 0 all was done") == 1
            examples = out.partition("examples:\n")[2].partition("\n\n")[0].splitlines()
            assert examples and all(f"tools/study {command} " in line for line in examples), examples
        status, out, _ = ended(main, "--help")
        block = out.partition("examples:\n")[2].partition("\n\n")[0]
        assert status == 0 and all(f"tools/study {command} " in block for command in COMMANDS)
        assert "draw plots of a study that was run" in out

    def test_study_file_without_a_command(self) -> None:
        """The command that was likely meant."""
        status, out, told = ended(main, "lists.toml", "-o", "out")
        wanted = "tools/study: lists.toml is no command: did you mean `tools/study run lists.toml`? (see tools/study "
        wanted += "--help)\n"
        assert (status, out, told) == (2, "", wanted)

    def test_last_lines(self) -> None:
        """Where the files are, and the command that comes next."""
        with study_folder() as folder:
            out = folder / "study"
            assert called(folder) == (0, f"tables in {out}; next: tools/study report {out}\n", "")
            assert ended(main, "report", str(out)) == (0, f"page: {out}/report.md\n", "")
            for part in (1, 2):
                name = folder / f"part{part}"
                wanted = f"runs in {name}; next, with the folders of all parts: tools/study merge {name} .. -o OUT\n"
                assert called(folder, "--part", f"{part}/2", "-o", str(name)) == (0, wanted, "")
            words = ["merge", *(str(folder / f"part{part}") for part in (1, 2)), "-o", str(folder / "all of it")]
            told = f"tables in {folder}/all of it; next: tools/study report '{folder}/all of it'\n"
            assert ended(main, *words) == (0, told, "")
            (folder / "fail").write_text("seed = 3")
            (folder / "study.toml").write_text(STUDY.replace("[1, 2]\n[", "[1, 2, 3]\n["))
            status, told, _ = called(folder)
            assert (status, told) == (3, "")


class ComparedTest(TestCase):
    """Settings that cannot be compared."""

    def test_study_that_is_not_done(self) -> None:
        """Two of four runs, a part, and tables of before that are no longer those of the study."""
        parts = "`tools/study run` goes on, and `tools/study merge` puts parts together"
        with study_folder() as folder:
            out = folder / "study"
            (folder / "fail").write_text("list = 2")
            assert call(folder)[0] == 3
            wanted = (1, "", f"refused: {out}: 2 of 4 runs are done; compare needs all: {parts}\n")
            assert ended(main, "compare", str(out), "1", "2") == wanted and not (out / "compare.csv").exists()
            (folder / "fail").write_text("nothing")
            assert call(folder, "--part", "1/2", "-o", str(folder / "part")) == (0, "")
            assert "2 of 4 runs are done" in ended(main, "compare", str(folder / "part"), "1", "2")[2]
            assert call(folder) == (0, "") and ended(main, "compare", str(out), "1", "2")[0] == 0
            (folder / "study.toml").write_text(STUDY.replace("[1, 2]\n[", "[1, 2, 3]\n["))
            (folder / "fail").write_text("seed = 3")
            assert call(folder)[0] == 3
            assert "4 of 6 runs are done" in ended(main, "compare", str(out), "1", "2")[2]

    def test_study_file_elsewhere(self) -> None:
        """`--study` names it, as for a page."""
        with study_folder() as folder:
            call(folder)
            (folder / "study" / "manifest.json").unlink()
            (folder / "there").mkdir()
            for name in ("study.toml", "base.toml"):
                shutil.move(folder / name, folder / "there" / name)
            words = ["compare", str(folder / "study"), "1", "2"]
            status, _, told = ended(main, *words)
            assert status == 1 and "(name it with --study)" in told
            assert ended(main, *words, "--study", str(folder / "there" / "study.toml"))[0] == 0

    def test_the_same_setting(self) -> None:
        """By its number twice, and by its number and its label."""
        with study_folder() as folder:
            call(folder)
            for names in (("1", "1"), ("list=2", "2")):
                wanted = f"refused: A and B are the same setting: list={names[1]}\n"
                assert ended(main, "compare", str(folder / "study"), *names) == (1, "", wanted)
