"""The page of the Python package, its notebook, and its version."""

import io
import json
import os
import re
import tempfile
import tomllib
from contextlib import chdir, redirect_stderr, redirect_stdout
from pathlib import Path
from typing import Any
from unittest import TestCase, mock

import chordsim
from tests.support.programs import program

TOP = Path(__file__).resolve().parents[2]
BLOCK = re.compile(r"^```python\n(.*?)^```$(?:\n\n^```\n(.*?)^```$)?", re.DOTALL | re.MULTILINE)
"""A block of Python, and the block below it with what it prints."""


def printed(code: str, names: dict[str, Any]) -> str:
    """What a block prints. It sees and leaves the names of the blocks before."""
    out = io.StringIO()
    with redirect_stdout(out), redirect_stderr(io.StringIO()):
        exec(code, names)  # pylint: disable=exec-used
    return out.getvalue()


class PageTest(TestCase):
    """All that the page and the notebook print is what their code prints."""

    def setUp(self) -> None:
        """An empty folder to run in."""
        program()
        self.enterContext(chdir(self.enterContext(tempfile.TemporaryDirectory())))

    def test_page(self) -> None:
        """Each block of docs/python.md, in order."""
        names: dict[str, Any] = {}
        blocks = BLOCK.findall((TOP / "docs" / "python.md").read_text(encoding="utf-8"))
        self.assertEqual(len(blocks), (TOP / "docs" / "python.md").read_text(encoding="utf-8").count("```python"))
        for code, wanted in blocks:
            with self.subTest(code=code):
                self.assertTrue(wanted)
                self.assertEqual(printed(code, names), wanted)

    def test_notebook(self) -> None:
        """Each cell of examples/notebook.ipynb, in order, without Jupyter and without a screen. Only texts are kept."""
        notebook = json.loads((TOP / "examples" / "notebook.ipynb").read_text(encoding="utf-8"))
        names: dict[str, Any] = {}
        kept = []
        with mock.patch.dict(os.environ, MPLBACKEND="Agg"):
            for cell in notebook["cells"]:
                if cell["cell_type"] != "code":
                    continue
                outputs = cell["outputs"]
                self.assertEqual([output["output_type"] for output in outputs], ["stream"] * len(outputs))
                kept.append("".join(text for output in cell["outputs"] for text in output["text"]))
                self.assertEqual(printed("".join(cell["source"]), names), kept[-1])
        self.assertIn("drop_silent", "".join(kept))


class VersionTest(TestCase):
    """The version, and the public names."""

    def test_version(self) -> None:
        """It is that of the project."""
        project = tomllib.loads((TOP / "pyproject.toml").read_text(encoding="utf-8"))["project"]
        self.assertEqual(chordsim.__version__, project["version"])

    def test_names(self) -> None:
        """Each public name is there and has a docstring, and the package says that it has types."""
        for name in chordsim.__all__:
            self.assertTrue(getattr(chordsim, name).__doc__, name)
        self.assertTrue((Path(chordsim.__file__).parent / "py.typed").exists())
