"""The bytes of messages: formulas, and what a study makes of them."""

from unittest import TestCase

from chordsim_tools.messages import MESSAGES
from chordsim_tools.study.formula import BadFormula, value_of
from chordsim_tools.study.numbers import summaries
from chordsim_tools.study.sizes import Sizes, bytes_of
from tests.support.studies import row, tables_of
from tests.test_study_plan import HEAD, SEEDS, in_folder

ONES = "".join(f"{kind} = 1\n" for kind in MESSAGES if kind != "state-reply")
TABLE = HEAD + SEEDS + "[sizes]\n" + ONES


class StudySizesTest(TestCase):
    """Formulas and bytes."""

    def test_values(self) -> None:
        """Products before sums, from the left to the right."""
        values = {"list": 8, "bits": 32}
        for text, value in (
            ("40 + 20 * list", 200), ("(40 + 20) * list", 480), ("bits - 4 - 3", 25), ("bits - (4 - 3)", 31), ("7", 7),
            ("2*list*bits", 512), (" ( ( list ) ) ", 8),
        ):
            assert value_of(text, values) == value, text

    def test_what_is_no_formula(self) -> None:
        """Each is refused with what is wrong."""
        for text, wanted in (
            ("list ** 2", "'*' stands where it may not"), ("2 list", "'list' stands where it may not"),
            ("nodes", "'nodes' is not allowed"), ("__import__('os')", "'__import__' is not allowed"),
            ("1.5 * list", "'1.5' is not allowed"), ("list / 2", "'/' is not allowed"), ("", "it ends too early"),
            ("(list", "a parenthesis is not closed"), ("list)", "')' stands where it may not"),
            ("-1", "'-' stands where it may not"), ("1" * 10, "is not allowed"),
            ("1+" * 70, "more than 120 characters"),
            ("(" * 60 + "list", "a parenthesis is not closed"),
        ):
            try:
                value_of(text, {"list": 1, "bits": 3})
            except BadFormula as fault:
                assert wanted in str(fault), (text, str(fault))
            else:
                raise AssertionError(text)

    def test_study_file(self) -> None:
        """Numbers and formulas; the fault names the kind, and what is allowed."""
        assert in_folder(TABLE + "state-reply = '40 + 20 * list'\n").sizes["state-reply"] == "40 + 20 * list"
        for size, wanted in (
            ("-1", "[sizes] state-reply has to be a number of bytes, 0 or more, or a formula"),
            ("true", "[sizes] state-reply has to be a number of bytes"),
            ("1.5", "[sizes] state-reply has to be a number of bytes"),
            ("'40 + nodes'", "[sizes] state-reply = '40 + nodes': 'nodes' is not allowed; allowed are whole numbers"),
        ):
            answer = in_folder(TABLE + f"state-reply = {size}\n")
            assert isinstance(answer, str) and wanted in answer, answer

    def test_bytes_as_a_cost(self) -> None:
        """A goal can name them if the study has sizes."""
        goal = "[goal]\nserved_min = 0.9\nleast = 'bytes'\n"
        assert in_folder(TABLE + "state-reply = 1\n" + goal).goal.least == "bytes"
        assert "[goal] bytes needs [sizes]" in in_folder(HEAD + SEEDS + goal)

    def test_bytes_grow_with_the_list(self) -> None:
        """Ten messages of each kind in 1,000 s of members: with 8 entries 0.08 + 10 * (40 + 160) / 1,000 a second."""
        sizes: Sizes = {**{kind: 1 for kind in MESSAGES}, "state-reply": "40 + 20 * list"}
        rows = [row(list=size, seed=1) | {"scenario-list": str(size), "scenario-bits": "32"} for size in (2, 8)]
        assert [bytes_of(sizes, cells) for cells in rows] == [80 + 800, 80 + 2000]
        found = summaries(tables_of(rows, vary={"list": [2, 8]}, sizes=sizes))
        assert [one.numbers["bytes"].mean for one in found] == [0.88, 2.08]
