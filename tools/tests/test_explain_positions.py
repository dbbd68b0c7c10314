"""Lines and columns of tables and keys, by hand."""

from unittest import TestCase

from chordsim_tools.explain.positions import Position, Positions
from chordsim_tools.known import known

TEXT = '''# [[node]] in a comment
a = """
b = 1
""" # c = 2
  b = { c = 1, d.e = [1,
  {f = "}"}] }
[[node]]
"na\\u006de" = 'x # y'
[[node]] # the second
[node.sub]
g=1
'''


class ExplainPositionsTest(TestCase):
    """Where tables, keys and values stand."""

    def test_keys_and_values(self) -> None:
        """Texts of several lines, inline tables, dotted keys, items of arrays and quoted keys."""
        where = Positions(TEXT)
        assert where.of_key(("a",)) == Position(2, 1)
        assert where.of_value(("a",)) == Position(2, 5)
        assert where.of_key(("b",)) == Position(5, 3)
        assert where.of_key(("b", "d", "e")) == Position(5, 16)
        assert where.of_value(("b", "d", "e", 2, "f")) == Position(6, 8)
        assert where.raw(("b", "d", "e", 2, "f")) == '"}"'
        assert where.of_key(("node", 1, "name")) == Position(8, 1)
        assert where.raw(("node", 1, "name")) == "'x # y'"
        assert where.of_key(("node", 2)) == Position(9, 1)
        assert where.of_key(("node", 2, "sub", "g")) == Position(11, 1)
        assert where.position(known(where.first_heading)) == Position(7, 1)

    def test_what_is_not_there(self) -> None:
        """About where its table is."""
        where = Positions(TEXT)
        assert where.of_key(("node", 2, "name")) == Position(9, near=True)
        assert where.of_key(("x",)) == Position(1, near=True)

    def test_twice(self) -> None:
        """Keys that stand twice, also as a table, and what stands after them is still found."""
        where = Positions("a = 1\n[t]\nb = 1\nb = 2\n[u]\nc = 1\n")
        twice = [(path, *(where.position(at).line for at in places)) for path, *places in where.twice]
        assert twice == [(("t", "b"), 3, 4)]
        assert where.of_key(("u", "c")) == Position(6, 1)

    def test_text_that_is_no_toml(self) -> None:
        """What stands before the fault is found."""
        where = Positions("a = 1\nb == \n[c\n")
        assert where.of_key(("a",)) == Position(1, 1)
        assert where.of_key(("c",)) == Position(1, near=True)

    def test_literals(self) -> None:
        """A number is found however it is written."""
        where = Positions("a = 1\nb = [2, 0xFF_FF]\nc = 1e999\n")
        assert where.of_literal("65535") == ("b", 2)
        assert where.of_literal("1e999") == ("c",)
        assert where.of_literal("7") is None
