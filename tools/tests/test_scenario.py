"""The refusals of docs/formats.md, section 4: each a change of examples/ring.toml."""

from unittest import TestCase

from tests.support.worlds import RING, fault, ring

N0 = 'name = "n0"\nid = 0\ninitial = true'
N1 = 'name = "n1"\nid = 1'
N3 = 'name = "n3"\nid = 3\ninitial = true'
LOOKUP = 'node = "n0"\nkey = 1'

CHANGES = [
    ("[[node]]", "[[nod", "S1 NotToml"),
    ("seed = 1", "seed = 9223372036854775808", "S1 NotToml"),
    ("profile = 1", "x = 1\nprofile = 1", "S2 UnknownKey top"),
    (N1, N1 + "\nkey = 1", "S2 UnknownKey node 2"),
    ("list = 2", "", "S3 MissingKey top list"),
    (LOOKUP, 'node = "n0"', "S3 MissingKey command 1 key"),
    (N3, N3 + "\nchurn = true", "S3 MissingKey top churn"),
    ("bits = 3", 'bits = "3"', "S4 WrongType top bits"),
    (N0, N0.replace("true", "1"), "S4 WrongType node 1 initial"),
    ("list = 2", "list = 17", "S5 OutOfRange top list"),
    ("duration_us = 200", "duration_us = 200000001", "S5 OutOfRange top audit_us"),
    ("id = 0", "id = 8", "S5 OutOfRange node 1 id"),
    ('do = "lookup"', 'do = "leave"', "S5 OutOfRange command 1 do"),
    ('name = "n1"', 'name = "n 1"', "S6 BadName node 2"),
    ('name = "n1"', 'name = "n0"', "S7 SameName node 1 node 2"),
    ("id = 1", "id = 0", "S8 SameId n0 n1"),
    ('node = "n0"', 'node = "n9"', "S9 UnknownNode command 1"),
    (N3, N3.replace("true", "false"), "S10 TooFewInitial"),
    ("at_us = 100", "at_us = 200", "S11 TimeAfterEnd command 1"),
    ("window_us = 10", "window_us = 11", "S15 LatencyBelowWindow n0 n1"),
]
ROWS = [
    ("n0,n9,10", "S9 UnknownNode row 1"),
    ("n0,n3", "S12 BadLatencyRow row 1"),
    ("n0,n3,0", "S12 BadLatencyRow row 1"),
    ("n0,n0,10", "S13 SelfLink row 1"),
    ("n0,n3,10\nn3,n0,10", "S14 SameLinkTwice row 2"),
    ("n3,n1,9", "S15 LatencyBelowWindow n1 n3"),
]


class ScenarioTest(TestCase):
    """The faults of both files, and what is accepted."""

    def test_changes_of_the_scenario(self) -> None:
        """Each change has its fault."""
        for old, new, text in CHANGES:
            with self.subTest(change=new):
                assert old in RING, old
                assert fault(RING.replace(old, new, 1)) == text

    def test_empty_file(self) -> None:
        """All keys are missing, and the first is named."""
        assert fault("") == "S3 MissingKey top profile"

    def test_rows(self) -> None:
        """Each row has its fault."""
        for rows, text in ROWS:
            with self.subTest(rows=rows):
                assert fault(RING, rows) == text

    def test_rows_that_are_accepted(self) -> None:
        """Quotes, leading zeros, all three ends of lines, empty lines and a byte order mark."""
        scenario = ring(rows='\ufeff"n0",n1,0000000012\r\n\r\nn3,"n0","25"\rn1,n3,17')
        assert scenario.latencies == {(0, 1): 12, (1, 0): 12, (2, 0): 25, (0, 2): 25, (1, 2): 17, (2, 1): 17}

    def test_identifiers(self) -> None:
        """An identifier is a number, a text of hexadecimal digits, or the head of the digest of the name."""
        wide = ring(("bits = 3", "bits = 64"), ("id = 1", 'id = "ffffffffffffffff"'), (N3, N3.replace("id = 3\n", "")))
        assert [node.ident for node in wide.nodes[:2]] == [0, 2**64 - 1]
        assert wide.nodes[2].ident == 0x26C2CE28D0DF94C0  # sha1sum of n3
