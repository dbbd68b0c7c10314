"""Messages that are lost or late in the second profile, by the program. Traces and reports were computed by hand."""

from chordsim_tools.reference.chacha import Stream
from tests.support.rings import FOUR, ONE_HOP, SETTINGS, THREE, TWO, Example, ProgramTest

LOSE_ALL = Example(
    settings=SETTINGS,
    nodes=THREE,
    commands=ONE_HOP,
    trace=(
        "100 n3 lookup 1\n"
        "100 n3 lose step n0\n"
        "140 n3 timeout n0\n"
        "140 n3 found 1 n1 hops=0 timeouts=1 us=40\n"
        "200 audit members=3 dead=0 ring=3 ordered=yes principals=3 sufficient=yes\n"
    ),
    report=(
        "events 2\nmembers 0\njoin-failed 0\ncrashes 0\nstranded 0\ndrops 0\nlate 0\ntimeouts 1\n"
        "lookups 1\nfound 1\nlost 0\nbusy 0\nignored 0\nunfinished 0\nhops-sum 0\nhops-greatest 0\n"
        "us-sum 40\nus-least 40\nus-median 40\nus-greatest 40\naudits 1\nringless 0\nunordered 0\n"
        "insufficient 0\nlosses 1\n"
    ),
)
"""A lookup of n3 whose messages are all lost."""
SILENT = Example(
    settings=SETTINGS,
    nodes=THREE,
    commands=(
        '[[command]]\nat_us = 50\ndo = "crash"\nnode = "n0"\n'
        '[[command]]\nat_us = 100\ndo = "lookup"\nnode = "n3"\nkey = 1\n'
    ),
    trace=(
        "50 n0 crash\n"
        "100 n3 lookup 1\n"
        "114 n0 drop step n3\n"
        "140 n3 timeout n0\n"
        "140 n3 found 1 n1 hops=0 timeouts=1 us=40\n"
        "200 audit members=2 dead=0 ring=2 ordered=yes principals=2 sufficient=no\n"
    ),
    report=(
        "events 4\nmembers 0\njoin-failed 0\ncrashes 1\nstranded 0\ndrops 1\nlate 0\ntimeouts 1\n"
        "lookups 1\nfound 1\nlost 0\nbusy 0\nignored 0\nunfinished 0\nhops-sum 0\nhops-greatest 0\n"
        "us-sum 40\nus-least 40\nus-median 40\nus-greatest 40\naudits 1\nringless 0\nunordered 0\n"
        "insufficient 1\nlosses 0\n"
    ),
)
"""A lookup of n3 through n0, which has crashed."""
LOST_BY_THE_VIA = (
    "profile = 2\nbits = 3\nseed = 2\nlatency_us = 10\nloss_ppm = 100000\nlist = 1\n"
    "duration_us = 600\nwindow_us = 10\ntimeout_us = 40\naudit_us = 600\nstabilize_us = 1000\nfinger_us = 1000\n"
)
"""One message in ten is lost, and of this seed the first one of n6, which joins through n0."""
STRANDED = (
    "profile = 2\nbits = 3\nseed = 1\nlatency_us = 10\nloss_ppm = 1000000\nlist = 1\n"
    "duration_us = 140\nwindow_us = 10\ntimeout_us = 40\naudit_us = 140\nstabilize_us = 90\nfinger_us = 1000\n"
)
"""Two nodes that lose all messages. Each asks the other for its state at 90, and both are stranded at 130. By then n0
has begun sixty lookups.
"""
STRANDED_REPORT = (
    "events 64\nmembers 0\njoin-failed 0\ncrashes 0\nstranded 2\ndrops 0\nlate 0\n"
    "timeouts 2\nlookups 60\nfound 0\nlost 60\nbusy 0\nignored 0\nunfinished 0\nhops-sum 0\nhops-greatest 0\n"
    "us-sum 0\nus-least 0\nus-median 0\nus-greatest 0\naudits 1\nringless 1\nunordered 0\ninsufficient 1\nlosses 64\n"
)
"""All lines of the report of this run."""


class LostMessages(ProgramTest):
    """Traces and reports, by each engine."""

    def test_lost_or_late(self) -> None:
        """A lost message uses up its number, makes no event and leaves a line.

        The random words of a message are its sender's.
        """
        self.all_leave(LOSE_ALL.text("profile = 2\nloss_ppm = 1000000"), LOSE_ALL.trace, LOSE_ALL.report)
        self.all_leave(SILENT.text("profile = 2\nspread_us = 5"), SILENT.trace, SILENT.report)

    def test_the_via_is_asked_again(self) -> None:
        """A node that joins does not avoid its `via`: it is n3's successor, and no other node could be asked for it."""
        join = '[[command]]\nat_us = 100\ndo = "join"\nnode = "n6"\nvia = "n0"\n'
        self.assertLess(Stream(2, 3).word(2) % 1_000_000, 100_000)
        trace = (
            "100 n6 join n0\n"
            "100 n6 lose step n0\n"
            "140 n6 timeout n0\n"
            "200 n6 member n3\n"
            "600 audit members=4 dead=0 ring=3 ordered=yes principals=3 sufficient=yes\n"
        )
        self.all_write(LOST_BY_THE_VIA + FOUR + join, trace)

    def test_spreads_are_added(self) -> None:
        """A request and its reply each take their latency and a spread drawn by their sender.

        Before it in the stream come the words of the node's two timers, and the word that could have lost the message.
        """
        spread = Stream(1, 2).word(3) % 6 + Stream(1, 0).word(3) % 6
        self.assertEqual(spread, 4)
        trace = (
            "100 n3 lookup 1\n"
            "124 n3 found 1 n1 hops=1 timeouts=0 us=24\n"
            "200 audit members=3 dead=0 ring=3 ordered=yes principals=3 sufficient=yes\n"
        )
        self.all_write(LOSE_ALL.text("profile = 2\nspread_us = 5"), trace)

    def test_spread_of_a_thousand_seconds(self) -> None:
        """A request of n3 comes to n0, which is down, almost a thousand seconds late.

        Before the word of its spread come the words of the node's two timers, and the word that could have lost it.
        """
        toml = (
            "profile = 2\nbits = 3\nseed = 3513\nlatency_us = 10\nspread_us = 1000000000\nlist = 2\n"
            "duration_us = 1000000000\nwindow_us = 10\ntimeout_us = 1000\naudit_us = 1000000000\n"
            f"stabilize_us = 1000000000\nfinger_us = 1000000000\n{THREE}"
            f'[[command]]\nat_us = 50\ndo = "crash"\nnode = "n0"\n{ONE_HOP}'
        )
        trace = (
            "50 n0 crash\n"
            "100 n3 lookup 1\n"
            "1100 n3 timeout n0\n"
            "1100 n3 found 1 n1 hops=0 timeouts=1 us=1000\n"
            "999990199 n0 drop step n3\n"
            "1000000000 audit members=2 dead=0 ring=2 ordered=yes principals=2 sufficient=no\n"
        )
        self.all_write(toml, trace)

    def test_block_of_63_lines(self) -> None:
        """The longest block without detail: a timeout strands a node with sixty lookups.

        The request by which it joins again is lost too.
        """
        lookup = '[[command]]\nat_us = 100\ndo = "lookup"\nnode = "n0"\nkey = 5\n'
        trace = (
            "90 n0 lose get-state n4\n90 n4 lose get-state n0\n"
            + 60 * "100 n0 lookup 5\n100 n0 lose step n4\n"
            + "130 n0 timeout n4\n130 n0 stranded n4\n"
            + 60 * "130 n0 lost 5 hops=0 timeouts=0 us=30\n"
            + "130 n0 lose step n4\n130 n4 timeout n0\n130 n4 stranded n0\n130 n4 lose step n0\n"
            "140 audit members=0 dead=0 ring=0 ordered=yes principals=0 sufficient=no\n"
        )
        self.all_leave(STRANDED + TWO + 60 * lookup, trace, STRANDED_REPORT)
