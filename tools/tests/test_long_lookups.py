"""Lookups that are as many or as long as they may be, and in as many nodes, by the program."""

from tests.support.rings import ONE_HOP, PLANS, WHOLE, ProgramTest, numbers_of, of_profile, ring_of, text_of_three
from tests.support.worlds import LATER

SIXTY_REPORT = (
    "events 241\nmembers 0\njoin-failed 0\ncrashes 0\nstranded 0\ndrops 0\nlate 0\ntimeouts 0\n"
    "lookups 60\nfound 60\nlost 0\nbusy 1\nignored 0\nunfinished 0\nhops-sum 60\nhops-greatest 1\n"
    "us-sum 1200\nus-least 20\nus-median 20\nus-greatest 20\naudits 1\nringless 0\nunordered 0\n"
    "insufficient 0\n"
)
"""The report of 61 lookups."""
ASKED = (
    (8, 110, 140), (4, 150, 180), (2, 190, 220), (1, 230, 260), (3, 270, 300), (5, 310, 340), (6, 350, 380),
    (7, 390, 420), (9, 430, 460),
)
"""Nodes that n0 asks, the time at which each drops the request, and the time of the timeout at n0.

n0 has the fingers n1, n1, n1, n2, n4, n8 and n16. It asks the farthest before the key, and then its first successor
that is not to be avoided.
"""


def fourteen_crashes() -> str:
    """Eighteen nodes, eight places apart, of which fourteen crash before n0 looks up what n15 owns."""
    return (
        "profile = 1\nbits = 8\nseed = 1\nlatency_us = 10\nlist = 16\nduration_us = 1000\nwindow_us = 10\n"
        "timeout_us = 40\naudit_us = 1000\nstabilize_us = 10000\nfinger_us = 10000\n"
        + "".join(f'[[node]]\nname = "n{node}"\nid = {8 * node}\ninitial = true\n' for node in range(18))
        + "".join(f'[[command]]\nat_us = 50\ndo = "crash"\nnode = "n{node}"\n' for node in range(1, 15))
        + '[[command]]\nat_us = 100\ndo = "lookup"\nnode = "n0"\nkey = 115\n'
    )


def chain() -> str:
    """A ring of n0 and n131, into which n130 to n1 join one after another.

    Each of them knows only the node after it, so that n1 has to ask all nodes on the way to a key.
    """
    initial = {0, 131}
    return (
        "profile = 1\nbits = 8\nseed = 1\nlatency_us = 10\nlist = 1\nduration_us = 60000\nwindow_us = 10\n"
        "timeout_us = 40\naudit_us = 60000\nstabilize_us = 100\nfinger_us = 1000000\n"
        + "".join(
            f'[[node]]\nname = "n{node}"\nid = {node}\n' + ("initial = true\n" if node in initial else "")
            for node in range(132)
        )
        + "".join(
            f'[[command]]\nat_us = {400 * turn}\ndo = "join"\nnode = "n{131 - turn}"\nvia = "n0"\n'
            for turn in range(1, 131)
        )
        + '[[command]]\nat_us = 53000\ndo = "lookup"\nnode = "n1"\nkey = 131\n'
    )


class LongLookups(ProgramTest):
    """Traces and reports."""

    def test_sixty_lookups_and_one_more(self) -> None:
        """Sixty lookups are in progress at most; one more finds the node busy. So it is in each profile."""
        trace = (
            60 * "100 n3 lookup 1\n" + "100 n3 busy 1\n" + 60 * "120 n3 found 1 n1 hops=1 timeouts=0 us=20\n" + WHOLE
        )
        for profile, last in (
            ("profile = 1", ""),
            ("profile = 2", "losses 0\n"),
            ("profile = 4", "".join(f"{word} 0\n" for word in LATER)),
        ):
            with self.subTest(profile):
                self.all_leave(of_profile(profile, text_of_three(61 * ONE_HOP)), trace, SIXTY_REPORT + last)

    def test_nine_timeouts(self) -> None:
        """The ninth node that is silent ends the lookup."""
        trace = (
            "".join(f"50 n{node} crash\n" for node in range(1, 15))
            + "100 n0 lookup 115\n"
            + "".join(f"{drop} n{node} drop step n0\n{silent} n0 timeout n{node}\n" for node, drop, silent in ASKED)
            + "460 n0 lost 115 hops=0 timeouts=9 us=360\n"
            "1000 audit members=4 dead=0 ring=4 ordered=yes principals=4 sufficient=no\n"
        )
        numbers = "events 33\ncrashes 14\ndrops 9\ntimeouts 9\nlookups 1\nlost 1\naudits 1\ninsufficient 1\n"
        for plan in PLANS:
            with self.subTest(plan=plan):
                left = self.left(fourteen_crashes(), plan=plan)
                self.assertEqual((left.trace, numbers_of(left.report)), (trace, numbers))

    def test_128_requests(self) -> None:
        """n1 asks n2 to n129. The last of these 128 names n130, which is not asked any more."""
        self.assertIn("\n55560 n1 lost 131 hops=128 timeouts=0 us=2560\n", self.left(chain()).trace)

    def test_as_many_nodes_as_there_may_be(self) -> None:
        """The most nodes of the second profile, in 512 parts and by eight workers, leave what one worker leaves.

        The lookup of n0 goes 2048, 512, 256, 128, 32, 16, 4, 2 and 1 places on, to the node before the owner.
        """
        trace = (
            "100 n0 lookup 3000\n"
            "280 n0 found 3000 n3000 hops=9 timeouts=0 us=180\n"
            "300 audit members=4096 dead=0 ring=4096 ordered=yes principals=4096 sufficient=yes\n"
        )
        for engine in ("serial", "crew", "team"):
            with self.subTest(engine):
                plan = ("--engine", engine, "--workers", "8", "--parts", "512", "--split", "block")
                left = self.left(ring_of(12, 4096, 3000), plan=plan)
                self.assertEqual(left.trace, trace)
                self.assertTrue(left.report.startswith("events 27\n"), left.report)
