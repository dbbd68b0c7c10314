"""Two joins by hand, by the program: conditions of the rules that random scenarios seldom decide."""

from tests.support.rings import FOUR, PLANS, ProgramTest, of_profile

TOP = "profile = 1\nbits = 3\nlatency_us = 10\nwindow_us = 10\ntimeout_us = 40\nstabilize_us = 1000\nfinger_us = 1000\n"
AFTER_A_CRASH = """\
[[command]]
at_us = 50
do = "crash"
node = "n1"
[[command]]
at_us = 100
do = "join"
node = "n6"
via = "n1"
[[command]]
at_us = 150
do = "crash"
node = "n6"
[[command]]
at_us = 160
do = "join"
node = "n6"
via = "n1"
"""
THROUGH_A_LOSS = """\
[[command]]
at_us = 100
do = "join"
node = "n6"
via = "n0"
"""


class RareJoins(ProgramTest):
    """Lines of the node that joins, and of those that it asks in vain."""

    def all_have(self, text: str, lines: list[str]) -> None:
        """Asserts that a scenario has these lines and an audit, by each engine."""
        for plan in PLANS:
            with self.subTest(plan=plan):
                trace = self.left(text, plan=plan).trace.splitlines()
                self.assertEqual([line for line in trace if " audit " not in line], lines)

    def test_pause_of_an_earlier_life(self) -> None:
        """n6 fails to join at 140, and would try again at 240. It crashes and joins anew: that pause is over.

        The join of its second life fails at 200, so that it tries again at 300 and not at 240.
        """
        keys = "profile = 4\njoin_pause_us = 100\nlist = 2\nseed = 1\nduration_us = 400\naudit_us = 400"
        lines = [
            "50 n1 crash", "100 n6 join n1", "110 n1 drop step n6", "140 n6 timeout n1", "150 n6 crash",
            "160 n6 join n1", "170 n1 drop step n6", "200 n6 timeout n1", "310 n1 drop step n6", "340 n6 timeout n1",
        ]
        self.all_have(of_profile(keys, TOP + FOUR + AFTER_A_CRASH), lines)

    def test_silent_node_to_join_through(self) -> None:
        """The request to n0 is lost. n6 joins through it, asks it again, and tells nobody to avoid it.

        So n3 may name it, which is the only node in its list.
        """
        keys = "profile = 2\nloss_ppm = 100000\nlist = 1\nseed = 2\nduration_us = 600\naudit_us = 600"
        lines = ["100 n6 join n0", "100 n6 lose step n0", "140 n6 timeout n0", "200 n6 member n3"]
        self.all_have(of_profile(keys, TOP + FOUR + THROUGH_A_LOSS), lines)
