"""Silent nodes in the extended profile, by the program: predecessors that are forgotten, joins that are tried again.

Traces and reports were computed by hand.
"""

from tests.support.rings import FOUR, THREE, Example, ProgramTest

JOIN_THROUGH_DEAD = (
    '[[command]]\nat_us = 50\ndo = "crash"\nnode = "n1"\n'
    '[[command]]\nat_us = 100\ndo = "join"\nnode = "n6"\nvia = "n1"\n'
)
"""The commands of a join through n1, which has crashed."""

SILENT_PREDECESSOR = Example(
    settings=(
        "list = 2\nduration_us = 230\nwindow_us = 10\ntimeout_us = 40\naudit_us = 230\nstabilize_us = 120\n"
        "finger_us = 1000\n"
    ),
    nodes=THREE,
    commands='[[command]]\nat_us = 50\ndo = "crash"\nnode = "n0"\n',
    trace=(
        "50 n0 crash\n"
        "110 n0 drop ping n1\n"
        "130 n0 drop get-state n3\n"
        "140 n1 timeout n0\n"
        "140 n1 forget n0\n"
        "160 n3 timeout n0\n"
        "230 audit members=2 dead=0 ring=2 ordered=yes principals=2 sufficient=no\n"
    ),
    report=(
        "events 28\nmembers 0\njoin-failed 0\ncrashes 1\nstranded 0\ndrops 2\nlate 0\ntimeouts 2\n"
        "lookups 0\nfound 0\nlost 0\nbusy 0\nignored 0\nunfinished 0\nhops-sum 0\nhops-greatest 0\n"
        "us-sum 0\nus-least 0\nus-median 0\nus-greatest 0\naudits 1\nringless 0\nunordered 0\n"
        "insufficient 1\nlosses 0\nagain 0\nforgotten 1\n"
        "leaves 0\nrescues 0\ncreates 0\ntimeouts-sum 0\n"
    ),
)
"""n0 has crashed. n1 asks it for a sign of life at 100, and forgets it at 140. At 160 n3 asks n1 for its state, which
has no predecessor then; so n3 notifies n1 at 180, becomes its predecessor at 190, and is asked by the next check.
"""
PAUSE_IN_A_JOIN = Example(
    settings=(
        "list = 2\nduration_us = 300\nwindow_us = 10\ntimeout_us = 40\naudit_us = 300\nstabilize_us = 1000\n"
        "finger_us = 1000\n"
    ),
    nodes=FOUR,
    commands=JOIN_THROUGH_DEAD,
    trace=(
        "50 n1 crash\n"
        "100 n6 join n1\n"
        "110 n1 drop step n6\n"
        "140 n6 timeout n1\n"
        "175 n1 drop step n6\n"
        "205 n6 timeout n1\n"
        "240 n1 drop step n6\n"
        "270 n6 timeout n1\n"
        "300 audit members=2 dead=0 ring=2 ordered=yes principals=2 sufficient=no\n"
    ),
    report=(
        "events 11\nmembers 0\njoin-failed 0\ncrashes 1\nstranded 0\ndrops 3\nlate 0\ntimeouts 3\n"
        "lookups 0\nfound 0\nlost 0\nbusy 0\nignored 0\nunfinished 0\nhops-sum 0\nhops-greatest 0\n"
        "us-sum 0\nus-least 0\nus-median 0\nus-greatest 0\naudits 1\nringless 0\nunordered 0\n"
        "insufficient 1\nlosses 0\nagain 0\nforgotten 0\n"
        "leaves 0\nrescues 0\ncreates 0\ntimeouts-sum 0\n"
    ),
)
"""Each attempt fails 40 us after it began, and the next begins 25 us later, the last at 295."""
JOIN_WITHOUT_END = Example(
    settings=(
        "list = 2\nduration_us = 320\nwindow_us = 10\ntimeout_us = 15\naudit_us = 320\nstabilize_us = 1000\n"
        "finger_us = 1000\n"
    ),
    nodes=FOUR,
    commands=JOIN_THROUGH_DEAD,
    trace=(
        "50 n1 crash\n"
        "100 n6 join n1\n"
        "110 n1 drop step n6\n"
        "115 n6 timeout n1\n"
        "130 n1 drop step n6\n"
        "135 n6 timeout n1\n"
        "150 n1 drop step n6\n"
        "155 n6 timeout n1\n"
        "170 n1 drop step n6\n"
        "175 n6 timeout n1\n"
        "190 n1 drop step n6\n"
        "195 n6 timeout n1\n"
        "210 n1 drop step n6\n"
        "215 n6 timeout n1\n"
        "230 n1 drop step n6\n"
        "235 n6 timeout n1\n"
        "250 n1 drop step n6\n"
        "255 n6 timeout n1\n"
        "255 n6 join-failed\n"
        "305 n1 drop step n6\n"
        "310 n6 timeout n1\n"
        "320 audit members=2 dead=0 ring=2 ordered=yes principals=2 sufficient=no\n"
    ),
    report=(
        "events 29\nmembers 0\njoin-failed 1\ncrashes 1\nstranded 0\ndrops 9\nlate 0\ntimeouts 9\n"
        "lookups 0\nfound 0\nlost 0\nbusy 0\nignored 0\nunfinished 0\nhops-sum 0\nhops-greatest 0\n"
        "us-sum 0\nus-least 0\nus-median 0\nus-greatest 0\naudits 1\nringless 0\nunordered 0\n"
        "insufficient 1\nlosses 0\nagain 0\nforgotten 0\n"
        "leaves 0\nrescues 0\ncreates 0\ntimeouts-sum 0\n"
    ),
)
"""The eighth attempt fails at 255. Eight pauses later, at 295, the node begins again."""
PAUSE_OF_AN_EARLIER_LIFE = Example(
    settings=(
        "list = 2\nduration_us = 400\nwindow_us = 10\ntimeout_us = 40\naudit_us = 400\nstabilize_us = 1000\n"
        "finger_us = 1000\n"
    ),
    nodes=FOUR,
    commands=(
        JOIN_THROUGH_DEAD + '[[command]]\nat_us = 150\ndo = "crash"\nnode = "n6"\n'
        '[[command]]\nat_us = 160\ndo = "join"\nnode = "n6"\nvia = "n1"\n'
    ),
    trace=(
        "50 n1 crash\n"
        "100 n6 join n1\n"
        "110 n1 drop step n6\n"
        "140 n6 timeout n1\n"
        "150 n6 crash\n"
        "160 n6 join n1\n"
        "170 n1 drop step n6\n"
        "200 n6 timeout n1\n"
        "310 n1 drop step n6\n"
        "340 n6 timeout n1\n"
        "400 audit members=2 dead=0 ring=2 ordered=yes principals=2 sufficient=no\n"
    ),
    report=(
        "events 12\nmembers 0\njoin-failed 0\ncrashes 2\nstranded 0\ndrops 3\nlate 0\ntimeouts 3\n"
        "lookups 0\nfound 0\nlost 0\nbusy 0\nignored 0\nunfinished 0\nhops-sum 0\nhops-greatest 0\n"
        "us-sum 0\nus-least 0\nus-median 0\nus-greatest 0\naudits 1\nringless 0\nunordered 0\n"
        "insufficient 1\nlosses 0\nagain 0\nforgotten 0\n"
        "leaves 0\nrescues 0\ncreates 0\ntimeouts-sum 0\n"
    ),
)
"""The pause that begins at 140 ends at 240, in the node's next life, and starts nothing. The next one ends at 300."""
TOLD_CHECKS = (
    "50 n0 crash\n"
    "100 n1 ask ping n0 call=5\n"
    "100 n3 ask ping n1 call=5\n"
    "110 n0 drop ping n1\n"
    "110 n1 send pong n3\n"
    "120 n1 ask get-state n3 call=9\n"
    "120 n3 ask get-state n0 call=8\n"
    "130 n3 send state-reply n1\n"
    "130 n0 drop get-state n3\n"
    "140 n1 timeout n0\n"
    "140 n1 forget n0\n"
    "140 n1 send notify n3\n"
    "160 n3 timeout n0\n"
    "160 n3 ask get-state n1 call=11\n"
    "170 n1 send state-reply n3\n"
    "180 n3 send notify n1\n"
    "200 n1 ask ping n3 call=14\n"
    "200 n3 ask ping n1 call=15\n"
    "210 n3 send pong n1\n"
    "210 n1 send pong n3\n"
    "230 audit members=2 dead=0 ring=2 ordered=yes principals=2 sufficient=no\n"
)
"""Each node has made three timers before its first check, and each tick makes the next before its request."""


class SilentNodes(ProgramTest):
    """Traces and reports, by each engine."""

    def test_keys_of_the_extended_profile(self) -> None:
        """A silent predecessor is forgotten, attempts to join are a pause apart, and a join may go on without end."""
        for profile, example in (
            ("profile = 4\ncheck_us = 100", SILENT_PREDECESSOR),
            ("profile = 4\njoin_pause_us = 25", PAUSE_IN_A_JOIN),
            ("profile = 4\njoin_pause_us = 5\njoin_forever = true", JOIN_WITHOUT_END),
            ("profile = 4\njoin_pause_us = 100", PAUSE_OF_AN_EARLIER_LIFE),
        ):
            with self.subTest(profile):
                self.all_leave(example.text(profile), example.trace, example.report)

    def test_detail(self) -> None:
        """With detail each message has a line, and the report is as without."""
        toml = SILENT_PREDECESSOR.text("profile = 4\ncheck_us = 100\ndetail = true")
        self.all_leave(toml, TOLD_CHECKS, SILENT_PREDECESSOR.report)
