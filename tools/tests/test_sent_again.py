"""Requests that are sent again in the extended profile, and draws of their own, by the program.

Traces and reports were computed by hand, those with draws from words of the streams, which test_extended_profile.py
lists.
"""

from tests.support.rings import ONE_HOP, SETTINGS, THREE, Example, ProgramTest
from tests.support.worlds import SWITCHED_OFF

FOUND_AGAIN = Example(
    settings=SETTINGS,
    nodes=THREE,
    commands=ONE_HOP,
    trace=(
        "100 n3 lookup 1\n"
        "100 n3 lose step n0\n"
        "140 n3 again step n0\n"
        "160 n3 found 1 n1 hops=1 timeouts=0 us=60\n"
        "200 audit members=3 dead=0 ring=3 ordered=yes principals=3 sufficient=yes\n"
    ),
    report=(
        "events 5\nmembers 0\njoin-failed 0\ncrashes 0\nstranded 0\ndrops 0\nlate 0\ntimeouts 0\n"
        "lookups 1\nfound 1\nlost 0\nbusy 0\nignored 0\nunfinished 0\nhops-sum 1\nhops-greatest 1\n"
        "us-sum 60\nus-least 60\nus-median 60\nus-greatest 60\naudits 1\nringless 0\nunordered 0\n"
        "insufficient 0\nlosses 1\nagain 1\nforgotten 0\n"
        "leaves 0\nrescues 0\ncreates 0\ntimeouts-sum 0\n"
    ),
)
"""Of a million, 20387 are lost: the number of n3's third message is 20386. It is the step of the lookup. The step that
is sent again at 140 is its fifth message, whose number is 898834: n0 replies to that.
"""
TAKEN_FOR_DEAD = Example(
    settings=(
        "list = 2\nduration_us = 200\nwindow_us = 10\ntimeout_us = 30\naudit_us = 200\nstabilize_us = 1000\n"
        "finger_us = 1000\n"
    ),
    nodes=THREE,
    commands=(
        '[[command]]\nat_us = 50\ndo = "crash"\nnode = "n0"\n'
        '[[command]]\nat_us = 80\ndo = "lookup"\nnode = "n3"\nkey = 1\n'
    ),
    trace=(
        "50 n0 crash\n"
        "80 n3 lookup 1\n"
        "90 n0 drop step n3\n"
        "110 n3 again step n0\n"
        "120 n0 drop step n3\n"
        "140 n3 again step n0\n"
        "150 n0 drop step n3\n"
        "170 n3 timeout n0\n"
        "170 n3 found 1 n1 hops=0 timeouts=1 us=90\n"
        "200 audit members=2 dead=0 ring=2 ordered=yes principals=2 sufficient=no\n"
    ),
    report=(
        "events 8\nmembers 0\njoin-failed 0\ncrashes 1\nstranded 0\ndrops 3\nlate 0\ntimeouts 1\n"
        "lookups 1\nfound 1\nlost 0\nbusy 0\nignored 0\nunfinished 0\nhops-sum 0\nhops-greatest 0\n"
        "us-sum 90\nus-least 90\nus-median 90\nus-greatest 90\naudits 1\nringless 0\nunordered 0\n"
        "insufficient 1\nlosses 0\nagain 2\nforgotten 0\n"
        "leaves 0\nrescues 0\ncreates 0\ntimeouts-sum 1\n"
    ),
)
"""n0 has crashed. The step comes to it at 90, 120 and 150; at 170 it is taken for dead."""
LATE_REPLY = Example(
    settings=(
        "list = 2\nduration_us = 200\nwindow_us = 10\ntimeout_us = 15\naudit_us = 200\nstabilize_us = 1000\n"
        "finger_us = 1000\n"
    ),
    nodes=THREE,
    commands=ONE_HOP,
    trace=(
        "100 n3 lookup 1\n"
        "115 n3 again step n0\n"
        "120 n3 found 1 n1 hops=1 timeouts=0 us=20\n"
        "135 n3 late step-reply n0\n"
        "200 audit members=3 dead=0 ring=3 ordered=yes principals=3 sufficient=yes\n"
    ),
    report=(
        "events 7\nmembers 0\njoin-failed 0\ncrashes 0\nstranded 0\ndrops 0\nlate 1\ntimeouts 0\n"
        "lookups 1\nfound 1\nlost 0\nbusy 0\nignored 0\nunfinished 0\nhops-sum 1\nhops-greatest 1\n"
        "us-sum 20\nus-least 20\nus-median 20\nus-greatest 20\naudits 1\nringless 0\nunordered 0\n"
        "insufficient 0\nlosses 0\nagain 1\nforgotten 0\n"
        "leaves 0\nrescues 0\ncreates 0\ntimeouts-sum 0\n"
    ),
)
"""The timeout is shorter than the way to n0 and back. The reply to the first step ends the lookup, and the reply to
the second is late.
"""
TOLD_AGAIN = (
    "100 n3 lookup 1\n"
    "100 n3 lose step n0\n"
    "100 n3 ask step n0 call=3 key=1 since=100\n"
    "140 n3 again step n0\n"
    "140 n3 ask step n0 call=3 key=1 since=100\n"
    "150 n0 send step-reply n3\n"
    "160 n3 found 1 n1 hops=1 timeouts=0 us=60\n"
    "200 audit members=3 dead=0 ring=3 ordered=yes principals=3 sufficient=yes\n"
)
"""The first request of the lookup is lost. Both sendings have the number of the call, 3, after those of two timers."""


class SentAgain(ProgramTest):
    """Traces and reports, by each engine."""

    def test_sent_again(self) -> None:
        """A request is sent again as often as the scenario says. A reply to any of its sendings is one to the call."""
        for profile, example in (
            ("profile = 4\nloss_ppm = 20387\nretries = 1", FOUND_AGAIN),
            ("profile = 4\nretries = 2", TAKEN_FOR_DEAD),
            ("profile = 4\nretries = 3", LATE_REPLY),
        ):
            with self.subTest(profile):
                self.all_leave(example.text(profile), example.trace, example.report)

    def test_detail(self) -> None:
        """With detail each message has a line, and the report is as without."""
        toml = FOUND_AGAIN.text("profile = 4\nloss_ppm = 20387\nretries = 1\ndetail = true")
        self.all_leave(toml, TOLD_AGAIN, FOUND_AGAIN.report)

    def test_spreads_have_words_of_their_own(self) -> None:
        """The spreads of a message and of its reply are made of the last two words that each has.

        They are 4 of n3's third message, and 3 of n0's third.
        """
        trace = (
            "100 n3 lookup 1\n"
            "127 n3 found 1 n1 hops=1 timeouts=0 us=27\n"
            "200 audit members=3 dead=0 ring=3 ordered=yes principals=3 sufficient=yes\n"
        )
        self.all_write(FOUND_AGAIN.text("profile = 4\nspread_us = 5"), trace)

    def test_both_words_of_a_number(self) -> None:
        """A spread of up to a thousand seconds is made of two words, the second of which decides its last digit.

        The words are 14 and 15 of the streams (n3, 7) and (n0, 7) under seed 15: those of each node's third message.
        """
        request, reply = (0x654788CB518A7266 * 1_000_000_001 >> 64, 0x0D5EF83F73E1E88A * 1_000_000_001 >> 64)
        self.assertNotEqual(request, 0x654788CB654788CB * 1_000_000_001 >> 64)
        toml = (
            f"profile = 4\n{SWITCHED_OFF}bits = 3\nseed = 15\nlatency_us = 10\nspread_us = 1000000000\nlist = 2\n"
            "duration_us = 1000000000\nwindow_us = 10\ntimeout_us = 1000000000\naudit_us = 1000000000\n"
            f"stabilize_us = 1000000000\nfinger_us = 1000000000\n{THREE}{ONE_HOP}"
        )
        late = request + reply
        trace = (
            "100 n3 lookup 1\n"
            f"{120 + late} n3 found 1 n1 hops=1 timeouts=0 us={20 + late}\n"
            "1000000000 audit members=3 dead=0 ring=3 ordered=yes principals=3 sufficient=yes\n"
        )
        self.all_write(toml, trace)
