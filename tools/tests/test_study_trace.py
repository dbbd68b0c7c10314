"""What a study takes from a trace, by hand: members a, b, c and d at 10, 20, 30 and 40 of a circle of 64 places."""

from unittest import TestCase

from chordsim_tools.members import Members
from chordsim_tools.study.served import Scope, scope_of
from chordsim_tools.study.survival import Times, percentile
from chordsim_tools.study.trace import TraceReader
from chordsim_tools.study.view import Numbers
from tests.support.judging import read_trace

IDENTS = {"a": 10, "b": 20, "c": 30, "d": 40}


def reader(
    *lines: str, warmup_us: int = 0, cooldown_us: int = 0, gap_us: float | None = None, join_forever: bool = False
) -> TraceReader:
    """A reader of these lines; a, b and c are members at the start; three steps of 100 us."""
    scope = Scope(250, 100, warmup_us, cooldown_us, gap_us, join_forever)
    one = TraceReader(Members(IDENTS, ["a", "b", "c"]), scope)
    read_trace(lines, one)
    return one


def numbers_of(*lines: str, cooldown_us: int = 0, gap_us: float | None = None) -> Numbers:
    """What a row has of these lines."""
    return reader(*lines, cooldown_us=cooldown_us, gap_us=gap_us).numbers()


def answers(*lines: str) -> tuple[int, int]:
    """Right and wrong answers."""
    numbers = reader(*lines).numbers()
    return int(numbers["right"] or 0), int(numbers["wrong"] or 0)


def found(key: int, owner: str, time: int = 50) -> str:
    """A line of an answer."""
    return f"{time} a found {key} {owner} hops=1 timeouts=0 us=20"


class StudyTraceTest(TestCase):
    """Right answers, percentiles, audits and steps of time."""

    def test_owner_is_at_or_after_the_key(self) -> None:
        """Key 20 is b's own place; key 21 is c's."""
        assert answers(found(20, "b")) == (1, 0)
        assert answers(found(21, "b")) == (0, 1)
        assert answers(found(21, "c")) == (1, 0)

    def test_key_that_wraps(self) -> None:
        """Keys after the last member, and 0, are the first one's."""
        assert answers(found(31, "a"), found(63, "a"), found(0, "a")) == (3, 0)
        assert answers(found(31, "c"), found(0, "b")) == (0, 2)

    def test_owner_that_has_crashed(self) -> None:
        """After b's crash key 15 is c's; before it was b's."""
        assert answers(found(15, "b"), "60 b crash", found(15, "b", 70), found(15, "c", 80)) == (2, 1)

    def test_order_of_lines_decides_within_one_time(self) -> None:
        """An answer ahead of the crash at the same time is right."""
        assert answers(found(15, "b"), "50 b crash", found(15, "b")) == (1, 1)

    def test_owner_that_is_stranded(self) -> None:
        """A stranded node is no member until its next line `member`; that it joins is not enough."""
        assert answers("10 b stranded a", found(15, "b"), "60 b member a", found(15, "b", 70)) == (1, 1)
        assert answers("10 d join a", found(35, "d"), found(35, "a"), "60 d member c", found(35, "d", 70)) == (2, 1)

    def test_crash_while_joining_takes_nobody_away(self) -> None:
        """d never became a member; a stranded node that crashes is taken away once."""
        one = reader("10 d join a", "20 d crash", "30 b stranded a", "40 b crash")
        assert one.members.places == [10, 30]

    def test_no_members(self) -> None:
        """Where nobody is a member no answer is right."""
        assert answers("1 a crash", "2 b crash", "3 c crash", found(15, "b")) == (0, 1)

    def test_steps(self) -> None:
        """Lookups by their begin, answers by their end, members at the end of the step; the last step is shorter."""
        one = reader(
            "90 a lookup 15", "100 b crash", "110 a found 15 b hops=1 timeouts=0 us=20", "120 a lookup 15",
            "130 a found 15 c hops=1 timeouts=0 us=10",
            "250 audit members=2 dead=0 ring=2 ordered=yes principals=2 sufficient=no",
        )
        one.numbers()
        assert [(step.lookups, step.found, step.right, step.members) for step in one.over_time.steps] == [
            (1, 0, 0, 3), (1, 2, 1, 2), (0, 0, 0, 2)
        ]

    def test_warmup(self) -> None:
        """What began before 100 us is not judged, when ever it ended; nor are audits till then."""
        audit = "audit members=3 dead=0 ring=3 ordered=yes principals=3 sufficient=yes"
        one = reader(
            "90 a lookup 15", "99 a lookup 16", "100 " + audit, "100 a lookup 17",
            "110 a found 15 b hops=1 timeouts=0 us=20", "120 a lost 16 hops=1 timeouts=0 us=21",
            "130 a found 17 b hops=4 timeouts=0 us=30", "140 a lookup 5",
            "150 a lost 5 hops=1 timeouts=0 us=10", "200 " + audit, warmup_us=100,
        )
        numbers = one.numbers()
        words = ("judged-lookups", "judged-found", "judged-lost", "right", "us-p99", "hops-p50", "judged-audits")
        assert [numbers[word] for word in words] == [2, 1, 1, 1, 30, 4, 1]
        assert (len(one.table), len(one.table.answered)) == (4, 2)

    def test_lost_messages(self) -> None:
        """They change nothing: a lost message is not a lost lookup, and its sender stays a member."""
        lost = "190 a lost 15 hops=0 timeouts=1 us=100"
        lines = ("90 a lookup 15", "90 a lose step b", "110 b lose step-reply a", lost)
        with_losses, without = reader(*lines), reader(lines[0], lines[3])
        assert with_losses.numbers() == without.numbers() and with_losses.numbers()["judged-lost"] == 1
        assert (with_losses.over_time.steps, with_losses.members.places) == (without.over_time.steps, [10, 20, 30])

    def test_audits(self) -> None:
        """Whole: all members once around. Torn: dead ones, no ring, or out of order."""
        facts = [
            "members=3 dead=0 ring=3 ordered=yes",
            "members=4 dead=0 ring=3 ordered=yes",
            "members=3 dead=1 ring=2 ordered=yes",
            "members=3 dead=0 ring=3 ordered=no",
            "members=0 dead=0 ring=0 ordered=yes",
        ]
        lines = [f"{40 * number} audit {fact} principals=3 sufficient=no" for number, fact in enumerate(facts, start=1)]
        numbers = reader(*lines).numbers()
        assert [numbers[word] for word in ("judged-audits", "whole-rings", "torn-rings")] == [5, 1, 3]
        assert numbers["mean-members"] == "2.600"

    def test_lost_ring(self) -> None:
        """Of a run of 250 us: audits without a ring to the end, from 225 us on at the latest."""
        for rings, lost_at in (
            ({100: 3, 200: 3}, None), ({100: 0, 150: 0, 200: 3}, None), ({100: 3, 226: 0, 240: 0}, None),
            ({100: 0, 150: 3, 200: 0, 240: 0}, 200), ({225: 0}, 225), ({50: 0, 240: 0}, 50),
        ):
            lines = [
                f"{time} audit members=3 dead=0 ring={ring} ordered=yes principals=3 sufficient=no"
                for time, ring in rings.items()
            ]
            with self.subTest(rings=rings):
                self.assertEqual(reader(*lines).numbers()["lost-at-us"], lost_at)

    def test_ring_that_is_not_lost(self) -> None:
        """No audit from 100 us on finds a ring. It is lost if at most half of the lookups that end then are right."""
        audit = "audit members=3 dead=0 ring={} ordered=yes principals=3 sufficient=no"
        right, wrong, lost = found(15, "b", 150), found(15, "c", 150), "150 a lost 15 hops=0 timeouts=1 us=10"
        for ends, lost_at in (
            ([right, wrong], 100), ([right, lost], 100), ([right, right, wrong], None), ([right], None), ([lost], 100),
        ):
            # What ends before the audit counts nowhere: with it each ring would be kept.
            lines = [*[found(15, "b")] * 3, "100 " + audit.format(0), *ends, "200 " + audit.format(0)]
            with self.subTest(ends=ends):
                self.assertEqual(reader(*lines).numbers()["lost-at-us"], lost_at)

    def test_right_in_two_ways(self) -> None:
        """d joins one microsecond before the answer: strictly wrong, but right while the lookup ran."""
        begun, late = "30 a lookup 35", "50 a found 35 a hops=1 timeouts=0 us=20"
        numbers = numbers_of(begun, "40 d join a", "49 d member c", late)
        words = ("right", "wrong", "right-defensible", "wrong-newcomer", "wrong-down")
        assert [numbers[word] for word in words] == [0, 1, 1, 1, 0]

    def test_wrong_all_the_time(self) -> None:
        """What was never right while the lookup ran is defensible in no way; a node that is down is told apart."""
        words = ("right", "right-defensible", "wrong-newcomer", "wrong-down")
        before = "5 d member c"
        late = "50 a found 35 a hops=1 timeouts=0 us=20"
        assert [numbers_of(before, "30 a lookup 35", late)[word] for word in words] == [0, 0, 1, 0]
        gone = numbers_of("5 b crash", "30 a lookup 15", "50 a found 15 b hops=1 timeouts=0 us=20")
        assert [gone[word] for word in words] == [0, 0, 0, 1]
        going = numbers_of("30 a lookup 15", "45 b crash", "50 a found 15 b hops=1 timeouts=0 us=20")
        assert [going[word] for word in words] == [0, 1, 0, 1]

    def test_cut_off(self) -> None:
        """The asker's crash and the end cut lookups off; those that end after a cool-down's begin still count."""
        lines = (
            "10 a lookup 15", "20 b lookup 15", "30 b crash", "160 a lookup 15", "210 a lookup 15",
            "220 a found 15 c hops=1 timeouts=0 us=210", "240 a found 15 c hops=1 timeouts=0 us=30",
        )
        words = ("judged-lookups", "judged-found", "cut-by-crash", "cut-by-end")
        assert [numbers_of(*lines)[word] for word in words] == [4, 2, 1, 1]
        assert [numbers_of(*lines, cooldown_us=50)[word] for word in words] == [3, 1, 1, 1]
        assert [reader(*lines, warmup_us=15).numbers()[word] for word in words] == [3, 1, 1, 1]

    def test_times_of_all_lookups(self) -> None:
        """Of 100 lookups 95 take a second and 5 are lost: the 99th percentile is never reached."""
        times = Times()
        times.ended, times.lost = [1_000_000] * 95, 5
        assert times.percentiles((50, 95, 99)) == {50: 1_000_000, 95: 1_000_000, 99: "never"}
        assert Times().percentile(50) is None

    def test_times_of_lookups_that_are_cut_off(self) -> None:
        """1, 2, 3 and one cut off after 2: three quarters left after 1, half after 2, nothing after 3."""
        times = Times()
        times.ended, times.cut = [3, 1, 2], [2]
        assert times.percentiles((25, 26, 50, 51, 99)) == {25: 1, 26: 2, 50: 2, 51: 3, 99: 3}
        times.cut = [4]
        assert times.percentiles((75, 76)) == {75: 3, 76: "never"}

    def test_without_cuts_as_nearest_rank(self) -> None:
        """The curve gives the nearest rank if all lookups end."""
        for count in (1, 2, 3, 7, 10, 100, 101):
            times = Times()
            times.ended = [place * place for place in range(count)]
            for share in (1, 50, 90, 99):
                assert times.percentile(share) == percentile(times.ended, share), (count, share)

    def test_wanted(self) -> None:
        """Three nodes want one lookup in 10 us each. b strands at 50 and is no member for 200 us, which are 20 more."""
        numbers = numbers_of("20 a lookup 5", "30 a busy 5", "50 b stranded a", gap_us=10)
        assert (numbers["wanted"], numbers["up-us"], numbers["member-us"]) == ("22.000", 750, 550)
        # The halves are 0 to 125 and 125 to 250.
        assert (numbers["wanted-1"], numbers["wanted-2"]) == ("9.500", "12.500")

    def test_who_is_up(self) -> None:
        """Until a crash; a join that failed does not end it, but the crash that was planned then does."""
        numbers = numbers_of("50 b crash", "100 b join a", "150 b join-failed", "200 b ignored crash", gap_us=10)
        assert (numbers["up-us"], numbers["member-us"], numbers["wanted"]) == (650, 550, "10.000")
        again = numbers_of("50 b crash", "100 b join a", "150 b join-failed", "200 b join a", "220 b member a")
        assert (again["up-us"], again["member-us"]) == (700, 580)

    def test_timers_of_joins_that_go_on(self) -> None:
        """Timers of a and c run for 250 us each, those of b until 50 and from 100 on. By failures that end at 150."""
        lines = ("50 b crash", "100 b join a", "150 b join-failed")
        for join_forever, alive in ((True, 700), (False, 600)):
            one = reader(*lines, join_forever=join_forever)
            one.numbers()
            assert (sum(one.population.alive.sums), sum(one.population.up.sums)) == (alive, 700)
        assert scope_of({"duration_us": 100, "join_forever": True}, 10, 0, 0).join_forever
        assert not scope_of({"duration_us": 100}, 10, 0, 0).join_forever

    def test_nodes_that_make_rings(self) -> None:
        """d is up, its timers run and it is a member from 100 on: 750 us of the others, and 150 us of d."""
        for lines in (("100 d join d", "100 d create"), ("100 d join a", "100 d join-failed", "100 d create")):
            one = reader(*lines)
            numbers = one.numbers()
            assert (numbers["up-us"], numbers["member-us"], sum(one.population.alive.sums)) == (900, 900, 900)
            assert one.members.is_member("d")

    def test_scheduled_lookups(self) -> None:
        """A command to look up counts if its node is up, member or not."""
        lines = ("40 b stranded a", "50 b ignored lookup", "60 c crash", "70 c ignored lookup", "80 a lookup 5")
        assert numbers_of(*lines)["wanted"] == "2.000"

    def test_scope(self) -> None:
        """The mean gap of the scenario, and the judged span in two halves."""
        top = {"duration_us": 100, "lookups": {"gap_min_us": 5, "gap_max_us": 8}}
        scope = scope_of(top, 10, 20, 30)
        assert (scope.gap_us, scope.bounds()) == (6.5, [20, 45, 70, 100])
        assert [scope.half(time) for time in (19, 20, 44, 45, 69, 70)] == [None, 0, 0, 1, 1, None]
        assert scope_of({"duration_us": 100}, 10, 0, 0).gap_us is None

    def test_ring_that_is_lost(self) -> None:
        """The time of the first audit without a ring, also during the warm-up."""
        rings = ((50, 3), (60, 0), (70, 0))
        lines = [f"{time} audit members=3 dead=0 ring={ring} ordered=yes x=0" for time, ring in rings]
        assert reader(*lines, warmup_us=100).numbers()["lost-at-us"] == 60
        assert reader(lines[0]).numbers()["lost-at-us"] is None

    def test_percentiles(self) -> None:
        """Nearest rank: of ten values the 5th, 9th and 10th; of one the one; of none nothing."""
        ten = [100, 20, 30, 40, 50, 60, 70, 80, 90, 10]
        assert [percentile(ten, share) for share in (50, 90, 99)] == [50, 90, 100]
        assert percentile([7], 50) == 7
        assert percentile([1, 2, 3], 50) == 2
        assert percentile(list(range(1, 201)), 99) == 198
        assert percentile([], 50) is None
