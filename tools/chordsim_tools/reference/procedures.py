"""The procedures (docs/rules.md, sections 8.4 to 8.10)."""

from chordsim_tools.known import known
from chordsim_tools.reference.state import (
    Answer, Attempt, Drawn, GetState, Leave, Lookup, Next, Owner, Purpose, Rejoin, Rise, Status, Step, Stuck,
)
from chordsim_tools.reference.turn import Turn

USER_LOOKUPS = 60
JOIN_FAILURES = 8
PAUSES_AFTER_A_JOIN = 8
JOIN_STEPS = 128


class Procedures(Turn):
    """Node n acts: it searches, looks up, joins, drops silent nodes, refreshes fingers, and leaves."""

    # 8.4 Step answer

    def step_answer(self, key: int, avoid: list[int]) -> Answer:
        """The step answer of node n for a key and a list of nodes to avoid."""
        circle, idents, n = self.world.circle, self.world.idents, self.n
        usable = [entry for entry in n.succ if entry not in avoid]
        if not usable:
            return Stuck()
        s = usable[0]
        me = idents[n.me]
        if circle.in_half_open(me, key, idents[s]):
            return Owner(s)
        candidates = {s, *n.fingers.values()}
        if self.ways.list_routes:
            candidates.update(n.succ)
        preceding = [x for x in candidates if x not in avoid and circle.between(me, idents[x], key)]
        return Next(max(preceding, key=lambda x: circle.distance(me, idents[x])))

    # 8.5 Lookups

    def user_lookup(self, key: int) -> None:
        """A user lookup of a key."""
        if len([lookup for lookup in self.n.lookups if lookup.finger is None]) == USER_LOOKUPS:
            self.line(f"busy {key}")
            return
        self.line(f"lookup {key}")
        self.begin_lookup(Lookup(key, None, self.t))

    def begin_lookup(self, lookup: Lookup) -> None:
        """A new lookup, behind all others, is walked."""
        self.n.lookups.append(lookup)
        self.walk(lookup)

    def walk(self, lookup: Lookup) -> None:
        """Takes the step answer of n itself, and follows it."""
        self.follow(lookup, self.step_answer(lookup.key, lookup.avoid))

    def follow(self, lookup: Lookup, answer: Answer) -> None:
        """Follows an answer. One of a node that was asked is not Stuck if the lookup goes on (`lookup_answered`)."""
        match answer:
            case Owner(s) if self.ways.ask_owner and lookup.finger is None:
                self.ask_owner(lookup, s)
            case Owner(s):
                self.finish(lookup, s)
            case Stuck():
                self.fail(lookup)
            case Next(x):
                self.ask(lookup, x)

    def ask(self, lookup: Lookup, x: int) -> None:
        """Asks x."""
        if self.may_step(lookup):
            lookup.call = self.call(Step, x, Purpose.LOOKUP, lookup.key, list(lookup.avoid)).number

    def ask_owner(self, lookup: Lookup, s: int) -> None:
        """Asks the owner s."""
        if self.may_step(lookup):
            lookup.call = self.call(GetState, s, Purpose.OWNER).number

    def may_step(self, lookup: Lookup) -> bool:
        """Whether the lookup may make one more step, which is counted here. Otherwise it fails."""
        if lookup.steps == self.world.lookup_steps:
            self.fail(lookup)
            return False
        lookup.steps += 1
        return True

    def owner_answered(self, lookup: Lookup, s: int, p: int | None) -> None:
        """The owner s has answered, and p is its predecessor. If p owns the key, it is asked in the place of s."""
        if p is None or p in lookup.avoid or self.owns(s, p, lookup.key):
            self.finish(lookup, s)
        else:
            self.ask_owner(lookup, p)

    def owns(self, s: int, p: int, key: int) -> bool:
        """Whether s owns the key if p is its predecessor."""
        return self.world.circle.in_half_open(self.world.idents[p], key, self.world.idents[s])

    def lookup_answered(self, lookup: Lookup, x: int, answer: Answer) -> None:
        """x was asked and has answered. If it is asked again, to go on from it, it is no further hop."""
        if x != lookup.last:
            lookup.hops += 1
        if self.ways.goes_on and isinstance(answer, Stuck):
            self.leave_out(lookup, x)
            return
        if self.ways.goes_on:
            lookup.last = x
        self.follow(lookup, answer)

    def leave_out(self, lookup: Lookup, x: int) -> None:
        """Leaves out x, which is silent or a dead end. It fails if it has as many nodes to avoid as it may have.

        Otherwise the lookup goes on from the node that answered last, or is walked if there is none.
        """
        if len(lookup.avoid) == self.ways.lookup_timeouts:
            self.fail(lookup)
            return
        lookup.avoid.append(x)
        if lookup.last == x:
            lookup.last = None
        if lookup.last is None:
            self.walk(lookup)
        else:
            self.ask(lookup, lookup.last)

    def finish(self, lookup: Lookup, s: int) -> None:
        """Finishes with s."""
        if lookup.finger is None:
            self.line(f"found {lookup.key} {self.name(s)} {self.facts(lookup)}")
        else:
            self.n.fingers[lookup.finger] = s
        self.n.lookups.remove(lookup)

    def fail(self, lookup: Lookup) -> None:
        """Fails."""
        if lookup.finger is None:
            self.line(f"lost {lookup.key} {self.facts(lookup)}")
        self.n.lookups.remove(lookup)

    def facts(self, lookup: Lookup) -> str:
        """The end of a line `found` or `lost`."""
        return f"hops={lookup.hops} timeouts={lookup.timeouts} us={self.t - lookup.started}"

    # 8.6 Down

    def down(self) -> None:
        """The status becomes Down; all but me, epoch, via, place and count is emptied; next_finger becomes 2.

        Before that, a node whose via is itself gets another one if it knows one.
        """
        if self.n.via == self.n.me:
            self.move_via()
        if self.n.via == self.n.me:
            self.n.via = next((x for x in self.n.succ if x != self.n.me), self.n.me)
        self.n.status = Status.DOWN
        self.n.prdc = None
        self.n.succ = []
        self.n.fingers = {}
        self.n.next_finger = 2
        self.n.calls = {}
        self.n.lookups = []
        self.n.join = None

    # 8.7 Joins

    def up_through(self, v: int) -> None:
        """Up through v."""
        self.line(f"join {self.name(v)}")
        self.n.epoch += 1
        self.n.status = Status.JOINING
        self.n.via = v
        self.n.next_finger = 2
        self.n.join = Attempt()
        self.arm()
        self.try_to_join()

    def try_to_join(self) -> None:
        """Try, also again."""
        if self.n.via == self.n.me:
            self.create()
        else:
            self.call_join_step(known(self.n.via))

    def create(self) -> None:
        """Create: n is alone in a ring."""
        self.line("create")
        self.n.status = Status.MEMBER
        self.n.succ = [self.n.me]
        self.n.fingers = dict.fromkeys(range(2, self.world.circle.bits + 1), self.n.me)
        self.n.join = None

    def call_join_step(self, p: int) -> None:
        """Calls Step with n's own identifier and the attempt's nodes to avoid to p, for JoinStep."""
        self.call(Step, p, Purpose.JOIN_STEP, self.world.idents[self.n.me], list(known(self.n.join).avoid))

    def join_failure(self) -> None:
        """Join failure."""
        scenario = self.world.scenario
        attempt = known(self.n.join)
        attempt.failures += 1
        self.move_via()
        if attempt.failures < JOIN_FAILURES:
            attempt.steps = 0
            self.pause(scenario.join_pause_us)
            return
        self.line("join-failed")
        if self.ways.create_alone and self.n.me in self.world.bootstraps and not attempt.is_answered:
            self.create()
            return
        if scenario.join_forever:
            self.n.join = Attempt()
            self.pause(PAUSES_AFTER_A_JOIN * scenario.join_pause_us)
            return
        self.down()
        if self.is_churn():
            self.set_rise()

    def move_via(self) -> None:
        """The via moves on to the next bootstrap node other than n, if there is one."""
        others = [x for x in self.world.bootstraps if x != self.n.me]
        if others:
            self.n.via = next((x for x in others if x > known(self.n.via)), others[0])

    def pause(self, d: int) -> None:
        """Pause of d microseconds."""
        if d == 0:
            self.try_to_join()
        else:
            self.set_timer(d, Rejoin(self.n.epoch))

    def cleaned(self, entries: list[int], p: int) -> list[int]:
        """What a joining node takes of the list of p: neither itself nor nodes to avoid; p if n alone is there."""
        if not self.ways.clean_lists:
            return entries
        others = [x for x in entries if x != self.n.me] or [p]
        return [x for x in others if x not in known(self.n.join).avoid]

    def find_place(self, p: int, entries: list[int]) -> None:
        """If n is between p and the first of these entries of p's list it becomes a member, or asks that one first."""
        if not entries or not self.world.between(p, self.n.me, entries[0]):
            self.join_failure()
        elif self.ways.join_asks:
            self.call(GetState, entries[0], Purpose.JOIN_HEAD).behind = p
        else:
            self.become_member(p, entries)

    def become_member(self, p: int, entries: list[int]) -> None:
        """Become a member behind p with this list."""
        self.n.prdc = p
        self.n.succ = self.cut(entries)
        self.n.fingers = dict.fromkeys(range(2, self.world.circle.bits + 1), entries[0])
        self.n.status = Status.MEMBER
        self.n.join = None
        self.line(f"member {self.name(p)}")

    def set_rise(self) -> None:
        """Sets Rise for n after a time drawn from the span down_min_us to down_max_us."""
        churn = known(self.world.scenario.churn)
        delay = self.time_from_span(churn.down_min_us, churn.down_max_us, Drawn.RISE, self.n.epoch)
        self.set_timer(delay, Rise(self.n.epoch))

    def strand(self) -> None:
        """Strand."""
        if self.n.via == self.n.me:
            self.move_via()
        self.line(f"stranded {self.name(known(self.n.via))}")
        for lookup in self.n.lookups:
            if lookup.finger is None:
                self.line(f"lost {lookup.key} {self.facts(lookup)}")
        self.n.calls = {}
        self.n.lookups = []
        self.n.prdc = None
        self.n.succ = []
        self.n.fingers = {}
        self.n.status = Status.JOINING
        self.n.join = Attempt()
        self.try_to_join()

    # 8.8 Silent nodes

    def drop(self, p: int) -> bool:
        """Drops p, at a member: it leaves succ and fingers. Returns whether n strands, since no node is left."""
        n = self.n
        n.succ = [x for x in n.succ if x != p]
        others = {x for x in n.fingers.values() if x not in (n.me, p)}
        if all(x == n.me for x in n.succ) and others:
            self.rescue(others)
        if not n.succ:
            self.strand()
            return True
        for i, x in n.fingers.items():
            if x == p:
                n.fingers[i] = n.succ[0]
        return False

    def rescue(self, others: set[int]) -> None:
        """The nearest of these fingers becomes the head of succ."""
        idents = self.world.idents
        nearest = min(others, key=lambda x: self.world.circle.distance(idents[self.n.me], idents[x]))
        self.line(f"rescue {self.name(nearest)}")
        self.n.succ = self.cut([nearest, *self.n.succ])

    # 8.9 The rotation of fingers

    def first_finger(self) -> int:
        """The first finger in the rotation: 2, or with skip_near the first one whose start the head does not cover.

        It is m + 1 if the head covers all of them.
        """
        circle, idents = self.world.circle, self.world.idents
        me, head = idents[self.n.me], idents[self.n.succ[0]]
        fingers = range(2, circle.bits + 1)
        if not self.ways.skip_near:
            return fingers.start
        far = (i for i in fingers if not circle.in_half_open(me, circle.finger_start(me, i), head))
        return next(far, fingers.stop)

    def draw_next_finger(self) -> None:
        """Draws the finger with which an initial node begins, of those in the rotation."""
        first, last = self.first_finger(), self.world.circle.bits
        if self.ways.random_start and first <= last:
            [number] = self.numbers_below(Drawn.FIRST_FINGER, 0, last - first + 1)
            self.n.next_finger = first + number

    # 8.10 Leaves

    def leave(self) -> None:
        """Leave: n tells its predecessor and its head, each of them once and never itself, and is down."""
        self.line("leave")
        told = dict.fromkeys(x for x in (self.n.prdc, *self.n.succ[:1]) if x is not None and x != self.n.me)
        for x in told:
            self.send(x, Leave(self.n.prdc, list(self.n.succ)))
        self.down()

    # What the rules ask of lists

    def cut(self, nodes: list[int]) -> list[int]:
        """The list, cut to `list` entries."""
        return nodes[: self.world.scenario.list]
