"""The rule table (docs/rules.md, section 9)."""

from collections.abc import Callable
from typing import cast

from chordsim_tools.known import known
from chordsim_tools.reference.procedures import JOIN_STEPS, Procedures
from chordsim_tools.reference.state import (
    ASKS_FOR, KINDS, Body, Call, CheckTick, CmdCrash, CmdJoin, CmdLeave, CmdLookup, Drawn, Event, FingerTick, GetList,
    GetState, Leave, LifeEnd, ListReply, Lookup, Next, Node, Notify, Owner, Ping, Pong, Purpose, Rejoin, Reply, Request,
    Rise, StabilizeTick, StateReply, Status, Step, StepReply, Timeout, TrafficTick,
)
from chordsim_tools.reference.turn import World


class Rules(Procedures):
    """What node n does on an event, one method for each body. Messages come with their sender q."""

    # Commands

    def cmd_join(self, body: CmdJoin) -> None:
        """CmdJoin, with the node v to join through."""
        if self.n.status != Status.DOWN:
            self.line("ignored join")
        else:
            self.up_through(body.via)

    def cmd_crash(self, _: CmdCrash) -> None:
        """CmdCrash. No Rise is set."""
        if self.n.status == Status.DOWN:
            self.line("ignored crash")
        else:
            self.line("crash")
            self.down()

    def cmd_leave(self, _: CmdLeave) -> None:
        """CmdLeave. No Rise is set."""
        if self.n.status == Status.DOWN:
            self.line("ignored leave")
        else:
            self.leave()

    def cmd_lookup(self, body: CmdLookup) -> None:
        """CmdLookup, with a key."""
        if self.n.status != Status.MEMBER:
            self.line("ignored lookup")
        else:
            self.user_lookup(body.key)

    # Timers

    def stabilize_tick(self, body: StabilizeTick) -> None:
        """StabilizeTick."""
        if body.epoch != self.n.epoch or self.n.status == Status.DOWN:
            pass
        elif self.n.status == Status.JOINING or self.has_call(Purpose.STATE, Purpose.LIST):
            self.arm_stabilize()
        else:
            self.arm_stabilize()
            self.call(GetState, self.n.succ[0], Purpose.STATE)

    def finger_tick(self, body: FingerTick) -> None:
        """FingerTick."""
        if body.epoch != self.n.epoch or self.n.status == Status.DOWN:
            pass
        elif self.n.status == Status.JOINING or any(lookup.finger is not None for lookup in self.n.lookups):
            self.arm_finger()
        else:
            self.arm_finger()
            self.refresh_finger()

    def refresh_finger(self) -> None:
        """Fingers before the first one in the rotation become the head; the next one in the rotation is looked up."""
        n, circle, first = self.n, self.world.circle, self.first_finger()
        for i in range(2, first):
            n.fingers[i] = n.succ[0]
        i = max(n.next_finger, first)
        if i > circle.bits:
            return
        n.next_finger = 2 if i == circle.bits else i + 1
        self.begin_lookup(Lookup(circle.finger_start(self.world.idents[n.me], i), i, self.t))

    def traffic_tick(self, body: TrafficTick) -> None:
        """TrafficTick."""
        if body.epoch != self.n.epoch or self.n.status == Status.DOWN or self.world.scenario.lookups is None:
            pass
        elif self.n.status == Status.JOINING:
            self.arm_traffic()
        else:
            self.arm_traffic()
            self.user_lookup(self.random_key())

    def life_end(self, body: LifeEnd) -> None:
        """LifeEnd."""
        if body.epoch != self.n.epoch or self.n.status == Status.DOWN or not self.is_churn():
            return
        if self.is_leave(body.epoch):
            self.leave()
        else:
            self.line("crash")
            self.down()
        self.set_rise()

    def is_leave(self, epoch: int) -> bool:
        """Whether the end of the life of this epoch is a leave. Nothing is drawn if leave_ppm is 0."""
        leave_ppm = known(self.world.scenario.churn).leave_ppm
        if leave_ppm == 0:
            return False
        [number] = self.numbers_below(Drawn.LEAVE, epoch, 1_000_000)
        return number < leave_ppm

    def rise(self, body: Rise) -> None:
        """Rise."""
        if body.epoch != self.n.epoch or self.n.status != Status.DOWN or self.n.via is None:
            pass
        else:
            self.up_through(self.n.via)

    def check_tick(self, body: CheckTick) -> None:
        """CheckTick."""
        if body.epoch != self.n.epoch or self.n.status == Status.DOWN:
            pass
        elif self.n.status == Status.JOINING or self.has_call(Purpose.PING, Purpose.CHECK) or self.n.prdc is None:
            self.arm_check()
        else:
            self.arm_check()
            self.call(Ping, self.n.prdc, Purpose.CHECK)

    def rejoin(self, body: Rejoin) -> None:
        """Rejoin."""
        if body.epoch != self.n.epoch or self.n.status != Status.JOINING or self.n.calls:
            pass
        else:
            self.try_to_join()

    def timeout(self, body: Timeout) -> None:
        """Timeout, with the number of a call."""
        if body.call not in self.n.calls:
            return
        call = self.n.calls[body.call]
        if call.again < self.world.scenario.retries:
            self.send_again(call)
            return
        del self.n.calls[body.call]
        self.line(f"timeout {self.name(call.asked)}")
        is_dropped = self.ways.drop_silent and self.n.status == Status.MEMBER
        if not (is_dropped and self.drop(call.asked)):
            self.taken_for_dead(call)

    def taken_for_dead(self, call: Call) -> None:
        """What follows if the node that was asked is silent, by the call's purpose."""
        match call.purpose:
            case Purpose.LOOKUP | Purpose.OWNER:
                self.timeout_of_lookup(call)
            case Purpose.JOIN_STEP | Purpose.JOIN_LIST | Purpose.JOIN_HEAD:
                if call.asked != self.n.via:
                    known(self.n.join).avoid.append(call.asked)
                self.join_failure()
            case Purpose.STATE:
                self.timeout_of_state(call.asked)
            case Purpose.LIST:
                self.send(self.n.succ[0], Notify())
            case Purpose.PING:
                if self.n.prdc == call.asked:
                    self.n.prdc = call.because
            case Purpose.CHECK:
                if self.n.prdc == call.asked:
                    self.line(f"forget {self.name(call.asked)}")
                    self.n.prdc = None

    def timeout_of_lookup(self, call: Call) -> None:
        """The lookup has one timeout more, and the node that was asked is left out."""
        lookup = self.lookup_of(call)
        lookup.timeouts += 1
        self.leave_out(lookup, call.asked)

    def timeout_of_state(self, p: int) -> None:
        """The first entry that is p leaves succ, if it is there still; strand, or ask the head."""
        if p in self.n.succ:
            self.n.succ.remove(p)
        if not self.n.succ:
            self.strand()
        else:
            self.call(GetState, self.n.succ[0], Purpose.STATE)

    # Requests

    def request(self, body: Request, q: int) -> None:
        """A request, notify or leave: dropped if n is not a Member."""
        if self.n.status != Status.MEMBER:
            self.line(f"drop {KINDS[type(body)]} {self.name(q)}")
        else:
            REQUESTS[type(body)](self, body, q)

    def step(self, body: Step, q: int) -> None:
        """Step, with a call number, a key and nodes to avoid."""
        self.send(q, StepReply(body.call, self.step_answer(body.key, body.avoid)))

    def get_state(self, body: GetState, q: int) -> None:
        """GetState, with a call number."""
        self.send(q, StateReply(body.call, self.n.prdc, list(self.n.succ)))

    def get_list(self, body: GetList, q: int) -> None:
        """GetList, with a call number."""
        self.send(q, ListReply(body.call, list(self.n.succ)))

    def ping(self, body: Ping, q: int) -> None:
        """Ping, with a call number."""
        self.send(q, Pong(body.call))

    def notify(self, _: Notify, q: int) -> None:
        """Notify."""
        prdc = self.n.prdc
        if prdc is None or self.world.between(prdc, q, self.n.me):
            self.n.prdc = q
        elif q != prdc and not self.has_call(Purpose.PING, Purpose.CHECK):
            self.call(Ping, prdc, Purpose.PING).because = q

    def left(self, body: Leave, q: int) -> None:
        """Leave, with a predecessor or none, and a list."""
        n = self.n
        if q in n.succ:
            others = [x for x in n.succ if x != q]
            n.succ = self.cut([*others, *(x for x in body.succ if x != q and x not in others)])
        if n.prdc == q:
            n.prdc = None if body.prdc == q else body.prdc
        self.drop(q)

    # Replies

    def reply(self, body: Reply, q: int) -> None:
        """A reply: dropped if n is Down, late if no call is out for it."""
        if self.n.status == Status.DOWN:
            self.line(f"drop {KINDS[type(body)]} {self.name(q)}")
            return
        call = self.n.calls.get(body.call)
        if call is None or ASKS_FOR[call.purpose] != type(body):
            self.line(f"late {KINDS[type(body)]} {self.name(q)}")
            return
        del self.n.calls[body.call]
        REPLIES[type(body)](self, body, call)

    def step_reply(self, body: StepReply, call: Call) -> None:
        """StepReply, with an answer."""
        if call.purpose == Purpose.LOOKUP:
            self.lookup_answered(self.lookup_of(call), call.asked, body.answer)
            return
        known(self.n.join).is_answered = True
        match body.answer:
            case Owner():
                self.call(GetList, call.asked, Purpose.JOIN_LIST)
            case Next(x) if known(self.n.join).steps < JOIN_STEPS:
                known(self.n.join).steps += 1
                self.call_join_step(x)
            case _:
                self.join_failure()

    def state_reply(self, body: StateReply, call: Call) -> None:
        """StateReply, with a predecessor or none, and a list."""
        p = call.asked
        if call.purpose == Purpose.OWNER:
            self.owner_answered(self.lookup_of(call), p, body.prdc)
            return
        if call.purpose == Purpose.JOIN_HEAD:
            self.become_member(known(call.behind), [p])
        self.n.succ = self.cut([p, *body.succ])
        if body.prdc is not None and self.world.between(self.n.me, body.prdc, p):
            self.call(GetList, body.prdc, Purpose.LIST)
        else:
            self.send(self.n.succ[0], Notify())

    def list_reply(self, body: ListReply, call: Call) -> None:
        """ListReply, with a list."""
        p = call.asked
        if call.purpose == Purpose.LIST:
            self.n.succ = self.cut([p, *body.succ])
            self.send(self.n.succ[0], Notify())
        else:
            known(self.n.join).is_answered = True
            self.find_place(p, self.cleaned(body.succ, p))

    def pong(self, body: Pong, call: Call) -> None:
        """Pong. Nothing more."""

    # What the rules ask of the state

    def has_call(self, *purposes: Purpose) -> bool:
        """Whether n has a call out for one of these purposes."""
        return any(call.purpose in purposes for call in self.n.calls.values())

COMMANDS_AND_TIMERS: dict[type, Callable[..., None]] = {
    CmdJoin: Rules.cmd_join,
    CmdCrash: Rules.cmd_crash,
    CmdLeave: Rules.cmd_leave,
    CmdLookup: Rules.cmd_lookup,
    StabilizeTick: Rules.stabilize_tick,
    FingerTick: Rules.finger_tick,
    TrafficTick: Rules.traffic_tick,
    LifeEnd: Rules.life_end,
    Rise: Rules.rise,
    CheckTick: Rules.check_tick,
    Rejoin: Rules.rejoin,
    Timeout: Rules.timeout,
}
REQUESTS: dict[type, Callable[..., None]] = {
    Step: Rules.step,
    GetState: Rules.get_state,
    GetList: Rules.get_list,
    Ping: Rules.ping,
    Notify: Rules.notify,
    Leave: Rules.left,
}
REPLIES: dict[type, Callable[..., None]] = {
    StepReply: Rules.step_reply,
    StateReply: Rules.state_reply,
    ListReply: Rules.list_reply,
    Pong: Rules.pong,
}


def act(world: World, node: Node, event: Event) -> tuple[list[Event], list[str]]:
    """The node acts on the event; gives the events it makes and the lines it writes."""
    rules = Rules(world, node, event.time)
    body: Body = event.body
    if type(body) in COMMANDS_AND_TIMERS:
        COMMANDS_AND_TIMERS[type(body)](rules, body)
    elif type(body) in REQUESTS:
        rules.request(cast(Request, body), event.origin - 2)
    else:
        rules.reply(cast(Reply, body), event.origin - 2)
    rules.tell()
    return rules.events, rules.lines
