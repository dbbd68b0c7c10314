"""Events with their bodies (docs/rules.md, sections 4 and 9) and the state of a node (section 6)."""

from dataclasses import dataclass, field
from enum import Enum, IntEnum
from typing import NamedTuple


class Status(Enum):
    """What a node is."""

    DOWN = "Down"
    JOINING = "Joining"
    MEMBER = "Member"


class Purpose(Enum):
    """What a call is for."""

    LOOKUP = "Lookup"
    OWNER = "Owner"
    JOIN_STEP = "JoinStep"
    JOIN_LIST = "JoinList"
    STATE = "State"
    LIST = "List"
    PING = "Ping"
    CHECK = "Check"
    JOIN_HEAD = "JoinHead"


class Drawn(IntEnum):
    """What is drawn. The values are the kinds p of the extended profile (section 5)."""

    STABILIZE_TICK = 1
    FINGER_TICK = 2
    TRAFFIC_TICK = 3
    LIFE_END = 4
    RISE = 5
    KEY = 6
    MESSAGE = 7
    CHECK_TICK = 8
    FIRST_FINGER = 9
    LEAVE = 10
    PLACE = 11

    def stream(self, node: int) -> int:
        """The number of the stream from which a node draws this in the extended profile."""
        return node + self * 2**32


@dataclass(slots=True)
class Call:
    """A request that is out."""

    number: int
    asked: int
    purpose: Purpose
    because: int | None = None  # for a Ping: the node that caused it
    behind: int | None = None  # for a JoinHead: the node that will be the predecessor
    again: int = 0  # how often it was sent again


@dataclass(slots=True, eq=False)
class Lookup:
    """A lookup in progress. Its aim is User where `finger` is None, and otherwise that finger."""

    key: int
    finger: int | None
    started: int
    call: int = 0
    steps: int = 0
    hops: int = 0
    timeouts: int = 0
    avoid: list[int] = field(default_factory=list)
    last: int | None = None  # the node that answered last, if the lookup goes on from it


@dataclass(slots=True)
class Attempt:
    """The attempt to join."""

    failures: int = 0
    steps: int = 0
    avoid: list[int] = field(default_factory=list)
    is_answered: bool = False


@dataclass(slots=True)
class Node:
    """The state of a node, field by field as in section 6. A new one is Down with epoch 0."""

    me: int
    status: Status = Status.DOWN
    epoch: int = 0
    via: int | None = None
    prdc: int | None = None
    succ: list[int] = field(default_factory=list)
    fingers: dict[int, int] = field(default_factory=dict)
    next_finger: int = 2
    calls: dict[int, Call] = field(default_factory=dict)
    lookups: list[Lookup] = field(default_factory=list)
    join: Attempt | None = None
    place: int = 0
    count: int = 0


# The answers to a step.


@dataclass(slots=True)
class Owner:
    """The owner of the key is this node."""

    node: int


@dataclass(slots=True)
class Next:
    """This node is to be asked next."""

    node: int


@dataclass(slots=True)
class Stuck:
    """There is nobody to name."""


Answer = Owner | Next | Stuck


# The bodies of events: commands.


@dataclass(slots=True)
class CmdJoin:
    """Join through a node."""

    via: int


@dataclass(slots=True)
class CmdCrash:
    """Crash."""


@dataclass(slots=True)
class CmdLeave:
    """Leave."""


@dataclass(slots=True)
class CmdLookup:
    """Look up a key."""

    key: int


# Timers.


@dataclass(slots=True)
class StabilizeTick:
    """It is time to ask the successor."""

    epoch: int


@dataclass(slots=True)
class FingerTick:
    """It is time to refresh a finger."""

    epoch: int


@dataclass(slots=True)
class TrafficTick:
    """It is time to look up a random key."""

    epoch: int


@dataclass(slots=True)
class LifeEnd:
    """The life of a churn node ends."""

    epoch: int


@dataclass(slots=True)
class Rise:
    """A churn node comes up again."""

    epoch: int


@dataclass(slots=True)
class CheckTick:
    """It is time to check the predecessor."""

    epoch: int


@dataclass(slots=True)
class Rejoin:
    """The pause after a failed attempt to join is over."""

    epoch: int


@dataclass(slots=True)
class Timeout:
    """The time for the answer to a call is over."""

    call: int


# Requests.


@dataclass(slots=True)
class Step:
    """Who owns the key, or who is to be asked next?"""

    call: int
    key: int
    avoid: list[int]


@dataclass(slots=True)
class GetState:
    """What are your predecessor and your successor list?"""

    call: int


@dataclass(slots=True)
class GetList:
    """What is your successor list?"""

    call: int


@dataclass(slots=True)
class Ping:
    """Are you there?"""

    call: int


@dataclass(slots=True)
class Notify:
    """I may be your predecessor."""


@dataclass(slots=True)
class Leave:
    """I leave, and this is my predecessor, if I have one, and my successor list."""

    prdc: int | None
    succ: list[int]


# Replies.


@dataclass(slots=True)
class StepReply:
    """The answer to Step."""

    call: int
    answer: Answer


@dataclass(slots=True)
class StateReply:
    """The answer to GetState."""

    call: int
    prdc: int | None
    succ: list[int]


@dataclass(slots=True)
class ListReply:
    """The answer to GetList."""

    call: int
    succ: list[int]


@dataclass(slots=True)
class Pong:
    """The answer to Ping."""

    call: int


Command = CmdJoin | CmdCrash | CmdLeave | CmdLookup
Timer = StabilizeTick | FingerTick | TrafficTick | LifeEnd | Rise | CheckTick | Rejoin | Timeout
Request = Step | GetState | GetList | Ping | Notify | Leave
Reply = StepReply | StateReply | ListReply | Pong
Message = Request | Reply
Body = Command | Timer | Message

KINDS: dict[type, str] = {
    Step: "step",
    GetState: "get-state",
    GetList: "get-list",
    Ping: "ping",
    Notify: "notify",
    Leave: "leave",
    StepReply: "step-reply",
    StateReply: "state-reply",
    ListReply: "list-reply",
    Pong: "pong",
}
"""The kinds of messages, as the trace names them."""

ASKS_FOR: dict[Purpose, type] = {
    Purpose.LOOKUP: StepReply,
    Purpose.OWNER: StateReply,
    Purpose.JOIN_STEP: StepReply,
    Purpose.JOIN_LIST: ListReply,
    Purpose.STATE: StateReply,
    Purpose.LIST: ListReply,
    Purpose.PING: Pong,
    Purpose.CHECK: Pong,
    Purpose.JOIN_HEAD: StateReply,
}
"""The kind of reply that a call asked for."""

REQUEST_OF: dict[Purpose, type] = {
    Purpose.LOOKUP: Step,
    Purpose.OWNER: GetState,
    Purpose.JOIN_STEP: Step,
    Purpose.JOIN_LIST: GetList,
    Purpose.STATE: GetState,
    Purpose.LIST: GetList,
    Purpose.PING: Ping,
    Purpose.CHECK: Ping,
    Purpose.JOIN_HEAD: GetState,
}
"""The kind of request that a call is made with."""


class Event(NamedTuple):
    """An event: its key (time, origin, number), its target and its body. Tuples are compared by the key first."""

    time: int
    origin: int
    number: int
    target: int
    body: Body
