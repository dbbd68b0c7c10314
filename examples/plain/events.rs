//! Events: commands, timers and messages.

use std::fmt;

use crate::lists::Nodes;

/// What a node returns to a step request.
#[derive(Clone, Copy)]
pub enum Answer {
    /// This node is the owner of the key.
    Owner(u32),
    /// This node is to be asked next.
    Next(u32),
    /// The node knows neither.
    Stuck,
}

/// The kind of a message, as the trace names it.
#[derive(Clone, Copy, PartialEq)]
pub enum MessageKind {
    Step,
    GetState,
    GetList,
    Ping,
    Notify,
    Leave,
    StepReply,
    StateReply,
    ListReply,
    Pong,
}

impl MessageKind {
    /// The word for it.
    pub fn name(self) -> &'static str {
        match self {
            MessageKind::Step => "step",
            MessageKind::GetState => "get-state",
            MessageKind::GetList => "get-list",
            MessageKind::Ping => "ping",
            MessageKind::Notify => "notify",
            MessageKind::Leave => "leave",
            MessageKind::StepReply => "step-reply",
            MessageKind::StateReply => "state-reply",
            MessageKind::ListReply => "list-reply",
            MessageKind::Pong => "pong",
        }
    }

    /// Whether a message of this kind has a call.
    pub fn is_request(self) -> bool {
        use MessageKind::{GetList, GetState, Ping, Step};
        matches!(self, Step | GetState | GetList | Ping)
    }
}

impl fmt::Display for MessageKind {
    fn fmt(&self, out: &mut fmt::Formatter) -> fmt::Result {
        out.write_str(self.name())
    }
}

/// What an event asks of its target. Timers carry the epoch in which they were set. Requests,
/// replies and timeouts carry the number of their call.
pub enum Body<I> {
    CmdJoin {
        via: u32,
    },
    CmdCrash,
    CmdLeave,
    CmdLookup {
        key: I,
    },
    StabilizeTick {
        epoch: u64,
    },
    FingerTick {
        epoch: u64,
    },
    TrafficTick {
        epoch: u64,
    },
    LifeEnd {
        epoch: u64,
    },
    Rise {
        epoch: u64,
    },
    CheckTick {
        epoch: u64,
    },
    Rejoin {
        epoch: u64,
    },
    Timeout {
        call: u64,
    },
    Step {
        call: u64,
        key: I,
        avoid: Nodes,
    },
    GetState {
        call: u64,
    },
    GetList {
        call: u64,
    },
    Ping {
        call: u64,
    },
    Notify,
    Leave {
        predecessor: Option<u32>,
        successors: Nodes,
    },
    StepReply {
        call: u64,
        answer: Answer,
    },
    StateReply {
        call: u64,
        predecessor: Option<u32>,
        successors: Nodes,
    },
    ListReply {
        call: u64,
        successors: Nodes,
    },
    Pong {
        call: u64,
    },
}

/// A request that has no number yet.
pub enum Request<I> {
    Step { key: I, avoid: Nodes },
    GetState,
    GetList,
    Ping,
}

impl<I> Request<I> {
    /// The kind and the body of the request, as the call with this number.
    pub fn numbered(self, call: u64) -> (MessageKind, Body<I>) {
        match self {
            Request::Step { key, avoid } => (MessageKind::Step, Body::Step { call, key, avoid }),
            Request::GetState => (MessageKind::GetState, Body::GetState { call }),
            Request::GetList => (MessageKind::GetList, Body::GetList { call }),
            Request::Ping => (MessageKind::Ping, Body::Ping { call }),
        }
    }
}

/// The origin of the commands.
pub const COMMANDS: u32 = 1;

/// The origin of the first node. That of each next node is one more.
pub const FIRST_NODE: u32 = 2;

/// An event: its origin, the node at which it happens, and what it asks of the node.
pub struct Event<I> {
    pub origin: u32,
    pub target: u32,
    pub body: Body<I>,
}
