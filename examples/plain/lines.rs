//! The lines of the trace.

use std::fmt;

use crate::events::MessageKind;

/// A line of an event, without its time and the name of its node. Other nodes are named.
pub enum Line<'a> {
    Join {
        via: &'a str,
    },
    Member {
        predecessor: &'a str,
    },
    JoinFailed,
    Create,
    Crash,
    Leave,
    Stranded {
        via: &'a str,
    },
    Drop {
        kind: MessageKind,
        sender: &'a str,
    },
    Late {
        kind: MessageKind,
        sender: &'a str,
    },
    Timeout {
        asked: &'a str,
    },
    Lose {
        kind: MessageKind,
        receiver: &'a str,
    },
    Again {
        kind: MessageKind,
        asked: &'a str,
    },
    Forget {
        predecessor: &'a str,
    },
    Rescue {
        successor: &'a str,
    },
    /// The lookup, if one waits for the call: its key, and when it started.
    Ask {
        kind: MessageKind,
        asked: &'a str,
        call: u64,
        lookup: Option<(u128, u64)>,
    },
    Send {
        kind: MessageKind,
        receiver: &'a str,
    },
    Lookup {
        key: u128,
    },
    Found {
        key: u128,
        owner: &'a str,
        hops: u32,
        timeouts: u32,
        us: u64,
    },
    Lost {
        key: u128,
        hops: u32,
        timeouts: u32,
        us: u64,
    },
    Busy {
        key: u128,
    },
    Ignored {
        command: &'static str,
    },
}

impl fmt::Display for Line<'_> {
    fn fmt(&self, out: &mut fmt::Formatter) -> fmt::Result {
        match self {
            Line::Join { via } => write!(out, "join {via}"),
            Line::Member { predecessor } => write!(out, "member {predecessor}"),
            Line::JoinFailed => write!(out, "join-failed"),
            Line::Create => write!(out, "create"),
            Line::Crash => write!(out, "crash"),
            Line::Leave => write!(out, "leave"),
            Line::Stranded { via } => write!(out, "stranded {via}"),
            Line::Drop { kind, sender } => write!(out, "drop {kind} {sender}"),
            Line::Late { kind, sender } => write!(out, "late {kind} {sender}"),
            Line::Timeout { asked } => write!(out, "timeout {asked}"),
            Line::Lose { kind, receiver } => write!(out, "lose {kind} {receiver}"),
            Line::Again { kind, asked } => write!(out, "again {kind} {asked}"),
            Line::Forget { predecessor } => write!(out, "forget {predecessor}"),
            Line::Rescue { successor } => write!(out, "rescue {successor}"),
            Line::Ask {
                kind,
                asked,
                call,
                lookup,
            } => {
                write!(out, "ask {kind} {asked} call={call}")?;
                match lookup {
                    Some((key, started)) => write!(out, " key={key} since={started}"),
                    None => Ok(()),
                }
            }
            Line::Send { kind, receiver } => write!(out, "send {kind} {receiver}"),
            Line::Lookup { key } => write!(out, "lookup {key}"),
            Line::Found {
                key,
                owner,
                hops,
                timeouts,
                us,
            } => write!(
                out,
                "found {key} {owner} hops={hops} timeouts={timeouts} us={us}"
            ),
            Line::Lost {
                key,
                hops,
                timeouts,
                us,
            } => write!(out, "lost {key} hops={hops} timeouts={timeouts} us={us}"),
            Line::Busy { key } => write!(out, "busy {key}"),
            Line::Ignored { command } => write!(out, "ignored {command}"),
        }
    }
}
