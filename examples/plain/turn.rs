//! A node's turn: what it may do while it acts on an event.

use std::mem;

use crate::circle::Ident;
use crate::events::{Body, Event, MessageKind, Request, FIRST_NODE};
use crate::lines::Line;
use crate::queue::Queue;
use crate::scenario::{Profile, Scenario};
use crate::spans::{Span, Subject};
use crate::state::{Call, Node, Purpose};
use crate::trace::Trace;

/// The latency from a node to itself, in microseconds.
const OWN_LATENCY: u64 = 1;

/// A message that a line is to tell of: a request, or another message that is not lost.
pub enum Sent {
    Request { kind: MessageKind, call: u64 },
    Other { kind: MessageKind, to: u32 },
}

/// A node that acts on an event at this time. `sent` has the messages that lines are to tell of.
pub struct Turn<'a, I> {
    pub scenario: &'a Scenario<I>,
    pub queue: &'a mut Queue<I>,
    pub trace: &'a mut Trace,
    pub node: &'a mut Node<I>,
    pub time: u64,
    pub sent: Vec<Sent>,
}

impl<'a, I: Ident> Turn<'a, I> {
    /// The name of a node.
    pub fn name(&self, node: u32) -> &'a str {
        self.scenario.name(node)
    }

    /// Adds a line to the trace.
    pub fn note(&mut self, line: Line) {
        let name = self.name(self.node.me);
        self.trace.note(self.time, name, &line);
    }

    /// Makes an event for the node itself.
    #[inline]
    pub fn make(&mut self, delay: u64, body: Body<I>) {
        self.node.count += 1;
        self.queue_event(delay, self.node.me, body);
    }

    /// Makes the event of the node's last number pending.
    #[inline]
    fn queue_event(&mut self, delay: u64, target: u32, body: Body<I>) {
        let event = Event {
            origin: FIRST_NODE + self.node.me,
            target,
            body,
        };
        self.queue.push(self.time + delay, self.node.count, event);
    }

    /// Sends a message, which has the node's next number and may be lost.
    pub fn send(&mut self, kind: MessageKind, to: u32, body: Body<I>) {
        self.node.count += 1;
        match self.transit(to) {
            Some(delay) => {
                self.queue_event(delay, to, body);
                if self.scenario.has_detail && !kind.is_request() {
                    self.sent.push(Sent::Other { kind, to });
                }
            }
            None => self.note(Line::Lose {
                kind,
                receiver: self.name(to),
            }),
        }
    }

    /// How long a message to a node is on its way. None if it is lost.
    fn transit(&mut self, to: u32) -> Option<u64> {
        if to == self.node.me {
            return Some(OWN_LATENCY);
        }
        let latency = self.scenario.latencies.of(self.node.me, to);
        if self.scenario.profile == Profile::First {
            return Some(latency);
        }
        let (loss_ppm, spread_us) = (self.scenario.loss_ppm, self.scenario.spread_us);
        let count = self.node.count;
        let delay = self.node.draws.delay(count, loss_ppm, spread_us)?;
        Some(latency + delay)
    }

    /// Sends a request with its timeout, and returns the number of the call.
    pub fn call(&mut self, to: u32, request: Request<I>, purpose: Purpose) -> u64 {
        let number = self.node.count + 1;
        let (kind, body) = request.numbered(number);
        self.send_with_timeout(kind, to, body, number);
        self.node.calls.push(Call {
            number,
            to,
            purpose,
            again: 0,
        });
        number
    }

    /// Sends a request of a call, and then the timeout of this sending.
    fn send_with_timeout(&mut self, kind: MessageKind, to: u32, body: Body<I>, call: u64) {
        self.send(kind, to, body);
        self.make(self.scenario.timeout_us, Body::Timeout { call });
        if self.scenario.has_detail {
            self.sent.push(Sent::Request { kind, call });
        }
    }

    /// Adds the lines that tell of the messages, behind all others of the event.
    #[inline]
    pub fn tell(&mut self) {
        if !self.sent.is_empty() {
            self.tell_of_sent();
        }
    }

    /// Adds the lines that tell of the messages.
    fn tell_of_sent(&mut self) {
        for message in mem::take(&mut self.sent) {
            match message {
                Sent::Request { kind, call } => self.tell_of_request(kind, call),
                Sent::Other { kind, to } => self.note(Line::Send {
                    kind,
                    receiver: self.name(to),
                }),
            }
        }
    }

    /// Adds the line that tells of a request.
    fn tell_of_request(&mut self, kind: MessageKind, number: u64) {
        let mut lookups = self.node.lookups.iter();
        let lookup = lookups.find(|lookup| lookup.call == number);
        let lookup = lookup.map(|lookup| (lookup.key.into(), lookup.started));
        let mut calls = self.node.calls.iter();
        let call = calls.find(|call| call.number == number);
        let asked = self.name(call.expect("the call is out").to);
        self.note(Line::Ask {
            kind,
            asked,
            call: number,
            lookup,
        });
    }

    /// Sends the request of a call again. The call is put behind all others.
    pub fn send_again(&mut self, mut call: Call) {
        let (kind, body) = self.request_of(&call).numbered(call.number);
        self.note(Line::Again {
            kind,
            asked: self.name(call.to),
        });
        self.send_with_timeout(kind, call.to, body, call.number);
        call.again += 1;
        self.node.calls.push(call);
    }

    /// The request of a call, as it was made.
    fn request_of(&self, call: &Call) -> Request<I> {
        match call.purpose {
            Purpose::Lookup => self.node.lookups[self.node.lookup_of(call.number)].request(),
            Purpose::JoinStep => self.place_request(),
            Purpose::JoinList | Purpose::List => Request::GetList,
            Purpose::State | Purpose::Owner | Purpose::JoinHead { .. } => Request::GetState,
            Purpose::Ping { .. } | Purpose::Check => Request::Ping,
        }
    }

    /// Sends a notify to the head of the successor list.
    pub fn notify_head(&mut self) {
        self.send(MessageKind::Notify, self.node.head(), Body::Notify);
    }

    /// Sets a timer of this epoch, after a time of the span. The occasion of the draw is the epoch for
    /// a life and for a time down, and otherwise the time.
    fn set_timer(&mut self, span: Span, subject: Subject, timer: impl FnOnce(u64) -> Body<I>) {
        let epoch = self.node.epoch;
        let occasion = match subject {
            Subject::LifeEnd | Subject::Rise => epoch,
            _ => self.time,
        };
        let delay = self.node.draws.time(span, subject, occasion);
        self.make(delay, timer(epoch));
    }

    /// Sets the timers of a node that comes up. All but the end of its life may come at any time of the
    /// first period.
    pub fn arm(&mut self) {
        let scenario = self.scenario;
        let first = |span: Span| match scenario.ways.random_start {
            true => span.starting_at_one(),
            false => span,
        };
        self.set_stabilize(first(scenario.stabilize));
        self.set_finger(first(scenario.finger));
        self.set_traffic(scenario.lookup_gap.map(first));
        if self.churns() {
            self.arm_life();
        }
        self.set_check(scenario.check.map(first));
    }

    /// Sets the timer to stabilize again.
    pub fn arm_stabilize(&mut self) {
        self.set_stabilize(self.scenario.stabilize);
    }

    /// Sets the timer to refresh a finger again.
    pub fn arm_finger(&mut self) {
        self.set_finger(self.scenario.finger);
    }

    /// Sets the timer to look up a random key again.
    pub fn arm_traffic(&mut self) {
        self.set_traffic(self.scenario.lookup_gap);
    }

    /// Sets the timer to check the predecessor again.
    pub fn arm_check(&mut self) {
        self.set_check(self.scenario.check);
    }

    /// Sets the timer to stabilize.
    fn set_stabilize(&mut self, span: Span) {
        let timer = |epoch| Body::StabilizeTick { epoch };
        self.set_timer(span, Subject::StabilizeTick, timer);
    }

    /// Sets the timer to refresh a finger.
    fn set_finger(&mut self, span: Span) {
        let timer = |epoch| Body::FingerTick { epoch };
        self.set_timer(span, Subject::FingerTick, timer);
    }

    /// Sets the timer to look up a random key, if the scenario has such lookups.
    fn set_traffic(&mut self, gap: Option<Span>) {
        if let Some(gap) = gap {
            let timer = |epoch| Body::TrafficTick { epoch };
            self.set_timer(gap, Subject::TrafficTick, timer);
        }
    }

    /// Sets the timer to check the predecessor, if the scenario has such checks.
    fn set_check(&mut self, span: Option<Span>) {
        if let Some(span) = span {
            let timer = |epoch| Body::CheckTick { epoch };
            self.set_timer(span, Subject::CheckTick, timer);
        }
    }

    /// Sets the end of a churn node's life.
    fn arm_life(&mut self) {
        if let Some(churn) = &self.scenario.churn {
            let timer = |epoch| Body::LifeEnd { epoch };
            self.set_timer(churn.life, Subject::LifeEnd, timer);
        }
    }

    /// Sets the time at which a churn node comes up again.
    pub fn arm_rise(&mut self) {
        if let Some(churn) = &self.scenario.churn {
            let timer = |epoch| Body::Rise { epoch };
            self.set_timer(churn.down, Subject::Rise, timer);
        }
    }

    /// Whether the node is a churn node.
    pub fn churns(&self) -> bool {
        self.scenario.churns[self.node.me as usize]
    }
}
