//! The rule table: what a node does at each body of an event.

use crate::circle::{between, Ident};
use crate::events::{Answer, Body, MessageKind, Request};
use crate::lines::Line;
use crate::lists::{self, Nodes};
use crate::search::step_answer;
use crate::spans::{Span, Subject};
use crate::state::{Aim, Call, Purpose};
use crate::turn::Turn;

impl<I: Ident> Turn<'_, I> {
    /// Acts on an event. The sender matters for messages only.
    #[inline]
    pub fn act(&mut self, sender: u32, body: Body<I>) {
        match body {
            Body::CmdJoin { via } => self.on_cmd_join(via),
            Body::CmdCrash => self.on_cmd_crash(),
            Body::CmdLeave => self.on_cmd_leave(),
            Body::CmdLookup { key } => self.on_cmd_lookup(key),
            Body::StabilizeTick { epoch } => self.on_stabilize_tick(epoch),
            Body::FingerTick { epoch } => self.on_finger_tick(epoch),
            Body::TrafficTick { epoch } => self.on_traffic_tick(epoch),
            Body::LifeEnd { epoch } => self.on_life_end(epoch),
            Body::Rise { epoch } => self.on_rise(epoch),
            Body::CheckTick { epoch } => self.on_check_tick(epoch),
            Body::Rejoin { epoch } => self.on_rejoin(epoch),
            Body::Timeout { call } => self.on_timeout(call),
            Body::Step { call, key, avoid } => self.on_step(sender, call, key, &avoid),
            Body::GetState { call } => self.on_get_state(sender, call),
            Body::GetList { call } => self.on_get_list(sender, call),
            Body::Ping { call } => self.on_ping(sender, call),
            Body::Notify => self.on_notify(sender),
            Body::Leave {
                predecessor,
                successors,
            } => self.on_leave(sender, predecessor, &successors),
            Body::StepReply { call, answer } => self.on_step_reply(sender, call, answer),
            Body::StateReply {
                call,
                predecessor,
                successors,
            } => self.on_state_reply(sender, call, predecessor, &successors),
            Body::ListReply { call, successors } => self.on_list_reply(sender, call, successors),
            Body::Pong { call } => self.on_pong(sender, call),
        }
    }

    /// A command to join.
    fn on_cmd_join(&mut self, via: u32) {
        if self.node.is_down() {
            self.come_up(via);
        } else {
            self.note(Line::Ignored { command: "join" });
        }
    }

    /// A command to crash.
    fn on_cmd_crash(&mut self) {
        if self.node.is_down() {
            self.note(Line::Ignored { command: "crash" });
        } else {
            self.crash();
        }
    }

    /// A command to look up a key.
    fn on_cmd_lookup(&mut self, key: I) {
        if self.node.is_member() {
            self.look_up(key);
        } else {
            self.note(Line::Ignored { command: "lookup" });
        }
    }

    /// Crashes.
    fn crash(&mut self) {
        self.note(Line::Crash);
        self.go_down();
    }

    /// The timer to stabilize: asks the head of the successor list for its state.
    fn on_stabilize_tick(&mut self, epoch: u64) {
        if self.node.is_void(epoch) {
            return;
        }
        self.arm_stabilize();
        let is_repair = |purpose| matches!(purpose, Purpose::State | Purpose::List);
        if self.node.is_member() && !self.node.has_call(is_repair) {
            self.ask_for_state();
        }
    }

    /// Asks the head of the successor list for its state.
    fn ask_for_state(&mut self) {
        self.call(self.node.head(), Request::GetState, Purpose::State);
    }

    /// The timer to refresh a finger: looks up the start of the next one.
    fn on_finger_tick(&mut self, epoch: u64) {
        if self.node.is_void(epoch) {
            return;
        }
        self.arm_finger();
        let has_finger_lookup = self.node.lookups.iter().any(|x| x.aim != Aim::User);
        if !self.node.is_member() || has_finger_lookup {
            return;
        }
        let circle = self.scenario.circle;
        let first = self.first_finger();
        let head = self.node.head();
        let scenario = self.scenario;
        self.node.fingers.point_before(scenario, first, head);
        let index = self.node.next_finger.max(first);
        if index > circle.bits() {
            return;
        }
        self.node.next_finger = if index == circle.bits() { 2 } else { index + 1 };
        let start = circle.finger_start(self.scenario.ident(self.node.me), index);
        self.begin_lookup(start, Aim::Finger { index });
    }

    /// The first finger that is looked up: the first one that the first successor does not cover, if the
    /// others are not looked up.
    fn first_finger(&self) -> u32 {
        if !self.scenario.ways.skip_near {
            return 2;
        }
        let (circle, head) = (self.scenario.circle, self.node.head());
        let distance =
            circle.distance(self.scenario.ident(self.node.me), self.scenario.ident(head));
        // The start of a finger is a power of two away. A distance of 0 is the whole circle.
        let last = if distance == I::ZERO {
            circle.bits()
        } else {
            distance.length().max(1)
        };
        last + 1
    }

    /// Draws the finger with which an initial node begins.
    pub fn draw_first_finger(&mut self) {
        let (first, last) = (self.first_finger(), self.scenario.circle.bits());
        if self.scenario.ways.random_start && first <= last {
            let span = Span::new(u64::from(first), u64::from(last));
            let finger = self.node.draws.time(span, Subject::FirstFinger, 0);
            self.node.next_finger = finger as u32;
        }
    }

    /// The timer to look up a random key.
    fn on_traffic_tick(&mut self, epoch: u64) {
        if self.node.is_void(epoch) || self.scenario.lookup_gap.is_none() {
            return;
        }
        self.arm_traffic();
        if self.node.is_member() {
            let key = self.node.draws.key(self.scenario.circle, self.time);
            self.look_up(key);
        }
    }

    /// The end of a churn node's life.
    fn on_life_end(&mut self, epoch: u64) {
        if self.node.is_void(epoch) || !self.churns() {
            return;
        }
        if self.ends_with_leave(epoch) {
            self.leave();
        } else {
            self.crash();
        }
        self.arm_rise();
    }

    /// A churn node comes up again.
    fn on_rise(&mut self, epoch: u64) {
        if self.node.epoch != epoch || !self.node.is_down() {
            return;
        }
        if let Some(via) = self.node.via {
            self.come_up(via);
        }
    }

    /// The timer to check the predecessor: pings it.
    fn on_check_tick(&mut self, epoch: u64) {
        if self.node.is_void(epoch) {
            return;
        }
        self.arm_check();
        if !self.node.is_member() || self.node.has_call(Purpose::is_ping) {
            return;
        }
        if let Some(predecessor) = self.node.predecessor {
            self.call(predecessor, Request::Ping, Purpose::Check);
        }
    }

    /// The time for the reply to a request is over. It is sent again, or its call has failed.
    fn on_timeout(&mut self, number: u64) {
        let Some(call) = self.take_call(|call| call.number == number) else {
            return;
        };
        if call.again < self.scenario.retries {
            return self.send_again(call);
        }
        let asked = call.to;
        self.note(Line::Timeout {
            asked: self.name(asked),
        });
        if self.scenario.ways.drop_silent && self.node.is_member() && !self.drop_node(asked) {
            return;
        }
        match call.purpose {
            Purpose::Lookup | Purpose::Owner => self.lookup_timed_out(number, asked),
            Purpose::JoinStep | Purpose::JoinList | Purpose::JoinHead { .. } => {
                self.join_timed_out(asked);
            }
            Purpose::State => self.drop_asked(asked),
            Purpose::List => self.notify_head(),
            Purpose::Ping { notifier } => {
                if self.node.predecessor == Some(asked) {
                    self.node.predecessor = Some(notifier);
                }
            }
            Purpose::Check => self.forget(asked),
        }
    }

    /// The predecessor was checked and is silent. If it still is the predecessor, the node has none now.
    fn forget(&mut self, checked: u32) {
        if self.node.predecessor == Some(checked) {
            self.note(Line::Forget {
                predecessor: self.name(checked),
            });
            self.node.predecessor = None;
        }
    }

    /// Takes the first such call out of the calls.
    fn take_call(&mut self, is_such: impl Fn(&Call) -> bool) -> Option<Call> {
        let index = self.node.calls.iter().position(is_such)?;
        Some(self.node.calls.remove(index))
    }

    /// Forgets a node that is silent or has left, in the successor list and among the fingers. If no
    /// other node is left in the list, the nearest finger is. Returns whether the node is not stranded.
    pub fn drop_node(&mut self, silent: u32) -> bool {
        let me = self.node.me;
        self.node.successors.retain(|&other| other != silent);
        if self.node.successors.iter().all(|&other| other == me) {
            self.take_finger(silent);
        }
        let Some(&head) = self.node.successors.first() else {
            self.strand();
            return false;
        };
        self.node.fingers.replace(self.scenario, silent, head);
        true
    }

    /// Puts the nearest finger at the head of the successor list, if there is another than the node
    /// itself and a silent one.
    fn take_finger(&mut self, silent: u32) {
        let me = self.node.me;
        let nearest = self.node.fingers.nearest_but(self.scenario, [me, silent]);
        if let Some(nearest) = nearest {
            self.note(Line::Rescue {
                successor: self.name(nearest),
            });
            self.node.successors.insert(0, nearest);
            self.node.successors.truncate(self.scenario.list);
        }
    }

    /// Drops the node that was asked for its state from the successor list, and asks the head.
    fn drop_asked(&mut self, asked: u32) {
        let successors = &mut self.node.successors;
        if let Some(index) = successors.iter().position(|&other| other == asked) {
            successors.remove(index);
        }
        if self.node.successors.is_empty() {
            self.strand();
        } else {
            self.ask_for_state();
        }
    }

    /// Whether the node is a member. If not, the message leaves a line.
    pub fn accepts(&mut self, kind: MessageKind, sender: u32) -> bool {
        let is_member = self.node.is_member();
        if !is_member {
            self.note_drop(kind, sender);
        }
        is_member
    }

    /// The line of a message that is not handled.
    fn note_drop(&mut self, kind: MessageKind, sender: u32) {
        self.note(Line::Drop {
            kind,
            sender: self.name(sender),
        });
    }

    /// A request for a step answer.
    fn on_step(&mut self, sender: u32, call: u64, key: I, avoid: &[u32]) {
        if self.accepts(MessageKind::Step, sender) {
            let answer = step_answer(self.scenario, self.node, key, avoid);
            let reply = Body::StepReply { call, answer };
            self.send(MessageKind::StepReply, sender, reply);
        }
    }

    /// A request for the predecessor and the successor list.
    fn on_get_state(&mut self, sender: u32, call: u64) {
        if self.accepts(MessageKind::GetState, sender) {
            let reply = Body::StateReply {
                call,
                predecessor: self.node.predecessor,
                successors: self.node.successors.clone(),
            };
            self.send(MessageKind::StateReply, sender, reply);
        }
    }

    /// A request for the successor list.
    fn on_get_list(&mut self, sender: u32, call: u64) {
        if self.accepts(MessageKind::GetList, sender) {
            let successors = self.node.successors.clone();
            let reply = Body::ListReply { call, successors };
            self.send(MessageKind::ListReply, sender, reply);
        }
    }

    /// A request for a sign of life.
    fn on_ping(&mut self, sender: u32, call: u64) {
        if self.accepts(MessageKind::Ping, sender) {
            self.send(MessageKind::Pong, sender, Body::Pong { call });
        }
    }

    /// A node that may be the predecessor. If it is not nearer, the predecessor is pinged.
    fn on_notify(&mut self, sender: u32) {
        if !self.accepts(MessageKind::Notify, sender) {
            return;
        }
        let Some(predecessor) = self.node.predecessor else {
            self.node.predecessor = Some(sender);
            return;
        };
        let ident = |node: u32| self.scenario.ident(node);
        if between(ident(predecessor), ident(sender), ident(self.node.me)) {
            self.node.predecessor = Some(sender);
        } else if sender != predecessor && !self.node.has_call(Purpose::is_ping) {
            let purpose = Purpose::Ping { notifier: sender };
            self.call(predecessor, Request::Ping, purpose);
        }
    }

    /// Takes the call of a reply out of the calls. Without one the reply leaves a line.
    fn answered(&mut self, kind: MessageKind, sender: u32, number: u64) -> Option<Call> {
        if self.node.is_down() {
            self.note_drop(kind, sender);
            return None;
        }
        let is_answered = |call: &Call| call.number == number && call.purpose.reply() == kind;
        let call = self.take_call(is_answered);
        if call.is_none() {
            self.note(Line::Late {
                kind,
                sender: self.name(sender),
            });
        }
        call
    }

    /// The reply to a step request.
    fn on_step_reply(&mut self, sender: u32, number: u64, answer: Answer) {
        let Some(call) = self.answered(MessageKind::StepReply, sender, number) else {
            return;
        };
        if call.purpose == Purpose::Lookup {
            self.lookup_answered(number, call.to, answer);
        } else {
            self.join_step_answered(call.to, answer);
        }
    }

    /// The reply to a request for the state. It ends a join. If it is not of a lookup, it renews the
    /// successor list. A node between this one and its successor is asked for its list.
    fn on_state_reply(&mut self, sender: u32, number: u64, predecessor: Option<u32>, list: &[u32]) {
        let Some(call) = self.answered(MessageKind::StateReply, sender, number) else {
            return;
        };
        match call.purpose {
            Purpose::Owner => return self.owner_answered(number, call.to, predecessor),
            Purpose::JoinHead { behind } => self.become_member(behind, Nodes::from([call.to])),
            _ => {}
        }
        self.renew_successors(call.to, list);
        let ident = |node: u32| self.scenario.ident(node);
        let is_nearer = |&node: &u32| between(ident(self.node.me), ident(node), ident(call.to));
        match predecessor.filter(is_nearer) {
            Some(nearer) => {
                self.call(nearer, Request::GetList, Purpose::List);
            }
            None => self.notify_head(),
        }
    }

    /// Makes the successor list of a node and the nodes of its list after it.
    fn renew_successors(&mut self, first: u32, list: &[u32]) {
        lists::renew(&mut self.node.successors, first, list, self.scenario.list);
    }

    /// The reply to a request for the successor list.
    fn on_list_reply(&mut self, sender: u32, number: u64, list: Nodes) {
        let Some(call) = self.answered(MessageKind::ListReply, sender, number) else {
            return;
        };
        if call.purpose == Purpose::List {
            self.renew_successors(call.to, &list);
            self.notify_head();
        } else {
            self.join_list_received(call.to, list);
        }
    }

    /// The reply to a ping: the predecessor stays.
    fn on_pong(&mut self, sender: u32, number: u64) {
        self.answered(MessageKind::Pong, sender, number);
    }
}
