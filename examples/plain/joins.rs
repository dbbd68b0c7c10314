//! Joins: how a node comes up, goes on with an attempt, fails, and becomes a member.

use crate::circle::{between, Ident};
use crate::events::{Answer, Body, Request};
use crate::lines::Line;
use crate::lists::Nodes;
use crate::state::{Attempt, Purpose, Status};
use crate::turn::Turn;

/// The failures that end an attempt.
const MOST_FAILURES: u32 = 8;

/// The requests of a try after its first.
const MOST_STEPS: u32 = 128;

/// The pauses after an attempt, if the next one follows.
const PAUSES_BETWEEN_ATTEMPTS: u64 = 8;

impl<I: Ident> Turn<'_, I> {
    /// The node through which the node joins. It has one once it has come up.
    fn via(&self) -> u32 {
        self.node.via.expect("a node that has come up has a via")
    }

    /// The attempt of a joining node.
    fn attempt(&mut self) -> &mut Attempt {
        let attempt = self.node.attempt.as_mut();
        attempt.expect("a joining node has an attempt")
    }

    /// Comes up, and joins through a node.
    pub fn come_up(&mut self, via: u32) {
        self.note(Line::Join {
            via: self.name(via),
        });
        self.node.epoch += 1;
        self.node.via = Some(via);
        self.node.next_finger = 2;
        self.start_attempt();
        self.arm();
        self.try_to_join();
    }

    /// Becomes a joining node, with an attempt that has no failures and no steps.
    fn start_attempt(&mut self) {
        self.node.status = Status::Joining;
        self.node.attempt = Some(Attempt::default());
    }

    /// The request for the owner of the node's own identifier.
    pub fn place_request(&self) -> Request<I> {
        let attempt = self.node.attempt.as_ref();
        Request::Step {
            key: self.scenario.ident(self.node.me),
            avoid: attempt.map_or_else(Nodes::new, |attempt| attempt.avoid.clone()),
        }
    }

    /// Asks a node for the owner of the node's own identifier.
    fn ask_for_place(&mut self, to: u32) {
        self.call(to, self.place_request(), Purpose::JoinStep);
    }

    /// A try of the attempt has failed. The node tries again after a pause. After the last try it goes
    /// down, or pauses for longer and begins another attempt, or makes a ring of its own.
    fn fail_join(&mut self) {
        let pause = self.scenario.join_pause_us;
        self.node.move_via(&self.scenario.bootstraps);
        let attempt = self.attempt();
        attempt.failures += 1;
        if attempt.failures < MOST_FAILURES {
            attempt.steps = 0;
            return self.pause(pause);
        }
        let is_alone = !attempt.is_answered && self.scenario.bootstraps.contains(&self.node.me);
        self.note(Line::JoinFailed);
        if is_alone && self.scenario.ways.create_alone {
            return self.create();
        }
        if self.scenario.joins_forever {
            self.start_attempt();
            return self.pause(PAUSES_BETWEEN_ATTEMPTS * pause);
        }
        self.go_down();
        if self.churns() {
            self.arm_rise();
        }
    }

    /// Tries again after this time, at once if it is 0.
    fn pause(&mut self, delay: u64) {
        if delay == 0 {
            return self.try_to_join();
        }
        let epoch = self.node.epoch;
        self.make(delay, Body::Rejoin { epoch });
    }

    /// The pause after a failed try is over.
    pub fn on_rejoin(&mut self, epoch: u64) {
        let is_joining = self.node.status == Status::Joining;
        if self.node.epoch == epoch && is_joining && self.node.calls.is_empty() {
            self.try_to_join();
        }
    }

    /// A try of the attempt. A node that joins through itself makes a ring of its own.
    fn try_to_join(&mut self) {
        let via = self.via();
        if via == self.node.me {
            self.create();
        } else {
            self.ask_for_place(via);
        }
    }

    /// Makes a ring, in which the node is alone.
    fn create(&mut self) {
        let me = self.node.me;
        self.note(Line::Create);
        self.node.successors = Nodes::from([me]);
        self.node.fingers.point_all(self.scenario, me);
        self.node.status = Status::Member;
        self.node.attempt = None;
    }

    /// Goes down.
    pub fn go_down(&mut self) {
        self.node.go_down(&self.scenario.bootstraps);
    }

    /// Joins again, since no successor is left.
    pub fn strand(&mut self) {
        self.node.leave_own_via(&self.scenario.bootstraps);
        let via = self.via();
        self.note(Line::Stranded {
            via: self.name(via),
        });
        for lookup in std::mem::take(&mut self.node.lookups) {
            self.note_lost(&lookup);
        }
        self.node.forget_ring();
        self.start_attempt();
        self.try_to_join();
    }

    /// A node has answered a step of the attempt.
    pub fn join_step_answered(&mut self, asked: u32, answer: Answer) {
        self.attempt().is_answered = true;
        match answer {
            Answer::Owner(_) => {
                self.call(asked, Request::GetList, Purpose::JoinList);
            }
            Answer::Next(next) if self.attempt().steps < MOST_STEPS => {
                self.attempt().steps += 1;
                self.ask_for_place(next);
            }
            Answer::Next(_) | Answer::Stuck => self.fail_join(),
        }
    }

    /// A node has sent its successor list. If the node's place is at its head, the node takes it, or asks
    /// the head before.
    pub fn join_list_received(&mut self, predecessor: u32, list: Nodes) {
        self.attempt().is_answered = true;
        let successors = self.cleaned(predecessor, list);
        let scenario = self.scenario;
        let me = scenario.ident(self.node.me);
        let is_before =
            |&head: &u32| between(scenario.ident(predecessor), me, scenario.ident(head));
        let Some(head) = successors.first().copied().filter(is_before) else {
            return self.fail_join();
        };
        if scenario.ways.join_asks {
            let purpose = Purpose::JoinHead {
                behind: predecessor,
            };
            self.call(head, Request::GetState, purpose);
        } else {
            self.become_member(predecessor, successors);
        }
    }

    /// The successors in the list of the node before this one. The node itself and those that it avoids
    /// are left out, if lists are cleaned. If the node itself is alone there, it is that of a ring of two.
    fn cleaned(&mut self, predecessor: u32, mut list: Nodes) -> Nodes {
        if self.scenario.ways.clean_lists {
            let me = self.node.me;
            list.retain(|&other| other != me);
            if list.is_empty() {
                list.push(predecessor);
            }
            let avoid = &self.attempt().avoid;
            list.retain(|other| !avoid.contains(other));
        }
        list
    }

    /// Becomes a member, with this predecessor and these successors.
    pub fn become_member(&mut self, predecessor: u32, successors: Nodes) {
        let head = successors[0];
        self.node.predecessor = Some(predecessor);
        self.node.successors = successors;
        self.node.successors.truncate(self.scenario.list);
        self.node.fingers.point_all(self.scenario, head);
        self.node.status = Status::Member;
        self.node.attempt = None;
        self.note(Line::Member {
            predecessor: self.name(predecessor),
        });
    }

    /// A request of the attempt to a node timed out.
    pub fn join_timed_out(&mut self, asked: u32) {
        let is_via = asked == self.via();
        let attempt = self.attempt();
        if !is_via && !attempt.avoid.contains(&asked) {
            attempt.avoid.push(asked);
        }
        self.fail_join();
    }
}
