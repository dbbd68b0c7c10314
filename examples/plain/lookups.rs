//! Lookups: how a lookup starts, goes on and ends.

use crate::circle::{in_half_open, Ident};
use crate::events::{Answer, Request};
use crate::lines::Line;
use crate::search::step_answer;
use crate::state::{Aim, Lookup, Purpose};
use crate::turn::Turn;

/// The most lookups of a user that a node has at once.
const MOST_USER_LOOKUPS: usize = 60;

/// The most requests of a lookup that may leave out no node.
const LEAST_STEPS: u32 = 112;

/// The further requests that it may send for each node that it may leave out.
const STEPS_EACH: u32 = 2;

impl<I: Ident> Turn<'_, I> {
    /// Starts a user's lookup of a key, unless too many are in progress.
    pub fn look_up(&mut self, key: I) {
        let is_user = |lookup: &&Lookup<I>| lookup.aim == Aim::User;
        if self.node.lookups.iter().filter(is_user).count() >= MOST_USER_LOOKUPS {
            self.note(Line::Busy { key: key.into() });
        } else {
            self.note(Line::Lookup { key: key.into() });
            self.begin_lookup(key, Aim::User);
        }
    }

    /// Starts a lookup, behind all others.
    pub fn begin_lookup(&mut self, key: I, aim: Aim) {
        self.node.lookups.push(Lookup::new(key, aim, self.time));
        self.walk_lookup(self.node.lookups.len() - 1);
    }

    /// Goes on with a lookup from the node itself.
    fn walk_lookup(&mut self, index: usize) {
        let lookup = &self.node.lookups[index];
        let answer = step_answer(self.scenario, self.node, lookup.key, &lookup.avoid);
        self.follow_answer(index, answer);
    }

    /// Goes on with a lookup as a step answer says.
    fn follow_answer(&mut self, index: usize, answer: Answer) {
        match answer {
            Answer::Owner(owner) => self.owner_named(index, owner),
            Answer::Next(next) => self.ask_next(index, next),
            Answer::Stuck => self.fail_lookup(index),
        }
    }

    /// The owner of a lookup's key is known. A user's lookup asks it.
    fn owner_named(&mut self, index: usize, owner: u32) {
        if self.scenario.ways.ask_owner && self.node.lookups[index].aim == Aim::User {
            self.ask(index, owner, Purpose::Owner);
        } else {
            self.finish_lookup(index, owner);
        }
    }

    /// The owner of a lookup's key has answered. Its predecessor may be the owner by now.
    pub fn owner_answered(&mut self, call: u64, owner: u32, predecessor: Option<u32>) {
        let index = self.node.lookup_of(call);
        let lookup = &self.node.lookups[index];
        let ident = |node: u32| self.scenario.ident(node);
        let takes_key = |&other: &u32| !in_half_open(ident(other), lookup.key, ident(owner));
        let other = predecessor.filter(|other| !lookup.avoid.contains(other));
        match other.filter(takes_key) {
            Some(newcomer) => self.ask(index, newcomer, Purpose::Owner),
            None => self.finish_lookup(index, owner),
        }
    }

    /// Asks the next node.
    fn ask_next(&mut self, index: usize, next: u32) {
        self.ask(index, next, Purpose::Lookup);
    }

    /// Asks a node, unless the lookup has sent all its requests.
    fn ask(&mut self, index: usize, node: u32, purpose: Purpose) {
        let lookup = &mut self.node.lookups[index];
        if lookup.steps >= LEAST_STEPS + STEPS_EACH * self.scenario.ways.lookup_timeouts as u32 {
            return self.fail_lookup(index);
        }
        lookup.steps += 1;
        let request = match purpose {
            Purpose::Owner => Request::GetState,
            _ => lookup.request(),
        };
        self.node.lookups[index].call = self.call(node, request, purpose);
    }

    /// Ends a lookup whose owner is known.
    fn finish_lookup(&mut self, index: usize, owner: u32) {
        let lookup = self.node.lookups.remove(index);
        match lookup.aim {
            Aim::User => self.note(Line::Found {
                key: lookup.key.into(),
                owner: self.name(owner),
                hops: lookup.hops,
                timeouts: lookup.timeouts,
                us: self.time - lookup.started,
            }),
            Aim::Finger { index } => self.node.fingers.point(self.scenario, index, owner),
        }
    }

    /// Ends a lookup without an owner.
    fn fail_lookup(&mut self, index: usize) {
        let lookup = self.node.lookups.remove(index);
        self.note_lost(&lookup);
    }

    /// The line of a lookup that ends without an owner, if it is a user's.
    pub fn note_lost(&mut self, lookup: &Lookup<I>) {
        if lookup.aim == Aim::User {
            self.note(Line::Lost {
                key: lookup.key.into(),
                hops: lookup.hops,
                timeouts: lookup.timeouts,
                us: self.time - lookup.started,
            });
        }
    }

    /// A request of a lookup was answered by the node that was asked. If the lookup goes on, this is
    /// where it does, unless the node is a dead end.
    pub fn lookup_answered(&mut self, call: u64, asked: u32, answer: Answer) {
        let index = self.node.lookup_of(call);
        let lookup = &mut self.node.lookups[index];
        if lookup.last != Some(asked) {
            lookup.hops += 1;
        }
        if self.scenario.ways.goes_on {
            if matches!(answer, Answer::Stuck) {
                return self.leave_out(index, asked);
            }
            lookup.last = Some(asked);
        }
        self.follow_answer(index, answer);
    }

    /// A request of a lookup to a node timed out.
    pub fn lookup_timed_out(&mut self, call: u64, asked: u32) {
        let index = self.node.lookup_of(call);
        self.node.lookups[index].timeouts += 1;
        self.leave_out(index, asked);
    }

    /// A lookup avoids one more node, if it may, and goes on from the node that answered last. Without
    /// such a node it begins again.
    fn leave_out(&mut self, index: usize, silent: u32) {
        let lookup = &mut self.node.lookups[index];
        if lookup.avoid.len() >= self.scenario.ways.lookup_timeouts {
            return self.fail_lookup(index);
        }
        lookup.avoid.push(silent);
        match lookup.last.filter(|&last| last != silent) {
            Some(last) => self.ask_next(index, last),
            None => {
                lookup.last = None;
                self.walk_lookup(index);
            }
        }
    }
}
