//! The fingers of a node, from the second to the last, as runs of the same node.

use crate::circle::{Circle, Ident};
use crate::scenario::Scenario;

/// Fingers next to each other that are one node: the last of them, the node, and its reach.
struct Run<I> {
    last: u32,
    node: u32,
    reach: I,
}

/// The fingers of the node at a place. A node that is no member has none. The runs are in the order of
/// the fingers. `is_ordered` says that each run reaches farther than those before it.
pub struct Fingers<I> {
    here: I,
    runs: Vec<Run<I>>,
    is_ordered: bool,
}

/// The number of the first finger that is kept.
const FIRST: u32 = 2;

/// One less than the way clockwise to a place. So the place itself is the farthest from itself.
pub fn reach<I: Ident>(circle: Circle<I>, here: I, place: I) -> I {
    circle.distance(here, place).minus(I::ONE)
}

impl<I: Ident> Fingers<I> {
    /// No fingers yet.
    pub fn new(here: I) -> Self {
        Self {
            here,
            runs: Vec::new(),
            is_ordered: true,
        }
    }

    /// Where the node is.
    pub fn here(&self) -> I {
        self.here
    }

    /// Of the fingers that reach farther than the nearest and less far than the limit, and that are not
    /// to be avoided, the farthest one, with its reach. The nearest if there is none.
    #[inline]
    pub fn farthest(&self, nearest: (I, u32), limit: I, avoid: &[u32]) -> (I, u32) {
        let mut farthest = nearest;
        for run in self.runs.iter().rev() {
            if run.reach >= limit || avoid.contains(&run.node) {
                continue;
            }
            if run.reach > farthest.0 {
                farthest = (run.reach, run.node);
            }
            if self.is_ordered {
                break;
            }
        }
        farthest
    }

    /// Points each finger to the first node of a ring at or after its start. The nodes are in the
    /// order of their identifiers.
    pub fn point_into(&mut self, scenario: &Scenario<I>, ring: &[u32]) {
        let circle = scenario.circle;
        self.runs.clear();
        let mut finger = FIRST;
        while finger <= circle.bits() {
            let start = circle.finger_start(self.here, finger);
            let at = ring.partition_point(|&other| scenario.ident(other) < start);
            let node = ring[at % ring.len()];
            let distance = circle.distance(self.here, scenario.ident(node));
            // The starts of fingers are powers of two away. A distance of 0 is the whole circle.
            let last = match distance == I::ZERO {
                true => circle.bits(),
                false => distance.length(),
            };
            self.runs.push(self.run(scenario, last, node));
            finger = last + 1;
        }
        self.settle();
    }

    /// Forgets all fingers.
    pub fn clear(&mut self) {
        self.runs.clear();
        self.is_ordered = true;
    }

    /// Points all fingers to a node.
    pub fn point_all(&mut self, scenario: &Scenario<I>, node: u32) {
        self.clear();
        self.runs
            .push(self.run(scenario, scenario.circle.bits(), node));
    }

    /// Points the finger of this number to a node.
    pub fn point(&mut self, scenario: &Scenario<I>, finger: u32, node: u32) {
        self.point_range(scenario, finger, finger, node);
    }

    /// Points all fingers before the one of this number to a node.
    pub fn point_before(&mut self, scenario: &Scenario<I>, finger: u32, node: u32) {
        if finger > FIRST {
            self.point_range(scenario, FIRST, finger - 1, node);
        }
    }

    /// Points all fingers that are one node to another.
    pub fn replace(&mut self, scenario: &Scenario<I>, gone: u32, node: u32) {
        if self.runs.iter().all(|run| run.node != gone) {
            return;
        }
        let reach = self.reach_of(scenario, node);
        for run in self.runs.iter_mut().filter(|run| run.node == gone) {
            (run.node, run.reach) = (node, reach);
        }
        self.settle();
    }

    /// The finger that is nearest clockwise, of those that are none of these nodes.
    pub fn nearest_but(&self, _scenario: &Scenario<I>, others: [u32; 2]) -> Option<u32> {
        let runs = self.runs.iter().filter(|run| !others.contains(&run.node));
        runs.min_by_key(|run| run.reach).map(|run| run.node)
    }

    /// The reach of a node.
    fn reach_of(&self, scenario: &Scenario<I>, node: u32) -> I {
        reach(scenario.circle, self.here, scenario.ident(node))
    }

    /// The run of a node that ends with this finger.
    fn run(&self, scenario: &Scenario<I>, last: u32, node: u32) -> Run<I> {
        let reach = self.reach_of(scenario, node);
        Run { last, node, reach }
    }

    /// Points the fingers from the first to the last to a node.
    fn point_range(&mut self, scenario: &Scenario<I>, first: u32, last: u32, node: u32) {
        let begin = self.runs.partition_point(|run| run.last < first);
        let old = &self.runs[begin];
        if old.node == node && old.last >= last {
            return;
        }
        let end = begin + self.runs[begin..].partition_point(|run| run.last <= last);
        let starts = begin
            .checked_sub(1)
            .map_or(FIRST, |at| self.runs[at].last + 1);
        let rest = (starts < first).then_some(Run {
            last: first - 1,
            ..*old
        });
        let run = self.run(scenario, last, node);
        self.runs.splice(begin..end, rest.into_iter().chain([run]));
        self.settle();
    }

    /// Joins the runs of one node that are next to each other, and sees whether the runs are in order.
    fn settle(&mut self) {
        self.runs.dedup_by(|run, before| {
            let is_same = run.node == before.node;
            if is_same {
                before.last = run.last;
            }
            is_same
        });
        let mut pairs = self.runs.windows(2);
        self.is_ordered = pairs.all(|pair| pair[0].reach < pair[1].reach);
    }
}
