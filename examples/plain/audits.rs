//! Audits of the ring, in time that is linear in the nodes and the entries of their lists.

use std::fmt;

use crate::circle::{between, Ident};
use crate::scenario::Scenario;
use crate::state::Node;

/// What an audit finds: how many members there are, how many of them have no best successor, how
/// many are ring members, whether these are in order, how many members no list skips, and whether
/// they are enough.
pub struct Audit {
    members: usize,
    dead: usize,
    pub ring: usize,
    pub is_ordered: bool,
    principals: usize,
    pub is_sufficient: bool,
}

impl Audit {
    /// The audit of these states.
    pub fn of<I: Ident>(scenario: &Scenario<I>, nodes: &[Node<I>]) -> Self {
        let members: Vec<&Node<I>> = nodes.iter().filter(|node| node.is_member()).collect();
        let best: Vec<Option<u32>> = nodes.iter().map(|x| best_successor(x, nodes)).collect();
        let has_no_best = |node: &&&Node<I>| best[node.me as usize].is_none();
        let dead = members.iter().filter(has_no_best).count();
        let is_in_ring = ring_members(&members, &best);
        let principals = count_principals(scenario, &members);
        Self {
            members: members.len(),
            dead,
            ring: is_in_ring.iter().filter(|&&is_in| is_in).count(),
            is_ordered: is_ordered(scenario, &is_in_ring, &best),
            principals,
            is_sufficient: principals > scenario.list && dead == 0,
        }
    }
}

impl fmt::Display for Audit {
    fn fmt(&self, out: &mut fmt::Formatter) -> fmt::Result {
        let word = |fact: bool| if fact { "yes" } else { "no" };
        write!(
            out,
            "members={} dead={} ring={} ordered={} principals={} sufficient={}",
            self.members,
            self.dead,
            self.ring,
            word(self.is_ordered),
            self.principals,
            word(self.is_sufficient)
        )
    }
}

/// The best successor of a node, if it is a member and has one.
fn best_successor<I: Ident>(node: &Node<I>, nodes: &[Node<I>]) -> Option<u32> {
    let is_member = |entry: &u32| nodes[*entry as usize].is_member();
    let mut entries = node.successors.iter().copied();
    entries.find(is_member).filter(|_| node.is_member())
}

/// Whether each node comes back to itself from best successor to best successor.
fn ring_members<I>(members: &[&Node<I>], best: &[Option<u32>]) -> Vec<bool> {
    let mut visitor = vec![None; best.len()];
    let mut is_in_ring = vec![false; best.len()];
    for member in members {
        let mut here = Some(member.me);
        while let Some(node) = here.filter(|&node| visitor[node as usize].is_none()) {
            visitor[node as usize] = Some(member.me);
            here = best[node as usize];
        }
        // A way that comes to a node of its own has come to a ring, which it now goes around once.
        let mut around = here.filter(|&node| visitor[node as usize] == Some(member.me));
        while let Some(node) = around.filter(|&node| !is_in_ring[node as usize]) {
            is_in_ring[node as usize] = true;
            around = best[node as usize];
        }
    }
    is_in_ring
}

/// Whether no ring member lies between a ring member and its best successor. If one does, so does
/// the next ring member clockwise.
fn is_ordered<I: Ident>(scenario: &Scenario<I>, is_in_ring: &[bool], best: &[Option<u32>]) -> bool {
    let mut by_rank = vec![None; is_in_ring.len()];
    for node in scenario.nodes().filter(|&node| is_in_ring[node as usize]) {
        by_rank[scenario.ranks[node as usize] as usize] = Some(node);
    }
    let ring: Vec<u32> = by_rank.into_iter().flatten().collect();
    let following = ring.iter().cycle().skip(1);
    let is_skipped = |(&node, &next): (&u32, &u32)| {
        best[node as usize].is_some_and(|best| {
            between(
                scenario.ident(node),
                scenario.ident(next),
                scenario.ident(best),
            )
        })
    };
    !ring.iter().zip(following).any(is_skipped)
}

/// How many members no list skips.
fn count_principals<I: Ident>(scenario: &Scenario<I>, members: &[&Node<I>]) -> usize {
    let rank = |node: u32| scenario.ranks[node as usize] as usize;
    let mut skips = Skips::new(scenario.ranks.len());
    for member in members {
        let mut before = rank(member.me);
        for &entry in member.successors.iter() {
            skips.add(before, rank(entry));
            before = rank(entry);
        }
    }
    let is_skipped = skips.skipped();
    let is_principal = |member: &&&Node<I>| !is_skipped[rank(member.me)];
    members.iter().filter(is_principal).count()
}

/// How many lists skip each rank, as the differences between one rank and the next.
struct Skips(Vec<i32>);

impl Skips {
    /// No list skips any of these ranks.
    fn new(ranks: usize) -> Self {
        Self(vec![0; ranks + 1])
    }

    /// A list skips the ranks between two of them, clockwise.
    fn add(&mut self, before: usize, after: usize) {
        if before < after {
            self.add_range(before + 1, after);
        } else {
            self.add_range(before + 1, self.0.len() - 1);
            self.add_range(0, after);
        }
    }

    /// A list skips the ranks from one on, and below another one.
    fn add_range(&mut self, from: usize, to: usize) {
        self.0[from] += 1;
        self.0[to] -= 1;
    }

    /// Whether any list skips each rank.
    fn skipped(&self) -> Vec<bool> {
        let mut lists = 0;
        let is_skipped = |difference: &i32| {
            lists += difference;
            lists > 0
        };
        self.0.iter().map(is_skipped).collect()
    }
}
