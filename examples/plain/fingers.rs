//! The fingers of a node, from the second to the last.

use crate::circle::Ident;
use crate::scenario::Scenario;

/// The fingers of the node at a place. A node that is no member has none.
pub struct Fingers<I> {
    here: I,
    nodes: Vec<u32>,
}

impl<I: Ident> Fingers<I> {
    /// No fingers yet.
    pub fn new(here: I) -> Self {
        let nodes = Vec::new();
        Self { here, nodes }
    }

    /// The fingers.
    pub fn nodes(&self) -> &[u32] {
        &self.nodes
    }

    /// Points each finger to the first node of a ring at or after its start. The nodes are in the
    /// order of their identifiers.
    pub fn point_into(&mut self, scenario: &Scenario<I>, ring: &[u32]) {
        let owner = |finger: u32| {
            let start = scenario.circle.finger_start(self.here, finger);
            let at = ring.partition_point(|&other| scenario.ident(other) < start);
            ring[at % ring.len()]
        };
        self.nodes = (2..=scenario.circle.bits()).map(owner).collect();
    }

    /// Forgets all fingers.
    pub fn clear(&mut self) {
        self.nodes.clear();
    }

    /// Points all fingers to a node.
    pub fn point_all(&mut self, scenario: &Scenario<I>, node: u32) {
        self.nodes = vec![node; scenario.circle.bits() as usize - 1];
    }

    /// Points the finger of this number to a node.
    pub fn point(&mut self, _scenario: &Scenario<I>, finger: u32, node: u32) {
        self.nodes[finger as usize - 2] = node;
    }

    /// Points all fingers before the one of this number to a node.
    pub fn point_before(&mut self, _scenario: &Scenario<I>, finger: u32, node: u32) {
        self.nodes[..finger as usize - 2].fill(node);
    }

    /// Points all fingers that are one node to another.
    pub fn replace(&mut self, _scenario: &Scenario<I>, gone: u32, node: u32) {
        for finger in &mut self.nodes {
            if *finger == gone {
                *finger = node;
            }
        }
    }

    /// The finger that is nearest clockwise, of those that are none of these nodes.
    pub fn nearest_but(&self, scenario: &Scenario<I>, others: [u32; 2]) -> Option<u32> {
        let nodes = self.nodes.iter().copied();
        let distance = |&node: &u32| scenario.circle.distance(self.here, scenario.ident(node));
        let nodes = nodes.filter(|node| !others.contains(node));
        nodes.min_by_key(distance)
    }
}
