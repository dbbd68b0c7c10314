//! The search for the node that a lookup asks next.

use crate::circle::{between, in_half_open, Ident};
use crate::events::Answer;
use crate::scenario::Scenario;
use crate::state::Node;

/// The step answer of a node, for a key and nodes to avoid.
pub fn step_answer<I: Ident>(
    scenario: &Scenario<I>,
    node: &Node<I>,
    key: I,
    avoid: &[u32],
) -> Answer {
    let mut successors = node.successors.iter().copied();
    let Some(head) = successors.find(|successor| !avoid.contains(successor)) else {
        return Answer::Stuck;
    };
    let (circle, me) = (scenario.circle, scenario.ident(node.me));
    if in_half_open(me, key, scenario.ident(head)) {
        return Answer::Owner(head);
    }
    let mut closest = head;
    let mut farthest = circle.distance(me, scenario.ident(head));
    let others: &[u32] = if scenario.ways.list_routes {
        &node.successors
    } else {
        &[]
    };
    for &other in node.fingers.nodes().iter().chain(others) {
        // Fingers that are next to each other are mostly the same node.
        if other == closest || avoid.contains(&other) {
            continue;
        }
        let ident = scenario.ident(other);
        if !between(me, ident, key) {
            continue;
        }
        let distance = circle.distance(me, ident);
        if distance > farthest {
            (closest, farthest) = (other, distance);
        }
    }
    Answer::Next(closest)
}
