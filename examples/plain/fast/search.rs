//! The search for the node that a lookup asks next.

use crate::circle::Ident;
use crate::events::Answer;
use crate::fingers::reach;
use crate::scenario::Scenario;
use crate::state::Node;

/// The step answer of a node, for a key and nodes to avoid.
#[inline]
pub fn step_answer<I: Ident>(
    scenario: &Scenario<I>,
    node: &Node<I>,
    key: I,
    avoid: &[u32],
) -> Answer {
    let Some(head) = first_but(&node.successors, avoid) else {
        return Answer::Stuck;
    };
    let reach = |place| reach(scenario.circle, node.fingers.here(), place);
    let (limit, nearest) = (reach(key), reach(scenario.ident(head)));
    if limit <= nearest {
        return Answer::Owner(head);
    }
    let mut closest = node.fingers.farthest((nearest, head), limit, avoid);
    if scenario.ways.list_routes {
        for &other in node.successors.iter() {
            let far = reach(scenario.ident(other));
            if far > closest.0 && far < limit && !avoid.contains(&other) {
                closest = (far, other);
            }
        }
    }
    Answer::Next(closest.1)
}

/// The first node of a list that is not to be avoided.
#[inline]
fn first_but(list: &[u32], avoid: &[u32]) -> Option<u32> {
    if avoid.is_empty() {
        return list.first().copied();
    }
    let mut nodes = list.iter().copied();
    nodes.find(|node| !avoid.contains(node))
}
