//! Leaves: how a node tells its neighbours that it goes, and what they do then.

use crate::circle::Ident;
use crate::events::{Body, MessageKind};
use crate::lines::Line;
use crate::spans::{Span, Subject};
use crate::turn::Turn;

impl<I: Ident> Turn<'_, I> {
    /// A command to leave.
    pub fn on_cmd_leave(&mut self) {
        if self.node.is_down() {
            self.note(Line::Ignored { command: "leave" });
        } else {
            self.leave();
        }
    }

    /// Leaves. The predecessor and the first successor are told, each once.
    pub fn leave(&mut self) {
        self.note(Line::Leave);
        let (me, predecessor) = (self.node.me, self.node.predecessor);
        let head = self.node.successors.first().copied();
        let head = head.filter(|&head| Some(head) != predecessor);
        for to in [predecessor, head].into_iter().flatten() {
            if to != me {
                let successors = self.node.successors.clone();
                let body = Body::Leave {
                    predecessor,
                    successors,
                };
                self.send(MessageKind::Leave, to, body);
            }
        }
        self.go_down();
    }

    /// Whether the end of the life of this epoch is a leave.
    pub fn ends_with_leave(&mut self, epoch: u64) -> bool {
        let churn = self.scenario.churn.as_ref();
        let leave_ppm = churn.map_or(0, |churn| churn.leave_ppm);
        let mut draw = || {
            self.node
                .draws
                .time(Span::of_chances(), Subject::Leave, epoch)
        };
        leave_ppm > 0 && draw() < leave_ppm
    }

    /// A node has left that had this predecessor and these successors.
    pub fn on_leave(&mut self, sender: u32, predecessor: Option<u32>, list: &[u32]) {
        if !self.accepts(MessageKind::Leave, sender) {
            return;
        }
        if self.node.successors.contains(&sender) {
            self.take_successors_of(sender, list);
        }
        if self.node.predecessor == Some(sender) {
            self.node.predecessor = predecessor.filter(|&other| other != sender);
        }
        self.drop_node(sender);
    }

    /// Takes a node out of the successor list. Its own list follows, without it and without those that
    /// are in the list already.
    fn take_successors_of(&mut self, gone: u32, list: &[u32]) {
        self.node.successors.retain(|&other| other != gone);
        let known = self.node.successors.clone();
        let is_new = |other: &u32| *other != gone && !known.contains(other);
        let new = list.iter().copied().filter(is_new);
        self.node.successors.extend(new);
        self.node.successors.truncate(self.scenario.list);
    }
}
