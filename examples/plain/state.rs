//! The state of a node.

use crate::circle::Ident;
use crate::draws::Draws;
use crate::events::{MessageKind, Request};
use crate::fingers::Fingers;
use crate::lists::Nodes;
use crate::scenario::Scenario;

/// Whether a node takes part in the ring.
#[derive(Clone, Copy, PartialEq)]
pub enum Status {
    Down,
    Joining,
    Member,
}

/// What a call is for.
#[derive(Clone, Copy, PartialEq)]
pub enum Purpose {
    Lookup,
    Owner,
    JoinStep,
    JoinList,
    State,
    List,
    Ping { notifier: u32 },
    Check,
    JoinHead { behind: u32 },
}

impl Purpose {
    /// The kind of the reply that a call of this purpose waits for.
    pub fn reply(self) -> MessageKind {
        match self {
            Purpose::Lookup | Purpose::JoinStep => MessageKind::StepReply,
            Purpose::JoinList | Purpose::List => MessageKind::ListReply,
            Purpose::State | Purpose::Owner | Purpose::JoinHead { .. } => MessageKind::StateReply,
            Purpose::Ping { .. } | Purpose::Check => MessageKind::Pong,
        }
    }

    /// Whether a call of this purpose asks the predecessor for a sign of life.
    pub fn is_ping(self) -> bool {
        matches!(self, Purpose::Ping { .. } | Purpose::Check)
    }
}

/// A request that is out. Its number is that of its event. `again` counts how often it was sent
/// again.
pub struct Call {
    pub number: u64,
    pub to: u32,
    pub purpose: Purpose,
    pub again: u32,
}

/// Who a lookup is for.
#[derive(Clone, Copy, PartialEq)]
pub enum Aim {
    User,
    Finger { index: u32 },
}

/// A lookup in progress: the number of its call, its key and aim, and when it started. `steps`
/// counts the requests that it has sent, `hops` those that were answered, and `timeouts` those that
/// timed out. It avoids the nodes that did not reply, and dead ends. `last` is the node that answered
/// last, if the lookup goes on from it.
pub struct Lookup<I> {
    pub call: u64,
    pub key: I,
    pub aim: Aim,
    pub started: u64,
    pub steps: u32,
    pub hops: u32,
    pub timeouts: u32,
    pub avoid: Nodes,
    pub last: Option<u32>,
}

impl<I: Ident> Lookup<I> {
    /// A lookup that has sent no request.
    pub fn new(key: I, aim: Aim, started: u64) -> Self {
        Self {
            call: 0,
            key,
            aim,
            started,
            steps: 0,
            hops: 0,
            timeouts: 0,
            avoid: Nodes::new(),
            last: None,
        }
    }

    /// The request that it sends to the next node.
    pub fn request(&self) -> Request<I> {
        Request::Step {
            key: self.key,
            avoid: self.avoid.clone(),
        }
    }
}

/// An attempt to join: its failures, its requests after the first, the nodes that it avoids, and whether
/// one of its requests was answered.
#[derive(Default)]
pub struct Attempt {
    pub failures: u32,
    pub steps: u32,
    pub avoid: Nodes,
    pub is_answered: bool,
}

/// What a node knows. `epoch` counts its lives. `via` is the node through which it joined last.
/// `fingers` has the fingers from the second to the last. `count` is the number of its last event.
pub struct Node<I> {
    pub me: u32,
    pub status: Status,
    pub epoch: u64,
    pub via: Option<u32>,
    pub predecessor: Option<u32>,
    pub successors: Nodes,
    pub fingers: Fingers<I>,
    pub next_finger: u32,
    pub calls: Vec<Call>,
    pub lookups: Vec<Lookup<I>>,
    pub attempt: Option<Attempt>,
    pub draws: Draws,
    pub count: u64,
}

impl<I: Ident> Node<I> {
    /// A node that has never been up.
    fn never_up(me: u32, scenario: &Scenario<I>) -> Self {
        Self {
            me,
            status: Status::Down,
            epoch: 0,
            via: None,
            predecessor: None,
            successors: Nodes::new(),
            fingers: Fingers::new(scenario.ident(me)),
            next_finger: 2,
            calls: Vec::new(),
            lookups: Vec::new(),
            attempt: None,
            draws: Draws::new(scenario.profile, scenario.seed, me),
            count: 0,
        }
    }

    /// Whether the node is down.
    pub fn is_down(&self) -> bool {
        self.status == Status::Down
    }

    /// Whether the node is a member.
    pub fn is_member(&self) -> bool {
        self.status == Status::Member
    }

    /// The first entry of the successor list. A member has one.
    pub fn head(&self) -> u32 {
        self.successors[0]
    }

    /// Whether a timer of this epoch is void: it belongs to another life, or the node is down.
    pub fn is_void(&self, epoch: u64) -> bool {
        self.epoch != epoch || self.is_down()
    }

    /// Whether a call of such a purpose is out.
    pub fn has_call(&self, is_such: impl Fn(Purpose) -> bool) -> bool {
        self.calls.iter().any(|call| is_such(call.purpose))
    }

    /// The index of the lookup that waits for the call of this number.
    pub fn lookup_of(&self, call: u64) -> usize {
        let index = self.lookups.iter().position(|lookup| lookup.call == call);
        index.expect("each call of a lookup has its lookup")
    }

    /// If the node has itself to join through, it takes the next bootstrap node, if there is one.
    pub fn leave_own_via(&mut self, bootstraps: &[u32]) {
        if self.via == Some(self.me) {
            self.move_via(bootstraps);
        }
    }

    /// Takes the next bootstrap node to join through, if there is another than the node itself.
    pub fn move_via(&mut self, bootstraps: &[u32]) {
        let others = || bootstraps.iter().filter(|&&other| other != self.me);
        let next = others().find(|&&other| Some(other) > self.via);
        self.via = next.or_else(|| others().next()).copied().or(self.via);
    }

    /// Forgets the predecessor, the successors, the fingers, and all that was in progress.
    pub fn forget_ring(&mut self) {
        self.predecessor = None;
        self.successors.clear();
        self.fingers.clear();
        self.calls.clear();
        self.lookups.clear();
    }

    /// Goes down. The epoch, `via`, the place in the random stream and `count` are kept. If the node has
    /// itself to join through, it gets another one, if it knows one.
    pub fn go_down(&mut self, bootstraps: &[u32]) {
        self.leave_own_via(bootstraps);
        if self.via == Some(self.me) {
            let mut others = self.successors.iter().copied();
            self.via = others.find(|&other| other != self.me).or(self.via);
        }
        self.forget_ring();
        self.status = Status::Down;
        self.next_finger = 2;
        self.attempt = None;
    }
}

/// The states at the start: each initial node knows the whole ring, and the others are down. A single
/// initial node is its own successor.
pub fn first_states<I: Ident>(scenario: &Scenario<I>) -> Vec<Node<I>> {
    let nodes = scenario.nodes();
    let mut nodes: Vec<Node<I>> = nodes.map(|me| Node::never_up(me, scenario)).collect();
    let is_initial = |node: &u32| scenario.initial[*node as usize];
    let initial: Vec<u32> = scenario.nodes().filter(is_initial).collect();
    let mut ring = initial.clone();
    ring.sort_unstable_by_key(|&node| scenario.ranks[node as usize]);
    for (place, &me) in ring.iter().enumerate() {
        let node = &mut nodes[me as usize];
        enter_ring(scenario, node, &ring, place);
        let mut known = scenario.bootstraps.iter().chain(&initial).copied();
        node.via = known.find(|&other| other != me).or(Some(me));
    }
    nodes
}

/// Makes a node a member of the ring at the start, in which it has this place.
fn enter_ring<I: Ident>(scenario: &Scenario<I>, node: &mut Node<I>, ring: &[u32], place: usize) {
    let from = |offset: usize| ring[(place + offset) % ring.len()];
    node.status = Status::Member;
    node.epoch = 1;
    node.predecessor = Some(from(ring.len() - 1));
    let others = scenario.list.min(ring.len() - 1).max(1);
    node.successors = (1..=others).map(from).collect();
    node.fingers.point_into(scenario, ring);
}
