//! The scenario, as it is read from the flat form that `flatten` writes.

use std::collections::HashMap;
use std::str::{FromStr, SplitAsciiWhitespace};

use crate::circle::{Circle, Ident};
use crate::spans::Span;

/// Latencies are in a table of all pairs for at most this many nodes.
const MOST_IN_TABLE: usize = 4096;

/// Which of the three sets of rules a scenario follows.
#[derive(Clone, Copy, PartialEq)]
pub enum Profile {
    /// A message arrives after the latency.
    First,
    /// A message between different nodes may be lost, or arrive later by a part of the spread.
    Second,
    /// So it may here. A request may be sent again, a node may pause between attempts to join and check
    /// its predecessor, lines may tell of each message, and each draw has words of its own.
    Extended,
}

/// The rules of Chord as published, each of which may be off. In the first two profiles all are, and
/// a lookup leaves out at most 8 nodes.
pub struct Ways {
    pub list_routes: bool,
    pub goes_on: bool,
    pub ask_owner: bool,
    pub lookup_timeouts: usize,
    pub drop_silent: bool,
    pub skip_near: bool,
    pub random_start: bool,
    pub clean_lists: bool,
    pub join_asks: bool,
    pub create_alone: bool,
}

/// How long a churn node is up, and then down. Of a million of its lives `leave_ppm` end with a leave.
pub struct Churn {
    pub life: Span,
    pub down: Span,
    pub leave_ppm: u64,
}

/// What a command does to its node.
pub enum Action<I> {
    Join { via: u32 },
    Crash,
    Leave,
    Lookup { key: I },
}

/// A command, its time and its node.
pub struct Command<I> {
    pub at_us: u64,
    pub node: u32,
    pub action: Action<I>,
}

/// All that a scenario and its latency file say. Nodes are numbered from 0. The rank of a node is
/// its place in the order of the identifiers. `bootstraps` has the nodes that others try in turn to
/// join through.
pub struct Scenario<I> {
    pub profile: Profile,
    pub loss_ppm: u32,
    pub spread_us: u32,
    pub retries: u32,
    pub join_pause_us: u64,
    pub joins_forever: bool,
    pub has_detail: bool,
    pub ways: Ways,
    pub circle: Circle<I>,
    pub list: usize,
    pub seed: u64,
    pub duration_us: u64,
    pub timeout_us: u64,
    pub audit_us: u64,
    pub stabilize: Span,
    pub finger: Span,
    pub check: Option<Span>,
    pub max_events: u64,
    pub churn: Option<Churn>,
    pub lookup_gap: Option<Span>,
    pub names: Vec<String>,
    pub idents: Vec<I>,
    pub initial: Vec<bool>,
    pub churns: Vec<bool>,
    pub bootstraps: Vec<u32>,
    pub ranks: Vec<u32>,
    pub latencies: Latencies,
    pub commands: Vec<Command<I>>,
}

impl<I: Ident> Scenario<I> {
    /// Reads a scenario. Panics if the text is not one that `flatten` writes.
    pub fn read(text: &str) -> Self {
        let mut words = Words(text.split_ascii_whitespace());
        let profile = words.profile();
        let (loss_ppm, spread_us, retries) = (words.next(), words.next(), words.next());
        let (join_pause_us, joins_forever) = (words.next(), words.flag());
        let check_us: u64 = words.next();
        let has_detail = words.flag();
        let ways = words.ways();
        let jitters: [u64; 3] = [words.next(), words.next(), words.next()];
        let circle = Circle::new(words.next());
        let (list, seed) = (words.next(), words.next());
        let (duration_us, timeout_us, audit_us) = (words.next(), words.next(), words.next());
        let (stabilize_us, finger_us): (u64, u64) = (words.next(), words.next());
        let max_events = words.next();
        let latency_us = words.next();
        let churn = words.churn();
        let lookup_gap = words.flag().then(|| words.span());
        let nodes = words.nodes();
        let latencies = words.latencies(nodes.len(), latency_us);
        let commands = words.commands();
        let idents: Vec<I> = nodes.iter().map(|node| node.ident).collect();
        Self {
            profile,
            loss_ppm,
            spread_us,
            retries,
            join_pause_us,
            joins_forever,
            has_detail,
            ways,
            circle,
            list,
            seed,
            duration_us,
            timeout_us,
            audit_us,
            stabilize: Span::new(stabilize_us, stabilize_us + jitters[0]),
            finger: Span::new(finger_us, finger_us + jitters[1]),
            check: (check_us > 0).then(|| Span::new(check_us, check_us + jitters[2])),
            max_events,
            churn,
            lookup_gap,
            initial: nodes.iter().map(|node| node.is_initial).collect(),
            churns: nodes.iter().map(|node| node.churns).collect(),
            bootstraps: bootstraps_of(&nodes),
            names: nodes.into_iter().map(|node| node.name).collect(),
            ranks: ranks_of(&idents),
            idents,
            latencies,
            commands,
        }
    }

    /// The identifier of a node.
    pub fn ident(&self, node: u32) -> I {
        self.idents[node as usize]
    }

    /// The name of a node.
    pub fn name(&self, node: u32) -> &str {
        &self.names[node as usize]
    }

    /// The numbers of all nodes, in the order of the file.
    pub fn nodes(&self) -> impl Iterator<Item = u32> {
        0..self.names.len() as u32
    }
}

/// The numbers of the bootstrap nodes, in the order of the file.
fn bootstraps_of<I>(nodes: &[NodeRow<I>]) -> Vec<u32> {
    let rows = (0..).zip(nodes).filter(|(_, row)| row.is_bootstrap);
    rows.map(|(node, _)| node).collect()
}

/// The rank of each node.
fn ranks_of<I: Ident>(idents: &[I]) -> Vec<u32> {
    let mut ordered: Vec<usize> = (0..idents.len()).collect();
    ordered.sort_unstable_by_key(|&node| idents[node]);
    let mut ranks = vec![0; idents.len()];
    for (rank, node) in ordered.into_iter().enumerate() {
        ranks[node] = rank as u32;
    }
    ranks
}

/// The latency of each pair of nodes, in microseconds.
pub enum Latencies {
    /// The same for all pairs.
    Same(u32),
    /// That of each pair, if rows of the latency file make them differ.
    Table { nodes: usize, table: Vec<u32> },
    /// That of the pairs of rows, and the same for the others, if a table would be too large.
    Rows {
        same: u32,
        rows: HashMap<(u32, u32), u32>,
    },
    /// By the coordinates of the nodes.
    Places(Vec<Place>),
}

impl Latencies {
    /// The latencies of so many nodes that these rows say, and the same one for all other pairs.
    fn of_rows(nodes: usize, same: u32, rows: HashMap<(u32, u32), u32>) -> Self {
        if rows.is_empty() {
            return Self::Same(same);
        }
        if nodes > MOST_IN_TABLE {
            return Self::Rows { same, rows };
        }
        let mut table = vec![same; nodes * nodes];
        for ((from, to), latency_us) in rows {
            table[from as usize * nodes + to as usize] = latency_us;
        }
        Self::Table { nodes, table }
    }

    /// The latency of two different nodes.
    pub fn of(&self, from: u32, to: u32) -> u64 {
        match self {
            Self::Same(same) => u64::from(*same),
            Self::Table { nodes, table } => u64::from(table[from as usize * nodes + to as usize]),
            Self::Rows { same, rows } => u64::from(*rows.get(&(from, to)).unwrap_or(same)),
            Self::Places(places) => places[from as usize].latency_to(&places[to as usize]),
        }
    }
}

/// The coordinates of a node: its place in the plane, and its height above it.
pub struct Place {
    x_us: u64,
    y_us: u64,
    height_us: u64,
}

impl Place {
    /// The latency to another node: the heights of both, and the distance in the plane, rounded down.
    fn latency_to(&self, other: &Self) -> u64 {
        let (x, y) = (
            self.x_us.abs_diff(other.x_us),
            self.y_us.abs_diff(other.y_us),
        );
        self.height_us + other.height_us + (x * x + y * y).isqrt()
    }
}

/// A node of the flat form.
struct NodeRow<I> {
    name: String,
    ident: I,
    is_initial: bool,
    churns: bool,
    is_bootstrap: bool,
}

/// The words of the flat form that have not been read.
struct Words<'a>(SplitAsciiWhitespace<'a>);

impl<'a> Words<'a> {
    /// The next word.
    fn word(&mut self) -> &'a str {
        self.0.next().expect("the flat form ends early")
    }

    /// The value of the next word.
    fn next<T: FromStr>(&mut self) -> T {
        let word = self.word();
        word.parse()
            .unwrap_or_else(|_| panic!("a word of the flat form is wrong: {word}"))
    }

    /// Whether the next word is 1. Otherwise it is 0.
    fn flag(&mut self) -> bool {
        self.word() == "1"
    }

    /// A span of times.
    fn span(&mut self) -> Span {
        Span::new(self.next(), self.next())
    }

    /// The profile.
    fn profile(&mut self) -> Profile {
        match self.word() {
            "1" => Profile::First,
            "2" => Profile::Second,
            _ => Profile::Extended,
        }
    }

    /// The rules of Chord as published.
    fn ways(&mut self) -> Ways {
        Ways {
            list_routes: self.flag(),
            goes_on: self.flag(),
            ask_owner: self.flag(),
            lookup_timeouts: self.next(),
            drop_silent: self.flag(),
            skip_near: self.flag(),
            random_start: self.flag(),
            clean_lists: self.flag(),
            join_asks: self.flag(),
            create_alone: self.flag(),
        }
    }

    /// The times of churn nodes, if there are any.
    fn churn(&mut self) -> Option<Churn> {
        self.flag().then(|| Churn {
            life: self.span(),
            down: self.span(),
            leave_ppm: self.next(),
        })
    }

    /// The nodes, after their number.
    fn nodes<I: Ident>(&mut self) -> Vec<NodeRow<I>> {
        let count: usize = self.next();
        let row = |_| NodeRow {
            name: self.next(),
            ident: self.next(),
            is_initial: self.flag(),
            churns: self.flag(),
            is_bootstrap: self.flag(),
        };
        (0..count).map(row).collect()
    }

    /// The latencies of the nodes: the rows, after their number, and the coordinates, if there are any.
    fn latencies(&mut self, nodes: usize, same: u32) -> Latencies {
        let rows = self.rows();
        if self.flag() {
            return Latencies::Places((0..nodes).map(|_| self.place()).collect());
        }
        Latencies::of_rows(nodes, same, rows)
    }

    /// The latency of each pair of the rows, in both directions.
    fn rows(&mut self) -> HashMap<(u32, u32), u32> {
        let count: usize = self.next();
        let mut rows = HashMap::with_capacity(2 * count);
        for _ in 0..count {
            let (a, b, latency_us) = (self.next(), self.next(), self.next());
            rows.insert((a, b), latency_us);
            rows.insert((b, a), latency_us);
        }
        rows
    }

    /// The coordinates of a node.
    fn place(&mut self) -> Place {
        Place {
            x_us: self.next(),
            y_us: self.next(),
            height_us: self.next(),
        }
    }

    /// The commands, after their number.
    fn commands<I: Ident>(&mut self) -> Vec<Command<I>> {
        let count: usize = self.next();
        (0..count).map(|_| self.command()).collect()
    }

    /// A command.
    fn command<I: Ident>(&mut self) -> Command<I> {
        let (at_us, node) = (self.next(), self.next());
        let action = match self.word() {
            "join" => Action::Join { via: self.next() },
            "crash" => Action::Crash,
            "leave" => Action::Leave,
            _ => Action::Lookup { key: self.next() },
        };
        Command {
            at_us,
            node,
            action,
        }
    }
}
