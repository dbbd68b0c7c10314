//! The run: events one after the other, and the audits between them.

use std::fmt;
use std::io;

use crate::audits::Audit;
use crate::circle::Ident;
use crate::events::{Body, Event, COMMANDS, FIRST_NODE};
use crate::queue::Queue;
use crate::report::Report;
use crate::scenario::{Action, Command, Profile, Scenario};
use crate::state::{first_states, Node};
use crate::trace::Trace;
use crate::turn::Turn;

/// Why a run stopped early, or was not begun.
pub enum Failure {
    Read(io::Error),
    TooManyEvents,
    Write,
}

impl fmt::Display for Failure {
    fn fmt(&self, out: &mut fmt::Formatter) -> fmt::Result {
        match self {
            Failure::Read(error) => write!(out, "cannot read the scenario: {error}"),
            Failure::TooManyEvents => write!(out, "3 TooManyEvents"),
            Failure::Write => write!(out, "4 Write"),
        }
    }
}

/// A run of a scenario.
pub struct Simulation<'a, I> {
    scenario: &'a Scenario<I>,
    nodes: Vec<Node<I>>,
    queue: Queue<I>,
    trace: Trace,
    next_audit: Option<u64>,
}

impl<'a, I: Ident> Simulation<'a, I> {
    /// The run at its start. The trace is empty.
    pub fn new(scenario: &'a Scenario<I>, mut trace: Trace) -> Self {
        trace.report.has_losses = scenario.profile != Profile::First;
        trace.report.is_extended = scenario.profile == Profile::Extended;
        let mut simulation = Self {
            scenario,
            nodes: first_states(scenario),
            queue: Queue::new(),
            trace,
            next_audit: Some(scenario.audit_us.min(scenario.duration_us)),
        };
        simulation.queue_commands();
        simulation.arm_members();
        simulation
    }

    /// Makes the commands pending.
    fn queue_commands(&mut self) {
        for (number, command) in (1..).zip(&self.scenario.commands) {
            self.queue.push(command.at_us, number, event_of(command));
        }
    }

    /// Sets the first timers of the initial nodes, and draws their first fingers.
    fn arm_members(&mut self) {
        for node in self.nodes.iter_mut().filter(|node| node.is_member()) {
            let mut turn = Turn {
                scenario: self.scenario,
                queue: &mut self.queue,
                trace: &mut self.trace,
                node,
                time: 0,
                sent: Vec::new(),
            };
            turn.arm();
            turn.draw_first_finger();
        }
    }

    /// Runs to the end, and returns the report.
    pub fn run(mut self) -> Result<Report, Failure> {
        let result = self.take_events();
        self.write_trace()?;
        result?;
        self.trace.report.sort_times();
        Ok(self.trace.report)
    }

    /// Takes the events and makes the audits.
    fn take_events(&mut self) -> Result<(), Failure> {
        while let Some((time, event)) = self.queue.pop_before(self.scenario.duration_us) {
            self.audit_to(time);
            if self.trace.report.events == self.scenario.max_events {
                return Err(Failure::TooManyEvents);
            }
            self.trace.report.events += 1;
            self.take(time, event);
            if self.trace.is_full() {
                self.write_trace()?;
            }
        }
        self.audit_to(self.scenario.duration_us);
        Ok(())
    }

    /// The target of an event acts on it.
    fn take(&mut self, time: u64, event: Event<I>) {
        let mut turn = Turn {
            scenario: self.scenario,
            queue: &mut self.queue,
            trace: &mut self.trace,
            node: &mut self.nodes[event.target as usize],
            time,
            sent: Vec::new(),
        };
        turn.act(event.origin.wrapping_sub(FIRST_NODE), event.body);
        turn.tell();
    }

    /// Writes the lines that have been collected.
    fn write_trace(&mut self) -> Result<(), Failure> {
        self.trace.write().map_err(|_| Failure::Write)
    }

    /// Makes the audits up to a time.
    fn audit_to(&mut self, end: u64) {
        while let Some(time) = self.next_audit.filter(|&time| time <= end) {
            let audit = Audit::of(self.scenario, &self.nodes);
            self.trace.note_audit(time, &audit);
            let following = (time + self.scenario.audit_us).min(self.scenario.duration_us);
            self.next_audit = (following > time).then_some(following);
        }
    }
}

/// The event of a command.
fn event_of<I: Ident>(command: &Command<I>) -> Event<I> {
    let body = match command.action {
        Action::Join { via } => Body::CmdJoin { via },
        Action::Crash => Body::CmdCrash,
        Action::Leave => Body::CmdLeave,
        Action::Lookup { key } => Body::CmdLookup { key },
    };
    Event {
        origin: COMMANDS,
        target: command.node,
        body,
    }
}
