//! The trace, and the file that it is written to.

use std::fmt::Write as _;
use std::fs::File;
use std::io::{self, Write as _};

use crate::audits::Audit;
use crate::lines::Line;
use crate::report::Report;

/// As many bytes of text are collected before they are written to the file.
const TEXT_BYTES: usize = 1 << 16;

/// The trace file, the lines that have not been written to it yet, and the report of all lines.
pub struct Trace {
    file: File,
    text: String,
    pub report: Report,
}

impl Trace {
    /// An empty trace.
    pub fn create(name: &str) -> io::Result<Self> {
        Ok(Self {
            file: File::create(name)?,
            text: String::with_capacity(2 * TEXT_BYTES),
            report: Report::default(),
        })
    }

    /// Adds a line of an event.
    pub fn note(&mut self, time: u64, name: &str, line: &Line) {
        self.report.count(line);
        writeln!(self.text, "{time} {name} {line}").expect("a string takes all text");
    }

    /// Adds the line of an audit.
    pub fn note_audit(&mut self, time: u64, audit: &Audit) {
        self.report.count_audit(audit);
        writeln!(self.text, "{time} audit {audit}").expect("a string takes all text");
    }

    /// Whether much text has been collected.
    pub fn is_full(&self) -> bool {
        self.text.len() > TEXT_BYTES
    }

    /// Writes the text to the file.
    pub fn write(&mut self) -> io::Result<()> {
        self.file.write_all(self.text.as_bytes())?;
        self.text.clear();
        Ok(())
    }
}
