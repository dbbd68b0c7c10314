//! The trace, and the file that it is written to. Lines are put into one buffer, piece by piece.

use std::fs::File;
use std::io::{self, Write as _};

use crate::audits::Audit;
use crate::lines::Line;
use crate::report::Report;

/// As many bytes of text are collected before they are written to the file.
const TEXT_BYTES: usize = 1 << 16;

/// The digits of the greatest number, and a number with one more digit than is written at once.
const MOST_DIGITS: usize = 39;
const PART: u128 = 10_u128.pow(19);

/// The two digits of each number below 100.
const PAIRS: [[u8; 2]; 100] = pairs();

/// The trace file, the lines that have not been written to it yet, and the report of all lines.
pub struct Trace {
    file: File,
    text: Text,
    pub report: Report,
}

impl Trace {
    /// An empty trace.
    pub fn create(name: &str) -> io::Result<Self> {
        Ok(Self {
            file: File::create(name)?,
            text: Text(Vec::with_capacity(2 * TEXT_BYTES)),
            report: Report::default(),
        })
    }

    /// Adds a line of an event.
    pub fn note(&mut self, time: u64, name: &str, line: &Line) {
        self.report.count(line);
        self.text.number("", time);
        self.text.words(&[" ", name, " "]);
        self.text.line(line);
        self.text.words(&["\n"]);
    }

    /// Adds the line of an audit.
    pub fn note_audit(&mut self, time: u64, audit: &Audit) {
        self.report.count_audit(audit);
        writeln!(self.text.0, "{time} audit {audit}").expect("a list takes all text");
    }

    /// Whether much text has been collected.
    pub fn is_full(&self) -> bool {
        self.text.0.len() > TEXT_BYTES
    }

    /// Writes the text to the file.
    pub fn write(&mut self) -> io::Result<()> {
        self.file.write_all(&self.text.0)?;
        self.text.0.clear();
        Ok(())
    }
}

/// Text of lines.
struct Text(Vec<u8>);

impl Text {
    /// Adds a line, without its time, the name of its node and its end.
    fn line(&mut self, line: &Line) {
        match *line {
            Line::Join { via } => self.words(&["join ", via]),
            Line::Member { predecessor } => self.words(&["member ", predecessor]),
            Line::JoinFailed => self.words(&["join-failed"]),
            Line::Create => self.words(&["create"]),
            Line::Crash => self.words(&["crash"]),
            Line::Leave => self.words(&["leave"]),
            Line::Stranded { via } => self.words(&["stranded ", via]),
            Line::Drop { kind, sender } => self.words(&["drop ", kind.name(), " ", sender]),
            Line::Late { kind, sender } => self.words(&["late ", kind.name(), " ", sender]),
            Line::Timeout { asked } => self.words(&["timeout ", asked]),
            Line::Lose { kind, receiver } => self.words(&["lose ", kind.name(), " ", receiver]),
            Line::Again { kind, asked } => self.words(&["again ", kind.name(), " ", asked]),
            Line::Forget { predecessor } => self.words(&["forget ", predecessor]),
            Line::Rescue { successor } => self.words(&["rescue ", successor]),
            Line::Ask {
                kind,
                asked,
                call,
                lookup,
            } => {
                self.words(&["ask ", kind.name(), " ", asked]);
                self.number(" call=", call);
                if let Some((key, started)) = lookup {
                    self.wide_number(" key=", key);
                    self.number(" since=", started);
                }
            }
            Line::Send { kind, receiver } => self.words(&["send ", kind.name(), " ", receiver]),
            Line::Lookup { key } => self.wide_number("lookup ", key),
            Line::Found {
                key,
                owner,
                hops,
                timeouts,
                us,
            } => {
                self.wide_number("found ", key);
                self.words(&[" ", owner]);
                self.end(hops, timeouts, us);
            }
            Line::Lost {
                key,
                hops,
                timeouts,
                us,
            } => {
                self.wide_number("lost ", key);
                self.end(hops, timeouts, us);
            }
            Line::Busy { key } => self.wide_number("busy ", key),
            Line::Ignored { command } => self.words(&["ignored ", command]),
        }
    }

    /// Adds what a lookup took.
    fn end(&mut self, hops: u32, timeouts: u32, us: u64) {
        self.number(" hops=", u64::from(hops));
        self.number(" timeouts=", u64::from(timeouts));
        self.number(" us=", us);
    }

    /// Adds words.
    #[inline]
    fn words(&mut self, words: &[&str]) {
        for word in words {
            self.0.extend_from_slice(word.as_bytes());
        }
    }

    /// Adds a word, and a number of up to 128 bits.
    fn wide_number(&mut self, word: &str, number: u128) {
        if let Ok(low) = u64::try_from(number) {
            return self.number(word, low);
        }
        let mut digits = [b'0'; MOST_DIGITS];
        let mut rest = number;
        let mut end = MOST_DIGITS;
        let mut begin = end;
        while rest > 0 {
            begin = put_digits(&mut digits[..end], (rest % PART) as u64);
            rest /= PART;
            end = end.saturating_sub(19);
        }
        self.words(&[word]);
        self.0.extend_from_slice(&digits[begin..]);
    }

    /// Adds a word and a number.
    fn number(&mut self, word: &str, number: u64) {
        let mut digits = [b'0'; 20];
        let begin = put_digits(&mut digits, number);
        self.words(&[word]);
        self.0.extend_from_slice(&digits[begin..]);
    }
}

/// Puts the digits of a number at the end of a text. Returns where they begin.
fn put_digits(text: &mut [u8], number: u64) -> usize {
    let mut rest = number;
    let mut begin = text.len();
    while rest >= 100 {
        begin -= 2;
        text[begin..begin + 2].copy_from_slice(&PAIRS[(rest % 100) as usize]);
        rest /= 100;
    }
    let [tens, ones] = PAIRS[rest as usize];
    begin -= 1;
    text[begin] = ones;
    if rest >= 10 {
        begin -= 1;
        text[begin] = tens;
    }
    begin
}

/// Those digits.
const fn pairs() -> [[u8; 2]; 100] {
    let mut pairs = [[0; 2]; 100];
    let mut number = 0;
    while number < 100 {
        pairs[number] = [b'0' + (number / 10) as u8, b'0' + (number % 10) as u8];
        number += 1;
    }
    pairs
}
