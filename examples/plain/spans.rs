//! Spans of times, and what is drawn.

/// The chances of a loss and of a leave are given in parts of this.
pub const MILLION: u32 = 1_000_000;

/// A span of times, from which one is drawn.
#[derive(Clone, Copy)]
pub struct Span {
    pub least: u64,
    pub width: u32,
}

impl Span {
    /// The times from the least to the greatest one.
    pub fn new(least: u64, greatest: u64) -> Self {
        let width = (greatest - least + 1) as u32;
        Self { least, width }
    }

    /// The times from 1 to the greatest one of the span.
    pub fn starting_at_one(self) -> Self {
        Self::new(1, self.least + u64::from(self.width) - 1)
    }

    /// The numbers below a million.
    pub fn of_chances() -> Self {
        Self::new(0, u64::from(MILLION) - 1)
    }
}

/// What is drawn. In the extended profile this number is the upper half of the stream's number.
#[derive(Clone, Copy, PartialEq)]
pub enum Subject {
    StabilizeTick = 1,
    FingerTick = 2,
    TrafficTick = 3,
    LifeEnd = 4,
    Rise = 5,
    Key = 6,
    Message = 7,
    CheckTick = 8,
    FirstFinger = 9,
    Leave = 10,
}
