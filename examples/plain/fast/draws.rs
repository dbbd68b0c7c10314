//! The random numbers of a node: words of the cipher stream ChaCha8, by blocks that are made when a word of
//! them is needed. In the first two profiles a node has one stream, of its own number, and takes its words
//! one after the other. In the extended profile it has a stream for each subject, and each draw has words
//! of its own.

use crate::circle::{Circle, Ident};
use crate::scenario::Profile;
use crate::spans::{Span, Subject, MILLION};

/// Four words of the cipher, and the four rows of a block.
type Row = [u32; 4];
type Block = [Row; 4];

/// The constants that the state of the cipher begins with.
const CONSTANTS: Row = [0x6170_7865, 0x3320_646e, 0x7962_2d32, 0x6b20_6574];

/// The words of a block, and the draws of the extended profile that share one.
const BLOCK_WORDS: u64 = 16;
const BLOCK_DRAWS: u64 = 4;

/// The words of a message in the first two profiles.
const MESSAGE_WORDS: u64 = 2;

/// Where a node takes the words of its draws from: in the first two profiles from the stream of its number,
/// in which it has come to a place. The last block is kept, in the extended profile that of messages.
pub struct Draws {
    seed: u64,
    node: u32,
    has_own_words: bool,
    place: u64,
    kept: Option<u64>,
    block: Block,
}

impl Draws {
    /// The draws of a node, before its first one.
    pub fn new(profile: Profile, seed: u64, node: u32) -> Self {
        Self {
            seed,
            node,
            has_own_words: profile == Profile::Extended,
            place: 0,
            kept: None,
            block: Block::default(),
        }
    }

    /// A time of a span, for this occasion.
    pub fn time(&mut self, span: Span, subject: Subject, occasion: u64) -> u64 {
        let number = if self.has_own_words {
            let [high, low, ..] = self.own_words(subject, occasion);
            below(high, low, span.width)
        } else {
            self.word() % span.width
        };
        span.least + u64::from(number)
    }

    /// A key, from as many words as its bits need, the highest word first.
    pub fn key<I: Ident>(&mut self, circle: Circle<I>, time: u64) -> I {
        let count = circle.words();
        if self.has_own_words {
            let words = self.own_words(Subject::Key, time);
            circle.place(words.into_iter().take(count))
        } else {
            circle.place((0..count).map(|_| self.word()))
        }
    }

    /// How much later than its latency the message of this number arrives, by these chances of a loss
    /// and a spread. None if it is lost. Nothing is drawn where it would decide nothing.
    #[inline]
    pub fn delay(&mut self, number: u64, loss_ppm: u32, spread_us: u32) -> Option<u64> {
        if loss_ppm == 0 && spread_us == 0 {
            self.place += MESSAGE_WORDS;
            return Some(0);
        }
        let (chance, spread) = self.message(number, spread_us + 1);
        (chance >= loss_ppm).then_some(u64::from(spread))
    }

    /// Two numbers for the message of this number: one below a million, and one below the limit.
    fn message(&mut self, number: u64, limit: u32) -> (u32, u32) {
        if !self.has_own_words {
            return (self.word() % MILLION, self.word() % limit);
        }
        self.keep(Subject::Message as u64, number / BLOCK_DRAWS);
        let [a, b, c, d] = self.block[(number % BLOCK_DRAWS) as usize];
        (below(a, b, MILLION), below(c, d, limit))
    }

    /// The next word of the node's stream.
    fn word(&mut self) -> u32 {
        let place = self.place;
        self.place += 1;
        self.keep(0, place / BLOCK_WORDS);
        let in_block = (place % BLOCK_WORDS) as usize;
        self.block[in_block / 4][in_block % 4]
    }

    /// The words of a draw that is of no message.
    fn own_words(&self, subject: Subject, occasion: u64) -> Row {
        let block = self.made_block(subject as u64, occasion / BLOCK_DRAWS);
        block[(occasion % BLOCK_DRAWS) as usize]
    }

    /// Keeps a block of one of the node's streams.
    #[inline]
    fn keep(&mut self, stream: u64, counter: u64) {
        if self.kept != Some(counter) {
            self.kept = Some(counter);
            self.block = self.made_block(stream, counter);
        }
    }

    /// A block of one of the node's streams.
    #[inline(never)]
    fn made_block(&self, stream: u64, counter: u64) -> Block {
        let (seed, node) = (self.seed, self.node);
        let key = [seed as u32, (seed >> 32) as u32, 0, 0];
        let place = [counter as u32, (counter >> 32) as u32, node, stream as u32];
        let first = [CONSTANTS, key, Row::default(), place];
        let mut block = first;
        for _ in 0..4 {
            block = double_round(block);
        }
        for (row, start) in block.iter_mut().zip(first) {
            *row = sum(*row, start);
        }
        block
    }
}

/// The part of a limit that two words are of 2^64, rounded down.
fn below(high: u32, low: u32, limit: u32) -> u32 {
    let number = u64::from(high) << u32::BITS | u64::from(low);
    ((u128::from(number) * u128::from(limit)) >> u64::BITS) as u32
}

/// A round over the columns of the state, and one over its diagonals.
#[inline]
fn double_round(block: Block) -> Block {
    let [a, b, c, d] = round(block);
    let turned = round([a, turn(b, 1), turn(c, 2), turn(d, 3)]);
    let [a, b, c, d] = turned;
    [a, turn(b, 3), turn(c, 2), turn(d, 1)]
}

/// The quarter rounds of the four columns.
#[inline]
fn round([mut a, mut b, mut c, mut d]: Block) -> Block {
    a = sum(a, b);
    d = rotated(d, a, 16);
    c = sum(c, d);
    b = rotated(b, c, 12);
    a = sum(a, b);
    d = rotated(d, a, 8);
    c = sum(c, d);
    b = rotated(b, c, 7);
    [a, b, c, d]
}

/// The sums of the words of two rows.
#[inline]
fn sum(one: Row, other: Row) -> Row {
    std::array::from_fn(|at| one[at].wrapping_add(other[at]))
}

/// The words of two rows, each pair joined by exclusive or and rotated.
#[inline]
fn rotated(one: Row, other: Row, bits: u32) -> Row {
    std::array::from_fn(|at| (one[at] ^ other[at]).rotate_left(bits))
}

/// The words of a row, turned to the left by some places.
#[inline]
fn turn(row: Row, places: usize) -> Row {
    std::array::from_fn(|at| row[(at + places) % 4])
}
