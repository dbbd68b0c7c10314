//! The random numbers of a node: words of the cipher stream ChaCha8. In the first two profiles a node
//! has one stream, of its own number, and takes its words one after the other. In the third it has a
//! stream for each subject, and each draw has words of its own.

use crate::circle::{Circle, Ident};
use crate::scenario::Profile;
use crate::spans::{Span, Subject, MILLION};

/// The 32-bit words of a block of the cipher.
const BLOCK_WORDS: usize = 16;

/// The words of a draw of the extended profile, and how many draws share a block.
const OWN_WORDS: usize = 4;
const BLOCK_DRAWS: u64 = (BLOCK_WORDS / OWN_WORDS) as u64;

/// The constants that the state of the cipher begins with.
const CONSTANTS: [u32; 4] = [0x6170_7865, 0x3320_646e, 0x7962_2d32, 0x6b20_6574];

/// Where a node takes the words of its draws from.
pub enum Draws {
    Stream(Stream),
    OwnWords(OwnWords),
}

impl Draws {
    /// The draws of a node, before its first one.
    pub fn new(profile: Profile, seed: u64, node: u32) -> Self {
        if profile == Profile::Extended {
            Self::OwnWords(OwnWords::new(seed, node))
        } else {
            Self::Stream(Stream::new(seed, node))
        }
    }

    /// A time of a span, for this occasion.
    pub fn time(&mut self, span: Span, subject: Subject, occasion: u64) -> u64 {
        let number = match self {
            Self::Stream(stream) => stream.below(span.width),
            Self::OwnWords(own) => {
                let [high, low, ..] = own.words(subject, occasion);
                below(high, low, span.width)
            }
        };
        span.least + u64::from(number)
    }

    /// A key, from as many words as its bits need, the highest word first.
    pub fn key<I: Ident>(&mut self, circle: Circle<I>, time: u64) -> I {
        let count = circle.words();
        match self {
            Self::Stream(stream) => circle.place((0..count).map(|_| stream.word())),
            Self::OwnWords(own) => {
                let words = own.words(Subject::Key, time);
                circle.place(words.into_iter().take(count))
            }
        }
    }

    /// How much later than its latency the message of this number arrives, by these chances of a loss
    /// and a spread. None if it is lost.
    pub fn delay(&mut self, number: u64, loss_ppm: u32, spread_us: u32) -> Option<u64> {
        let (chance, spread) = self.message(number, spread_us + 1);
        (chance >= loss_ppm).then_some(u64::from(spread))
    }

    /// Two numbers for the message of this number: one below a million, and one below the limit.
    fn message(&mut self, number: u64, limit: u32) -> (u32, u32) {
        match self {
            Self::Stream(stream) => (stream.below(MILLION), stream.below(limit)),
            Self::OwnWords(own) => {
                let [a, b, c, d] = own.words(Subject::Message, number);
                (below(a, b, MILLION), below(c, d, limit))
            }
        }
    }
}

/// A node's stream, and the place of its next word. The block of that word is kept.
pub struct Stream {
    seed: u64,
    node: u32,
    place: u64,
    block: [u32; BLOCK_WORDS],
}

impl Stream {
    /// The stream of a node, at its first word.
    fn new(seed: u64, node: u32) -> Self {
        Self {
            seed,
            node,
            place: 0,
            block: [0; BLOCK_WORDS],
        }
    }

    /// The next word.
    fn word(&mut self) -> u32 {
        let in_block = self.place as usize % BLOCK_WORDS;
        if in_block == 0 {
            let counter = self.place / BLOCK_WORDS as u64;
            self.block = block(self.seed, u64::from(self.node), counter);
        }
        self.place += 1;
        self.block[in_block]
    }

    /// A number below another one.
    fn below(&mut self, limit: u32) -> u32 {
        self.word() % limit
    }
}

/// A node's streams of the extended profile. The last block of the messages is kept, since the next
/// messages are mostly in it too.
pub struct OwnWords {
    seed: u64,
    node: u32,
    kept: u64,
    block: [u32; BLOCK_WORDS],
}

impl OwnWords {
    /// The streams of a node.
    fn new(seed: u64, node: u32) -> Self {
        let mut own = Self {
            seed,
            node,
            kept: 0,
            block: [0; BLOCK_WORDS],
        };
        own.block = own.block_of(Subject::Message, 0);
        own
    }

    /// A block of the stream of a subject.
    fn block_of(&self, subject: Subject, counter: u64) -> [u32; BLOCK_WORDS] {
        let stream = (subject as u64) << u32::BITS | u64::from(self.node);
        block(self.seed, stream, counter)
    }

    /// The words of a draw.
    fn words(&mut self, subject: Subject, occasion: u64) -> [u32; OWN_WORDS] {
        let counter = occasion / BLOCK_DRAWS;
        if subject != Subject::Message {
            return words_in(&self.block_of(subject, counter), occasion);
        }
        if counter != self.kept {
            self.kept = counter;
            self.block = self.block_of(subject, counter);
        }
        words_in(&self.block, occasion)
    }
}

/// The words of a draw in its block.
fn words_in(block: &[u32; BLOCK_WORDS], occasion: u64) -> [u32; OWN_WORDS] {
    let first = (occasion % BLOCK_DRAWS) as usize * OWN_WORDS;
    std::array::from_fn(|index| block[first + index])
}

/// The part of a limit that two words are of 2^64, rounded down.
fn below(high: u32, low: u32, limit: u32) -> u32 {
    let number = u64::from(high) << u32::BITS | u64::from(low);
    ((u128::from(number) * u128::from(limit)) >> u64::BITS) as u32
}

/// A block of a stream.
fn block(seed: u64, stream: u64, counter: u64) -> [u32; BLOCK_WORDS] {
    let mut first = [0; BLOCK_WORDS];
    first[..4].copy_from_slice(&CONSTANTS);
    first[4] = seed as u32;
    first[5] = (seed >> 32) as u32;
    first[12] = counter as u32;
    first[13] = (counter >> 32) as u32;
    first[14] = stream as u32;
    first[15] = (stream >> 32) as u32;
    let mut state = first;
    for _ in 0..4 {
        double_round(&mut state);
    }
    for (word, start) in state.iter_mut().zip(first) {
        *word = word.wrapping_add(start);
    }
    state
}

/// A round over the columns of the state, and one over its diagonals.
fn double_round(state: &mut [u32; BLOCK_WORDS]) {
    quarter_round(state, 0, 4, 8, 12);
    quarter_round(state, 1, 5, 9, 13);
    quarter_round(state, 2, 6, 10, 14);
    quarter_round(state, 3, 7, 11, 15);
    quarter_round(state, 0, 5, 10, 15);
    quarter_round(state, 1, 6, 11, 12);
    quarter_round(state, 2, 7, 8, 13);
    quarter_round(state, 3, 4, 9, 14);
}

/// The quarter round of ChaCha on four words of the state.
fn quarter_round(state: &mut [u32; BLOCK_WORDS], a: usize, b: usize, c: usize, d: usize) {
    state[a] = state[a].wrapping_add(state[b]);
    state[d] = (state[d] ^ state[a]).rotate_left(16);
    state[c] = state[c].wrapping_add(state[d]);
    state[b] = (state[b] ^ state[c]).rotate_left(12);
    state[a] = state[a].wrapping_add(state[b]);
    state[d] = (state[d] ^ state[a]).rotate_left(8);
    state[c] = state[c].wrapping_add(state[d]);
    state[b] = (state[b] ^ state[c]).rotate_left(7);
}
