//! The circle of identifiers and keys.

use std::ops::{BitAnd, Shl, Shr};
use std::str::FromStr;

/// An identifier or a key: a whole number below 2 to the power of the scenario's bits. What it is made
/// of may have more bits.
pub trait Ident:
    Copy
    + Ord
    + FromStr
    + Into<u128>
    + BitAnd<Output = Self>
    + Shl<u32, Output = Self>
    + Shr<u32, Output = Self>
{
    /// The numbers 0 and 1.
    const ZERO: Self;
    const ONE: Self;

    /// The number with all its bits set, and how many these are.
    const ALL: Self;
    const WIDTH: u32;

    /// The sum with another number, modulo 2 to the power of the width.
    fn plus(self, other: Self) -> Self;

    /// The difference to another number, modulo 2 to the power of the width.
    fn minus(self, other: Self) -> Self;

    /// The number with the bits of a word.
    fn of_word(word: u32) -> Self;

    /// The bits of the number, without zeros before it.
    fn length(self) -> u32;
}

/// Identifiers of this type.
macro_rules! identifiers {
    ($number:ty) => {
        impl Ident for $number {
            const ZERO: Self = 0;
            const ONE: Self = 1;
            const ALL: Self = Self::MAX;
            const WIDTH: u32 = Self::BITS;

            fn plus(self, other: Self) -> Self {
                self.wrapping_add(other)
            }

            fn minus(self, other: Self) -> Self {
                self.wrapping_sub(other)
            }

            fn of_word(word: u32) -> Self {
                Self::from(word)
            }

            fn length(self) -> u32 {
                Self::BITS - self.leading_zeros()
            }
        }
    };
}

identifiers!(u64);
identifiers!(u128);

/// A circle of 2 to the power of `bits` places.
#[derive(Clone, Copy)]
pub struct Circle<I> {
    bits: u32,
    mask: I,
}

impl<I: Ident> Circle<I> {
    /// The circle of identifiers of 3 bits or more.
    pub fn new(bits: u32) -> Self {
        let mask = I::ALL >> (I::WIDTH - bits);
        Self { bits, mask }
    }

    /// The bits of an identifier, which are also the number of a node's last finger.
    pub fn bits(self) -> u32 {
        self.bits
    }

    /// How far it is clockwise from one place to another.
    pub fn distance(self, from: I, to: I) -> I {
        to.minus(from) & self.mask
    }

    /// The start of a finger of the node at this place. Fingers are numbered from 1.
    pub fn finger_start(self, place: I, finger: u32) -> I {
        place.plus(I::ONE << (finger - 1)) & self.mask
    }

    /// The place that as many words name as its bits need, the highest word first.
    pub fn place(self, words: impl IntoIterator<Item = u32>) -> I {
        let join = |high: I, word| (high << u32::BITS).plus(I::of_word(word));
        words.into_iter().fold(I::ZERO, join) & self.mask
    }

    /// How many words the bits of a place need.
    pub fn words(self) -> usize {
        self.bits.div_ceil(u32::BITS) as usize
    }
}

/// Whether `x` lies on the way clockwise from `a` to `b` and is neither of them. If `a` and `b` are
/// the same place, the way is the whole circle.
pub fn between<I: Ident>(a: I, x: I, b: I) -> bool {
    if x == a || x == b {
        false
    } else if a < b {
        a < x && x < b
    } else {
        x > a || x < b
    }
}

/// Whether `x` is `b` or lies between `a` and `b`.
pub fn in_half_open<I: Ident>(a: I, x: I, b: I) -> bool {
    x == b || between(a, x, b)
}
