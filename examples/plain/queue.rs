//! The pending events: their keys in a heap, and the events in slots that are used again.

use std::cmp::Reverse;
use std::collections::BinaryHeap;

use crate::events::Event;

/// The key of a pending event, and the slot of the event. Entries are compared by their keys.
#[derive(PartialEq, Eq, PartialOrd, Ord)]
struct Entry {
    time: u64,
    origin: u32,
    number: u64,
    slot: u32,
}

/// The pending events.
pub struct Queue<I> {
    entries: BinaryHeap<Reverse<Entry>>,
    slots: Vec<Option<Event<I>>>,
    free: Vec<u32>,
}

impl<I> Queue<I> {
    /// No pending events.
    pub fn new() -> Self {
        Self {
            entries: BinaryHeap::new(),
            slots: Vec::new(),
            free: Vec::new(),
        }
    }

    /// Adds an event with this time and number.
    pub fn push(&mut self, time: u64, number: u64, event: Event<I>) {
        let origin = event.origin;
        let slot = self.store(event);
        self.entries.push(Reverse(Entry {
            time,
            origin,
            number,
            slot,
        }));
    }

    /// Puts an event into a free slot, and returns its number.
    fn store(&mut self, event: Event<I>) -> u32 {
        match self.free.pop() {
            Some(slot) => {
                self.slots[slot as usize] = Some(event);
                slot
            }
            None => {
                self.slots.push(Some(event));
                self.slots.len() as u32 - 1
            }
        }
    }

    /// Takes out the event with the least key, if its time is below the end. Returns its time too.
    pub fn pop_before(&mut self, end: u64) -> Option<(u64, Event<I>)> {
        if self.entries.peek()?.0.time >= end {
            return None;
        }
        let Entry { time, slot, .. } = self.entries.pop()?.0;
        self.free.push(slot);
        let event = self.slots[slot as usize].take()?;
        Some((time, event))
    }
}
