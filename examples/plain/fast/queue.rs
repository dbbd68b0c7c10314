//! The pending events. Timeouts, and messages of one latency, are made in the order in which they come, so
//! they wait in two lines. The others are in slots that are used again, and their places in a calendar of days
//! or in a heap.

use std::cmp::Reverse;
use std::collections::{BinaryHeap, VecDeque};
use std::mem;

use crate::events::{Body, Event, FIRST_NODE};

/// A day has 2 to the power of this many microseconds.
const DAY_BITS: u32 = 10;

/// How many days have a list.
const DAYS: u64 = 1024;

/// The most room that a list keeps when it is emptied.
const KEPT: usize = 256;

/// The bits of an origin, of which there are fewer than 2 to the power of 17.
const ORIGIN_BITS: u32 = 22;

/// Later than all events.
const NEVER: u64 = u64::MAX;

/// Where an event is pending: in one of the two lines, in the calendar, or in the heap.
#[derive(Clone, Copy)]
enum Source {
    Timeouts,
    Messages,
    Calendar,
    Heap,
}

/// All of them, in the order of `Queue::times`.
const SOURCES: [Source; 4] = [
    Source::Timeouts,
    Source::Messages,
    Source::Calendar,
    Source::Heap,
];

/// A timeout: the key of its event, and the number of its call.
struct Timeout {
    time: u64,
    origin: u32,
    number: u64,
    call: u64,
}

/// A message that waits in line: the time and the number of its event, and the event.
struct Message<I> {
    time: u64,
    number: u64,
    event: Event<I>,
}

/// A pending event of a day: its microsecond of the day and its origin in one number, and its slot.
#[derive(Clone, Copy)]
struct Waiting {
    order: u32,
    slot: u32,
}

/// An event of the heap: its key and its slot. Entries are compared by their keys.
#[derive(PartialEq, Eq, PartialOrd, Ord)]
struct Entry {
    time: u64,
    origin: u32,
    number: u64,
    slot: u32,
}

/// A pending event, and its number.
struct Slot<I> {
    number: u64,
    event: Option<Event<I>>,
}

/// The pending events. The lines `timeouts` and `messages` take only what comes after all that they have.
/// The events of the day that is open are in `opened`, and in `due` the places there by their keys, the first
/// event last. `rest` has other events of that day or an earlier one, and those that are too far ahead.
/// `times` has the time of the first event of each source. If no event is due it has the beginning of the
/// next day that has any.
pub struct Queue<I> {
    timeouts: VecDeque<Timeout>,
    messages: VecDeque<Message<I>>,
    days: Days,
    opened: Vec<Waiting>,
    due: Vec<u64>,
    rest: BinaryHeap<Reverse<Entry>>,
    times: [u64; 4],
    slots: Vec<Slot<I>>,
    free: Vec<u32>,
}

impl<I> Queue<I> {
    /// No pending events.
    pub fn new() -> Self {
        Self {
            timeouts: VecDeque::new(),
            messages: VecDeque::new(),
            days: Days::new(),
            opened: Vec::new(),
            due: Vec::new(),
            rest: BinaryHeap::new(),
            times: [NEVER; 4],
            slots: Vec::new(),
            free: Vec::new(),
        }
    }

    /// Adds an event with this time and number.
    #[inline(always)]
    pub fn push(&mut self, time: u64, number: u64, event: Event<I>) {
        let origin = event.origin;
        match event.body {
            Body::Timeout { call } if self.takes_timeout(time, origin) => {
                self.timeouts.push_back(Timeout {
                    time,
                    origin,
                    number,
                    call,
                });
                self.note(Source::Timeouts, time);
            }
            ref body if is_message(body) && self.takes_message(time, origin) => {
                self.messages.push_back(Message {
                    time,
                    number,
                    event,
                });
                self.note(Source::Messages, time);
            }
            _ => self.push_other(time, number, event),
        }
    }

    /// Whether a timeout comes after all timeouts in line.
    #[inline]
    fn takes_timeout(&self, time: u64, origin: u32) -> bool {
        let last = self.timeouts.back();
        last.is_none_or(|last| (last.time, last.origin) <= (time, origin))
    }

    /// Whether a message comes after all messages in line.
    #[inline]
    fn takes_message(&self, time: u64, origin: u32) -> bool {
        let last = self.messages.back();
        last.is_none_or(|last| (last.time, last.event.origin) <= (time, origin))
    }

    /// Adds an event that does not wait in line.
    #[inline(never)]
    fn push_other(&mut self, time: u64, number: u64, event: Event<I>) {
        let origin = event.origin;
        let slot = self.store(number, event);
        if self.days.takes(time) {
            self.days.push(time, origin, slot);
            self.note(Source::Calendar, (time >> DAY_BITS) << DAY_BITS);
        } else {
            self.rest.push(Reverse(Entry {
                time,
                origin,
                number,
                slot,
            }));
            self.note(Source::Heap, time);
        }
    }

    /// A source has an event of this time.
    #[inline]
    fn note(&mut self, source: Source, time: u64) {
        let first = &mut self.times[source as usize];
        *first = (*first).min(time);
    }

    /// Puts an event into a free slot, and returns its place.
    #[inline]
    fn store(&mut self, number: u64, event: Event<I>) -> u32 {
        let event = Some(event);
        let stored = Slot { number, event };
        match self.free.pop() {
            Some(slot) => {
                self.slots[slot as usize] = stored;
                slot
            }
            None => {
                self.slots.push(stored);
                self.slots.len() as u32 - 1
            }
        }
    }

    /// Takes an event out of its slot.
    #[inline]
    fn take(&mut self, slot: u32) -> Option<Event<I>> {
        self.free.push(slot);
        self.slots[slot as usize].event.take()
    }

    /// Takes out the event with the least key, if its time is below the end. Returns its time too.
    #[inline]
    pub fn pop_before(&mut self, end: u64) -> Option<(u64, Event<I>)> {
        if self.due.is_empty() {
            self.open_next();
        }
        let [timeouts, messages, due, rest] = self.times;
        let time = timeouts.min(messages).min(due.min(rest));
        if time >= end {
            return None;
        }
        let is_first = (
            timeouts == time,
            messages == time,
            due == time,
            rest == time,
        );
        let source = match is_first {
            (true, false, false, false) => Source::Timeouts,
            (false, true, false, false) => Source::Messages,
            (false, false, true, false) => Source::Calendar,
            (false, false, false, true) => Source::Heap,
            _ => self.first_of(time)?,
        };
        Some((time, self.pop_from(source)?))
    }

    /// Opens the next day that has events, unless another source has one before that day.
    fn open_next(&mut self) {
        let [timeouts, messages, begin, rest] = self.times;
        if begin <= timeouts.min(messages).min(rest) && begin < NEVER {
            self.open(begin >> DAY_BITS);
        }
    }

    /// Opens a day, the next one that has events.
    #[inline(never)]
    fn open(&mut self, day: u64) {
        self.days.open(day, &mut self.opened);
        let orders = self.opened.iter().map(|waiting| waiting.order);
        let numbered = (0..).zip(orders);
        let due = numbered.map(|(place, order)| u64::from(order) << u32::BITS | place);
        self.due.extend(due);
        // Of the events of one origin at one time, those that were made before have lesser numbers.
        self.due.sort_unstable_by(|one, other| other.cmp(one));
        self.note_due();
    }

    /// Notes the time of the first event of the calendar.
    #[inline]
    fn note_due(&mut self) {
        self.times[Source::Calendar as usize] = match self.due.last() {
            Some(&due) => self.days.time_of(due),
            None => self.days.next().map_or(NEVER, |day| day << DAY_BITS),
        };
    }

    /// The source of the event with the least key, of those that have one at this time.
    #[inline(never)]
    fn first_of(&self, time: u64) -> Option<Source> {
        let mut first = None;
        for source in SOURCES {
            if self.times[source as usize] == time {
                let key = self.first_key(source)?;
                if first.is_none_or(|(least, _)| key < least) {
                    first = Some((key, source));
                }
            }
        }
        first.map(|(_, source)| source)
    }

    /// The origin and the number of the first event of a source, which has one.
    fn first_key(&self, source: Source) -> Option<(u32, u64)> {
        let number = |slot: u32| self.slots[slot as usize].number;
        Some(match source {
            Source::Timeouts => self.timeouts.front().map(|x| (x.origin, x.number))?,
            Source::Messages => self.messages.front().map(|x| (x.event.origin, x.number))?,
            Source::Calendar => {
                let waiting = self.opened[place_of(*self.due.last()?)];
                (waiting.origin(), number(waiting.slot))
            }
            Source::Heap => self.rest.peek().map(|x| (x.0.origin, x.0.number))?,
        })
    }

    /// Takes out the first event of a source.
    #[inline]
    fn pop_from(&mut self, source: Source) -> Option<Event<I>> {
        match source {
            Source::Timeouts => self.pop_timeout(),
            Source::Messages => self.pop_message(),
            Source::Calendar => self.pop_due(),
            Source::Heap => self.pop_rest(),
        }
    }

    /// Takes out the first timeout in line.
    #[inline]
    fn pop_timeout(&mut self) -> Option<Event<I>> {
        let Timeout { origin, call, .. } = self.timeouts.pop_front()?;
        let next = self.timeouts.front();
        self.times[Source::Timeouts as usize] = next.map_or(NEVER, |next| next.time);
        Some(Event {
            origin,
            target: origin - FIRST_NODE,
            body: Body::Timeout { call },
        })
    }

    /// Takes out the first message in line.
    #[inline]
    fn pop_message(&mut self) -> Option<Event<I>> {
        let Message { event, .. } = self.messages.pop_front()?;
        let next = self.messages.front();
        self.times[Source::Messages as usize] = next.map_or(NEVER, |next| next.time);
        Some(event)
    }

    /// Takes out the first event of the day that is open.
    #[inline]
    fn pop_due(&mut self) -> Option<Event<I>> {
        let due = self.due.pop()?;
        self.note_due();
        self.take(self.opened[place_of(due)].slot)
    }

    /// Takes out the first event of the heap.
    #[inline(never)]
    fn pop_rest(&mut self) -> Option<Event<I>> {
        let Entry { time, slot, .. } = self.rest.pop()?.0;
        let next = self.rest.peek();
        self.times[Source::Heap as usize] = next.map_or(NEVER, |next| next.0.time);
        if self.due.is_empty() {
            self.days.go_on(time);
        }
        self.take(slot)
    }
}

impl Waiting {
    /// The origin of the event.
    fn origin(self) -> u32 {
        self.order & ((1 << ORIGIN_BITS) - 1)
    }
}

/// Whether an event is a message.
fn is_message<I>(body: &Body<I>) -> bool {
    matches!(
        body,
        Body::Step { .. }
            | Body::GetState { .. }
            | Body::GetList { .. }
            | Body::Ping { .. }
            | Body::Notify
            | Body::Leave { .. }
            | Body::StepReply { .. }
            | Body::StateReply { .. }
            | Body::ListReply { .. }
            | Body::Pong { .. }
    )
}

/// The place of a due event among those of its day.
fn place_of(due: u64) -> usize {
    due as u32 as usize
}

/// The events of the days after the one that is open. Bit `d % DAYS` of `marks` says whether the list of
/// day d has any.
struct Days {
    today: u64,
    lists: Vec<Vec<Waiting>>,
    marks: [u64; (DAYS / 64) as usize],
}

impl Days {
    /// Days without events.
    fn new() -> Self {
        Self {
            today: 0,
            lists: (0..DAYS).map(|_| Vec::new()).collect(),
            marks: [0; (DAYS / 64) as usize],
        }
    }

    /// Whether there is a list for events of this time.
    #[inline]
    fn takes(&self, time: u64) -> bool {
        (time >> DAY_BITS).wrapping_sub(self.today + 1) < DAYS - 1
    }

    /// Adds an event to the list of its day.
    #[inline]
    fn push(&mut self, time: u64, origin: u32, slot: u32) {
        let at = ((time >> DAY_BITS) % DAYS) as usize;
        let moment = (time % (1 << DAY_BITS)) as u32;
        let order = moment << ORIGIN_BITS | origin;
        self.lists[at].push(Waiting { order, slot });
        self.marks[at / 64] |= 1 << (at % 64);
    }

    /// The time of a due event.
    #[inline]
    fn time_of(&self, due: u64) -> u64 {
        (self.today << DAY_BITS) + (due >> (u32::BITS + ORIGIN_BITS))
    }

    /// The next day that has events.
    fn next(&self) -> Option<u64> {
        let first = (self.today + 1) % DAYS;
        let words = self.marks.len();
        for step in 0..=words {
            let word = (first as usize / 64 + step) % words;
            let skipped = if step == 0 { first % 64 } else { 0 };
            let marks = self.marks[word] >> skipped << skipped;
            if marks != 0 {
                let at = word as u64 * 64 + u64::from(marks.trailing_zeros());
                return Some(self.today + 1 + at.wrapping_sub(first) % DAYS);
            }
        }
        None
    }

    /// Opens a day, the next one that has events. They take the place of those of the day before.
    fn open(&mut self, day: u64, opened: &mut Vec<Waiting>) {
        self.today = day;
        let at = (day % DAYS) as usize;
        self.marks[at / 64] &= !(1 << (at % 64));
        opened.clear();
        if opened.capacity() > KEPT {
            *opened = Vec::new();
        }
        mem::swap(opened, &mut self.lists[at]);
    }

    /// Goes on to the day of a time. No list of this day or an earlier one has events.
    fn go_on(&mut self, time: u64) {
        self.today = self.today.max(time >> DAY_BITS);
    }
}
