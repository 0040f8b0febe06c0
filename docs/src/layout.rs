//! Where a store has its fields, as docs/LAYOUTS.md says.

use super::limits::*;
use std::ops::Range;

/// A field of the layout: numbers of `width` bytes, the lowest first, in places one after another.
#[derive(Clone, Copy, Debug)]
pub struct Field {
    start: usize,
    width: usize,
    places: usize,
}

const fn field(start: usize, width: usize, places: usize) -> Field {
    Field { start, width, places }
}

pub const NODES: Field = field(0, 1, 1);
pub const LONGEST_DELAY: Field = field(1, 1, 1);
pub const PERIOD: Field = field(2, 2, 1);
pub const TIMEOUT: Field = field(4, 2, 1);
pub const CRASHES: Field = field(6, 1, 1);
pub const CRASHES_DONE: Field = field(7, 1, 1);
pub const END: Field = field(8, 4, 1);
pub const LAST_TICK: Field = field(12, 4, 1);
pub const NEXT_NUMBER: Field = field(16, 8, 1);
pub const DELAYS: Field = field(24, 2, 1);
pub const MESSAGES: Field = field(26, 2, 1);
pub const ORDERED: Field = field(28, 1, 1);
pub const UNUSED_HEAD: Field = field(29, 1, 35);
pub const ORDER: Field = field(64, 1, 64);
pub const EMITTER: Field = field(128, 1, 64);
pub const OBSERVER: Field = field(192, 1, 64);
pub const WATCH: Field = field(256, 4, 64);
pub const HEARTBEAT: Field = field(512, 4, 64);
pub const DEAD_LIST: Field = field(768, 8, 64);
pub const MARK: Field = field(1_280, 8, 64);
pub const CRASH_TICK: Field = field(1_792, 4, 64);
pub const CRASH_NODE: Field = field(2_048, 1, 64);
pub const DELAY_NUMBER: Field = field(2_112, 4, 2_048);
pub const DELAY_TICKS: Field = field(10_304, 1, 2_048);
pub const MESSAGE_NUMBER: Field = field(12_352, 8, 2_048);
pub const MESSAGE_DUE: Field = field(28_736, 4, 2_048);
pub const MESSAGE_KIND: Field = field(36_928, 1, 2_048);
pub const MESSAGE_SENDER: Field = field(38_976, 1, 2_048);
pub const MESSAGE_RECEIVER: Field = field(41_024, 1, 2_048);
pub const MESSAGE_SUBJECT: Field = field(43_072, 1, 2_048);
pub const MESSAGE_LIST: Field = field(45_120, 8, 2_048);
pub const UNUSED_TAIL: Field = field(61_504, 1, 4_032);

/// How many places of the fields that have more than one are used.
#[derive(Clone, Copy)]
pub struct Counts {
    pub nodes: usize,
    /// The numbers of the Q line: none, or one for each node.
    pub ordered: usize,
    pub crashes: usize,
    pub delays: usize,
    pub messages: usize,
}

impl Counts {
    /// The counts in the bytes; nothing where there are more rows or messages than a store may have, or other than N
    /// numbers of a Q line.
    pub fn read(bytes: &[u8]) -> Option<Counts> {
        let count = |field| get(bytes, field, 0) as usize;
        let counts = Counts {
            nodes: count(NODES),
            ordered: count(ORDERED),
            crashes: count(CRASHES),
            delays: count(DELAYS),
            messages: count(MESSAGES),
        };
        let room = (1..=MAX_NODES as usize).contains(&counts.nodes)
            && [0, counts.nodes].contains(&counts.ordered)
            && counts.crashes <= counts.nodes
            && counts.delays <= MAX_DELAY_ROWS
            && counts.messages <= MAX_IN_FLIGHT;
        room.then_some(counts)
    }

    /// Every field of the store with the number of its places that are used.
    pub fn fields(&self) -> [(Field, usize); 32] {
        let Counts { nodes, ordered, crashes, delays, messages } = *self;
        [
            (NODES, 1),
            (LONGEST_DELAY, 1),
            (PERIOD, 1),
            (TIMEOUT, 1),
            (CRASHES, 1),
            (CRASHES_DONE, 1),
            (END, 1),
            (LAST_TICK, 1),
            (NEXT_NUMBER, 1),
            (DELAYS, 1),
            (MESSAGES, 1),
            (ORDERED, 1),
            (UNUSED_HEAD, 0),
            (ORDER, ordered),
            (EMITTER, nodes),
            (OBSERVER, nodes),
            (WATCH, nodes),
            (HEARTBEAT, nodes),
            (DEAD_LIST, nodes),
            (MARK, nodes),
            (CRASH_TICK, crashes),
            (CRASH_NODE, crashes),
            (DELAY_NUMBER, delays),
            (DELAY_TICKS, delays),
            (MESSAGE_NUMBER, messages),
            (MESSAGE_DUE, messages),
            (MESSAGE_KIND, messages),
            (MESSAGE_SENDER, messages),
            (MESSAGE_RECEIVER, messages),
            (MESSAGE_SUBJECT, messages),
            (MESSAGE_LIST, messages),
            (UNUSED_TAIL, 0),
        ]
    }

    /// The unused bytes of each field: the spare ones, and the places beyond the counts.
    pub fn unused(&self) -> impl Iterator<Item = Range<usize>> {
        let unused = |(Field { start, width, places }, used): (Field, usize)| {
            start + used * width..start + places * width
        };
        self.fields().into_iter().map(unused)
    }
}

/// The number at a place of a field.
pub fn get(bytes: &[u8], Field { start, width, .. }: Field, place: usize) -> u64 {
    let from = start + place * width;
    bytes[from..from + width].iter().rev().fold(0, |number, byte| number << 8 | u64::from(*byte))
}

/// Puts a number at a place of a field.
pub fn put(bytes: &mut [u8], Field { start, width, .. }: Field, place: usize, number: u64) {
    let from = start + place * width;
    bytes[from..from + width].copy_from_slice(&number.to_le_bytes()[..width]);
}

#[cfg(test)]
mod tests {
    use super::*;

    #[test]
    fn the_fields_fill_the_store_one_after_another() {
        let none = Counts { nodes: 0, ordered: 0, crashes: 0, delays: 0, messages: 0 };
        let end = none.fields().into_iter().fold(0, |end, (field, _)| {
            assert_eq!(field.start, end);
            end + field.width * field.places
        });
        assert_eq!(end, STORE_BYTES);
    }
}
