//! What is pending, kept in a binary heap in the order of the events: "The next event is the first
//! of these, in the earliest tick that has one: crashes by node; messages due, by message number;
//! timers of live nodes, by node, watch before heartbeat."

use super::node::{Content, Node, Timer};
use super::plan::Crash;
use std::cmp::Reverse;
use std::collections::BinaryHeap;

/// A message in flight.
#[derive(Clone, Copy, PartialEq, Eq, PartialOrd, Ord, Debug)]
pub struct Message {
    pub number: u64,
    pub sender: u8,
    pub receiver: u8,
    pub content: Content,
}

/// The three classes, in the order in which a tick does them.
#[derive(Clone, Copy, PartialEq, Eq, PartialOrd, Ord, Debug)]
pub enum Cause {
    Crash { node: u8 },
    Message(Message),
    Timer { node: u8, timer: Timer },
}

/// Something due at a tick. The order of the fields is the order of the events.
#[derive(Clone, Copy, PartialEq, Eq, PartialOrd, Ord, Debug)]
pub struct Pending {
    pub tick: u32,
    pub cause: Cause,
}

/// The heap, and for each timer the tick of the entry that stands for it.
///
/// A timer that is put off keeps its entry; when that entry comes first, it is moved to the
/// timer's due tick. A timer that is brought forward gets a new entry, and the old one is
/// discarded when it comes first.
#[derive(Clone, Debug)]
pub struct Queue {
    heap: BinaryHeap<Reverse<Pending>>,
    entries: Vec<[Option<u32>; 2]>,
}

impl Queue {
    pub fn new(nodes: &[Node], crashes: &[Crash]) -> Queue {
        let mut queue = Queue { heap: BinaryHeap::new(), entries: vec![[None; 2]; nodes.len()] };
        for Crash { tick, node } in crashes {
            queue.add(*tick, Cause::Crash { node: *node });
        }
        for node in nodes {
            queue.arm(node);
        }
        queue
    }

    fn add(&mut self, tick: u32, cause: Cause) {
        self.heap.push(Reverse(Pending { tick, cause }));
    }

    pub fn add_message(&mut self, due: u32, message: Message) {
        self.add(due, Cause::Message(message));
    }

    /// Makes sure that each timer of the node has an entry at its due tick or before.
    pub fn arm(&mut self, node: &Node) {
        for timer in [Timer::Watch, Timer::Heartbeat] {
            self.arm_timer(node, timer);
        }
    }

    fn arm_timer(&mut self, node: &Node, timer: Timer) {
        let Some(due) = node.due(timer) else { return };
        let entry = &mut self.entries[usize::from(node.number)][timer as usize];
        if entry.is_none_or(|tick| due < tick) {
            *entry = Some(due);
            self.add(due, Cause::Timer { node: node.number, timer });
        }
    }

    /// The first pending event, left in place. Entries of timers that moved are put right.
    pub fn first(&mut self, nodes: &[Node]) -> Option<Pending> {
        loop {
            let Reverse(first) = *self.heap.peek()?;
            let Cause::Timer { node, timer } = first.cause else { return Some(first) };
            let node = &nodes[usize::from(node)];
            let stands = self.entries[usize::from(node.number)][timer as usize] == Some(first.tick);
            if stands && node.due(timer) == Some(first.tick) {
                return Some(first);
            }
            self.heap.pop();
            if stands {
                self.entries[usize::from(node.number)][timer as usize] = None;
                self.arm_timer(node, timer);
            }
        }
    }

    /// Removes what `first` answered.
    pub fn remove_first(&mut self) {
        if let Some(Reverse(Pending { cause: Cause::Timer { node, timer }, .. })) = self.heap.pop() {
            self.entries[usize::from(node)][timer as usize] = None;
        }
    }

    /// The messages in flight with their due ticks, rising by number.
    pub fn messages(&self) -> Vec<(u32, Message)> {
        let mut messages: Vec<(u32, Message)> = self
            .heap
            .iter()
            .filter_map(|Reverse(pending)| match pending.cause {
                Cause::Message(message) => Some((pending.tick, message)),
                _ => None,
            })
            .collect();
        messages.sort_by_key(|(_, message)| message.number);
        messages
    }
}
