//! The node calls of a host, on the fields of a node record; its bytes are the proved platform's
//! concern. "A node call tries 10, 12, 11, then 9"; 10 is about bytes and does not arise here.

use super::limits::*;
use super::node::{Content, Node, Sends, Settings};
use super::ring::{self, Ring};

/// What a node record holds: the node, N, H, W and the last tick. Its ring is in number order.
#[derive(Clone, Copy, PartialEq, Eq, Debug)]
pub struct Record {
    pub settings: Settings,
    pub node: Node,
    /// 0 at opening, then the tick of each accepted call.
    pub last_tick: u32,
}

impl Record {
    /// "One call opens a record", refused by 3 for "a number outside its range; W may be below H + D".
    pub fn open(number: u64, nodes: u64, period: u64, timeout: u64) -> Result<Record, u8> {
        let in_range = (1..=MAX_NODES).contains(&nodes)
            && number < nodes
            && (1..=MAX_PERIOD).contains(&period)
            && (1..=MAX_TIMEOUT).contains(&timeout);
        if !in_range {
            return Err(REFUSED_RANGE);
        }
        let settings = Settings { ring: Ring::of(nodes as u8), period: period as u32, timeout: timeout as u32 };
        Ok(Record { settings, node: Node::open(&settings, number as u8), last_tick: 0 })
    }

    /// "One delivers a message." `kind` is the letter's byte; `list` what an H carries; `part` the length of the message part.
    pub fn deliver(
        &mut self,
        tick: u64,
        kind: u64,
        sender: u64,
        subject: u64,
        list: u64,
        part: usize,
    ) -> Result<Sends, u8> {
        let tick = self.check_tick(tick)?;
        let content = self.check_message(kind, sender, subject, list).ok_or(REFUSED_MESSAGE)?;
        check_part(part)?;
        self.last_tick = tick;
        Ok(self.node.deliver(&self.settings, tick, sender as u8, content).sends)
    }

    /// "One does the watch if due by this tick, else the heartbeat if due, else nothing."
    pub fn do_timer(&mut self, tick: u64, part: usize) -> Result<Sends, u8> {
        let tick = self.check_tick(tick)?;
        check_part(part)?;
        self.last_tick = tick;
        let due = |timer: Option<u32>| timer.is_some_and(|due| due <= tick);
        Ok(if due(self.node.watch) {
            self.node.expire_watch(&self.settings, tick).sends
        } else if due(self.node.heartbeat) {
            self.node.send_heartbeat(&self.settings, tick).sends
        } else {
            Sends::none()
        })
    }

    /// Refused "before the record's last tick, or above 1,000,000".
    fn check_tick(&self, tick: u64) -> Result<u32, u8> {
        let range = u64::from(self.last_tick)..=MAX_TICK;
        range.contains(&tick).then_some(tick as u32).ok_or(REFUSED_TICK)
    }

    /// Nothing for an "unknown kind; sender not below N or the node itself; on R, subject not below N or the node itself", and for "a list
    /// with a bit from N on", whatever the kind. On H and O the subject is not looked at, on O and R a list in range is not.
    fn check_message(&self, kind: u64, sender: u64, subject: u64, list: u64) -> Option<Content> {
        let nodes = u64::from(self.settings.ring.nodes());
        let is_other = |node: u64| node < nodes && node != u64::from(self.node.number);
        let content = match u8::try_from(kind).ok()? {
            b'H' => Content::Heartbeat { list },
            b'O' => Content::NewObserver,
            b'R' if is_other(subject) => Content::Report { subject: subject as u8 },
            _ => return None,
        };
        (is_other(sender) && ring::below(list, nodes)).then_some(content)
    }
}

fn check_part(length: usize) -> Result<(), u8> {
    if length < MESSAGE_BYTES {
        Err(REFUSED_PART)
    } else {
        Ok(())
    }
}

#[cfg(test)]
mod tests {
    use super::super::random::Random;
    use super::*;

    const H: u64 = b'H' as u64;
    const O: u64 = b'O' as u64;
    const R: u64 = b'R' as u64;

    fn record() -> Record {
        Record::open(1, 8, 2, 10).unwrap()
    }

    #[test]
    fn opening() {
        let record = record();
        assert_eq!((record.node.number, record.node.emitter, record.last_tick), (1, 0, 0));
        assert!(Record::open(0, 2, 1_000, 1).is_ok());
        let bad =
            [(8, 8, 2, 10), (0, 0, 2, 10), (0, 65, 2, 10), (0, 8, 0, 10), (0, 8, 1_001, 10), (0, 8, 2, 0)];
        for (number, nodes, period, timeout) in bad {
            assert_eq!(Record::open(number, nodes, period, timeout), Err(3));
        }
        assert_eq!(Record::open(0, 8, 2, 65_536), Err(3));
        assert_eq!(Record::open(u64::MAX, u64::MAX, u64::MAX, u64::MAX), Err(3));
    }

    #[test]
    fn refusals_in_order_leave_the_record() {
        let mut record = Record { last_tick: 5, ..record() };
        let before = record;
        for (tick, kind, sender, subject, list, part, number) in [
            (4, 0, 9, 9, 256, 0, 12),
            (1_000_001, H, 0, 0, 0, 112, 12),
            (u64::MAX, H, 0, 0, 0, 112, 12),
            (5, 0, 0, 0, 0, 0, 11),
            (5, H + 256, 0, 0, 0, 112, 11),
            (5, H, 1, 0, 0, 0, 11),
            (5, H, 8, 0, 0, 112, 11),
            (5, O, 256, 0, 0, 112, 11),
            (5, R, 0, 1, 0, 112, 11),
            (5, R, 0, 8, 0, 112, 11),
            (5, R, 1, 2, 0, 112, 11),
            (5, H, 0, 0, 256, 0, 11),
            (5, H, 3, 0, 1 << 63, 112, 11),
            (5, O, 0, 0, 256, 112, 11),
            (5, R, 0, 2, 511, 112, 11),
            (5, H, 0, 0, 255, 111, 9),
            (5, R, 0, 2, 0, 0, 9),
        ] {
            let answer = record.deliver(tick, kind, sender, subject, list, part).map(|_| ());
            assert_eq!(answer, Err(number), "{tick} {kind} {sender} {subject} {list} {part}");
        }
        assert_eq!(record.do_timer(4, 0).map(|_| ()), Err(12));
        assert_eq!(record.do_timer(5, 111).map(|_| ()), Err(9));
        assert_eq!(record, before);
    }

    /// Of 64 nodes every list is in range, of fewer those below 2^N.
    #[test]
    fn lists_have_no_bit_from_n_on() {
        for nodes in [2, 8, 63, 64] {
            for bit in 0..64 {
                for kind in [H, O, R] {
                    let mut record = Record::open(1, nodes, 2, 10).unwrap();
                    let answer = record.deliver(3, kind, 0, 0, 1 << bit, 112).map(|_| ());
                    assert_eq!(answer, if bit < nodes { Ok(()) } else { Err(11) }, "{nodes} nodes, kind {kind}, bit {bit}");
                }
            }
        }
    }

    /// On O and R a list in range is not looked at: the call does the same with any.
    #[test]
    fn a_list_on_o_or_r_plays_no_part() {
        for (kind, subject) in [(O, 0), (R, 0), (R, 3)] {
            let (mut without, mut with) = (record(), record());
            let sent = without.deliver(3, kind, 5, subject, 0, 112).unwrap();
            assert_eq!(with.deliver(3, kind, 5, subject, 0b1111_1111, 112).unwrap().as_slice(), sent.as_slice());
            assert_eq!(with, without);
        }
    }

    /// Node 1 of eight observes 0: of the nodes that the heartbeat names, 0, 1 and 6, the last is added. The next heartbeat of 1 carries it.
    #[test]
    fn a_heartbeat_adds_its_list() {
        let mut record = record();
        record.deliver(7, H, 3, 0, 0b0100_0011, 112).unwrap();
        assert_eq!((record.node.dead_list, record.node.mark, record.node.watch), (0, 0, Some(10)));
        record.deliver(7, H, 0, u64::MAX, 0b0100_0011, 112).unwrap();
        assert_eq!((record.node.dead_list, record.node.mark, record.node.watch), (1 << 6, 0, Some(17)));
        assert_eq!(record.do_timer(8, 112).unwrap().as_slice()[0].content, Content::Heartbeat { list: 1 << 6 });
        assert_eq!(record.deliver(8, R, 3, 6, 0, 112).unwrap().as_slice().len(), 3);
        assert_eq!((record.node.dead_list, record.node.mark), (1 << 6, 1 << 6));
        assert!(record.deliver(9, R, 3, 6, 0, 112).unwrap().as_slice().is_empty());
    }

    #[test]
    fn an_accepted_call_keeps_its_tick() {
        let mut record = record();
        assert!(record.deliver(7, H, 3, u64::MAX, 0, 112).unwrap().as_slice().is_empty());
        assert_eq!((record.last_tick, record.node.watch), (7, Some(10)));
        record.deliver(7, H, 0, 0, 0, 112).unwrap();
        assert_eq!((record.last_tick, record.node.watch), (7, Some(17)));
        record.deliver(1_000_000, O, 3, 0, 0, 112).unwrap();
        assert_eq!((record.last_tick, record.node.heartbeat), (1_000_000, Some(1_000_000)));
    }

    /// A report of the emitter moves the node at the call's tick, the watch overdue or not, until it is alone.
    #[test]
    fn a_reported_emitter_is_left() {
        let mut record = Record::open(1, 3, 2, 10).unwrap();
        assert_eq!(record.deliver(30, R, 2, 0, 0, 112).unwrap().as_slice().len(), 1 + 1);
        assert_eq!((record.node.emitter, record.node.watch, record.node.dead_list), (2, Some(50), 0b001));
        assert!(record.deliver(31, R, 0, 2, 0, 112).unwrap().as_slice().is_empty());
        assert_eq!((record.node.emitter, record.node.watch, record.node.heartbeat), (1, None, None));
        assert_eq!((record.node.observer, record.node.dead_list, record.last_tick), (1, 0b101, 31));
        assert_eq!(record.deliver(32, R, 0, 1, 0, 112).map(|_| ()), Err(11));
    }

    /// Whatever the calls, no accepted one leaves a record whose emitter is listed, that lists itself or marks a node that it does not list.
    /// Some leave the node alone.
    #[test]
    fn no_call_leaves_a_list_or_mark_out_of_range() {
        let mut random = Random::seeded(102);
        let (mut reported, mut alone, mut named) = (0, 0, 0);
        for _ in 0..400 {
            let nodes = random.range(1, 9);
            let mut record = Record::open(random.below(nodes), nodes, 3, random.range(1, 20)).unwrap();
            for _ in 0..40 {
                let (before, tick) = (record.node, u64::from(record.last_tick) + random.below(8));
                if random.chance(3) {
                    record.do_timer(tick, 112).unwrap();
                } else {
                    let (kind, sender) = (random.pick(&[H, O, R, R]), random.below(nodes));
                    let (subject, list) = (random.below(nodes), random.draw() & random.draw() & ((1 << nodes) - 1));
                    let moved = record.deliver(tick, kind, sender, subject, list, 112).is_ok() && record.node.emitter != before.emitter;
                    reported += u64::from(moved);
                    alone += u64::from(moved && record.node.emitter == record.node.number);
                }
                let Node { number, emitter, dead_list, mark, .. } = record.node;
                assert!(!ring::listed(dead_list, emitter) && !ring::listed(dead_list, number), "{record:?}");
                assert!(mark & !dead_list == 0 && dead_list < 1 << nodes, "{record:?}");
                named += u64::from(mark != dead_list);
            }
        }
        assert!(reported > 200 && alone > 50 && named > 200, "{reported} moves by report, {alone} of them to be alone; {named} with a node named only");
    }

    #[test]
    fn the_timer_call_does_one_thing() {
        let mut record = record();
        assert!(record.do_timer(1, 112).unwrap().as_slice().is_empty());
        assert_eq!(record.do_timer(12, 112).unwrap().as_slice().len(), 1 + 3);
        assert_eq!((record.node.watch, record.node.heartbeat), (Some(32), Some(2)));
        assert_eq!(record.do_timer(12, 112).unwrap().as_slice()[0].content, Content::Heartbeat { list: 1 });
        assert_eq!(record.node.heartbeat, Some(14));
        assert!(record.do_timer(12, 112).unwrap().as_slice().is_empty());
    }
}
