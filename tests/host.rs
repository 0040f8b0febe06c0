//! The three calls of a host in C, through the static library, beside a record written here from document 01's words, those of request 107
//! and docs/LAYOUTS.md over the simulator's node calls. Every call must give the same answer and the same lent bytes.
//!
//! Usage: host [SEED]. A failure prints the call and the seed that leads to it.

mod common;

use std::ops::Range;

use simulator::limits::{MAX_NODES, MAX_PERIOD, MAX_TICK, MAX_TIMEOUT, MESSAGE_BYTES};
use simulator::node::{Content, Node, Sends, Settings};
use simulator::random::Random;
use simulator::record::Record;
use simulator::ring;

extern "C" {
    fn kelbraut_node_open(record: *mut u8, size: usize, number: u64, nodes: u64, h: u64, w: u64) -> u64;
    fn kelbraut_node_deliver(
        record: *mut u8, size: usize, tick: u64, kind: u64, sender: u64, subject: u64, list: u64, part: *mut u8, part_size: usize,
    ) -> u64;
    fn kelbraut_node_timers(record: *mut u8, size: usize, tick: u64, part: *mut u8, part_size: usize) -> u64;
}

const RECORD: usize = 64;
/// Bytes of one message, and of the part that takes a call's messages.
const MESSAGE: usize = 16;
const PART: usize = MESSAGE_BYTES;
const REFUSED_PART: u64 = 9;
const REFUSED_RECORD: u64 = 10;
const REFUSED_MESSAGE: u64 = 11;
/// Where a record has its emitter, its list and its mark.
const EMITTER: usize = 6;
const LIST: Range<usize> = 8..16;
const MARK: Range<usize> = 32..40;
/// The kinds of message.
const H: u64 = b'H' as u64;
const O: u64 = b'O' as u64;
const R: u64 = b'R' as u64;

#[derive(Clone, Copy, Debug)]
enum Call {
    Open { number: u64, nodes: u64, h: u64, w: u64 },
    Deliver { tick: u64, kind: u64, sender: u64, subject: u64, list: u64 },
    Timers { tick: u64 },
}

/// What a call is lent: its record and its message part.
#[derive(Clone, PartialEq, Eq, Debug)]
struct Lent {
    record: Vec<u8>,
    part: Vec<u8>,
}

fn proved(call: Call, lent: &mut Lent) -> u64 {
    let (r, rl) = (lent.record.as_mut_ptr(), lent.record.len());
    let (p, pl) = (lent.part.as_mut_ptr(), lent.part.len());
    let answer = unsafe {
        match call {
            Call::Open { number, nodes, h, w } => kelbraut_node_open(r, rl, number, nodes, h, w),
            Call::Deliver { tick, kind, sender, subject, list } => {
                kelbraut_node_deliver(r, rl, tick, kind, sender, subject, list, p, pl)
            }
            Call::Timers { tick } => kelbraut_node_timers(r, rl, tick, p, pl),
        }
    };
    common::told(answer)
}

// ---- the record's bytes and ranges, from docs/LAYOUTS.md

fn number(bytes: &[u8]) -> u64 {
    bytes.iter().rev().fold(0, |x, b| x << 8 | u64::from(*b))
}

fn timer(bytes: &[u8]) -> Option<u32> {
    (number(bytes) as u32).checked_sub(1)
}

/// The record in these bytes, or nothing where it is out of range.
fn decode(bytes: &[u8]) -> Option<Record> {
    if bytes.len() != RECORD {
        return None;
    }
    let (me, nodes) = (bytes[0], bytes[1]);
    let (h, w) = (number(&bytes[2..4]), number(&bytes[4..6]));
    let (emitter, observer, list, mark) = (bytes[EMITTER], bytes[7], number(&bytes[LIST]), number(&bytes[MARK]));
    let last = number(&bytes[16..20]);
    let (watch, heartbeat) = (timer(&bytes[20..24]), timer(&bytes[24..28]));
    let good = (1..=MAX_NODES).contains(&u64::from(nodes))
        && [me, emitter, observer].iter().all(|node| *node < nodes)
        && (1..=MAX_PERIOD).contains(&h)
        && (1..=MAX_TIMEOUT).contains(&w)
        && last <= MAX_TICK
        && (nodes == 64 || list >> nodes == 0)
        && list >> me & 1 == 0
        && list >> emitter & 1 == 0
        && mark & !list == 0
        && watch.is_none_or(|due| emitter != me && u64::from(due) <= last + 2 * w)
        && heartbeat.is_none_or(|due| observer != me && u64::from(due) <= last + h)
        && bytes[28..MARK.start].iter().chain(&bytes[MARK.end..]).all(|b| *b == 0);
    good.then(|| Record {
        settings: Settings { ring: ring::Ring::of(nodes), period: h as u32, timeout: w as u32 },
        node: Node { number: me, alive: true, emitter, observer, watch, heartbeat, dead_list: list, mark },
        last_tick: last as u32,
    })
}

fn encode(record: &Record) -> Vec<u8> {
    let (settings, node) = (record.settings, record.node);
    let due = |timer: Option<u32>| timer.map_or(0, |tick| tick + 1).to_le_bytes();
    let mut bytes = vec![node.number, settings.ring.nodes()];
    bytes.extend((settings.period as u16).to_le_bytes());
    bytes.extend((settings.timeout as u16).to_le_bytes());
    bytes.extend([node.emitter, node.observer]);
    bytes.extend(node.dead_list.to_le_bytes());
    bytes.extend(record.last_tick.to_le_bytes());
    bytes.extend(due(node.watch));
    bytes.extend(due(node.heartbeat));
    bytes.resize(MARK.start, 0);
    bytes.extend(node.mark.to_le_bytes());
    bytes.resize(RECORD, 0);
    bytes
}

/// The 16 bytes of a message: kind, receiver, sender, subject, four zeros, the list with its lowest byte first.
fn message(sender: u8, receiver: u8, content: Content) -> Vec<u8> {
    let (kind, subject, list) = match content {
        Content::Heartbeat { list } => (b'H', 0, list),
        Content::NewObserver => (b'O', 0, 0),
        Content::Report { subject } => (b'R', subject, 0),
    };
    [vec![kind, receiver, sender, subject, 0, 0, 0, 0], list.to_le_bytes().to_vec()].concat()
}

/// A rule that is wrong, though natural.
#[derive(Clone, Copy, PartialEq, Eq, Debug)]
enum Wrong {
    No,
    RenewedByAnyone,
    ShortAfterMoving,
    ShortAfterReport,
    ReportedEmitterKept,
    LastTickLost,
    ListNotAdded,
    ListAddedFromAnyone,
    MarkedByHeartbeat,
    ExpiredUnmarked,
    ListNotSent,
}

/// The same call by the record above.
fn expected(call: Call, lent: &mut Lent, wrong: Wrong) -> u64 {
    if let Call::Open { number, nodes, h, w } = call {
        if lent.record.len() != RECORD {
            return REFUSED_RECORD;
        }
        return match Record::open(number, nodes, h, w) {
            Ok(record) => {
                lent.record = encode(&record);
                0
            }
            Err(refused) => u64::from(refused),
        };
    }
    let Some(mut record) = decode(&lent.record) else { return REFUSED_RECORD };
    let before = record;
    let sends = match call {
        Call::Deliver { tick, kind, sender, subject, list } => {
            record.deliver(tick, kind, sender, subject, list, lent.part.len())
        }
        Call::Timers { tick } => record.do_timer(tick, lent.part.len()),
        Call::Open { .. } => unreachable!(),
    };
    let sends = match sends {
        Ok(sends) => sends,
        Err(refused) => return u64::from(refused),
    };
    spoil(call, before, &mut record, wrong);
    leave(lent, &record, &sends, wrong);
    0
}

fn spoil(call: Call, before: Record, record: &mut Record, wrong: Wrong) {
    match (wrong, call) {
        (Wrong::RenewedByAnyone, Call::Deliver { tick, kind: H, .. }) => {
            record.node.watch = Some(tick as u32 + record.settings.timeout);
        }
        (Wrong::ShortAfterMoving, Call::Timers { tick }) if before.node.emitter != record.node.emitter => {
            record.node.watch = record.node.watch.map(|_| tick as u32 + record.settings.timeout);
        }
        (Wrong::ShortAfterReport, Call::Deliver { tick, .. }) if before.node.emitter != record.node.emitter => {
            record.node.watch = record.node.watch.map(|_| tick as u32 + record.settings.timeout);
        }
        (Wrong::ReportedEmitterKept, Call::Deliver { .. }) => record.node.emitter = before.node.emitter,
        (Wrong::LastTickLost, _) => record.last_tick = before.last_tick,
        (Wrong::ListNotAdded, Call::Deliver { kind: H, .. }) => record.node.dead_list = before.node.dead_list,
        (Wrong::ListAddedFromAnyone, Call::Deliver { kind: H, list, .. }) => {
            record.node.dead_list |= list & !(1 << before.node.number | 1 << before.node.emitter);
        }
        (Wrong::MarkedByHeartbeat, Call::Deliver { kind: H, .. }) => {
            record.node.mark |= record.node.dead_list & !before.node.dead_list;
        }
        (Wrong::ExpiredUnmarked, Call::Timers { .. }) => record.node.mark = before.node.mark,
        _ => {}
    }
}

fn leave(lent: &mut Lent, record: &Record, sends: &Sends, wrong: Wrong) {
    lent.record = encode(record);
    lent.part[..PART].fill(0);
    for (place, sent) in sends.as_slice().iter().enumerate() {
        let written = if wrong == Wrong::ListNotSent { MESSAGE / 2 } else { MESSAGE };
        let bytes = message(record.node.number, sent.receiver, sent.content);
        lent.part[place * MESSAGE..][..written].copy_from_slice(&bytes[..written]);
    }
}

// ---- the comparison

struct Compared {
    calls: u64,
    accepted: u64,
    /// Reports that made the node leave its emitter, and those of them that left it alone.
    reported: u64,
    alone: u64,
    /// Heartbeats from whose list the node added, and reports that it passed on of a node that it listed already.
    learnt: u64,
    relayed: u64,
    differences: u64,
    wrong: Wrong,
}

impl Compared {
    fn new(wrong: Wrong) -> Compared {
        Compared { calls: 0, accepted: 0, reported: 0, alone: 0, learnt: 0, relayed: 0, differences: 0, wrong }
    }

    /// Makes the call both ways; the lent bytes are then those that the proved call left.
    fn call(&mut self, call: Call, lent: &mut Lent) -> u64 {
        let before = lent.clone();
        let mut other = lent.clone();
        let answer = proved(call, lent);
        let wanted = expected(call, &mut other, self.wrong);
        self.calls += 1;
        self.accepted += u64::from(answer == 0);
        if let (Call::Deliver { kind, .. }, 0) = (call, answer) {
            self.count(kind, &before, lent);
        }
        if answer == wanted && *lent == other {
            assert!(answer == 0 || *lent == before);
        } else if self.wrong == Wrong::No {
            panic!("{call:?} on {before:?}\nanswers {answer}, not {wanted}, and leaves\n{lent:?}, not\n{other:?}");
        } else {
            self.differences += 1;
        }
        answer
    }

    /// Counts an accepted delivery by what it does.
    fn count(&mut self, kind: u64, before: &Lent, after: &Lent) {
        let [me, emitter] = [0, EMITTER].map(|place| after.record[place]);
        let moved = before.record[EMITTER] != emitter;
        let longer = before.record[LIST] != after.record[LIST];
        self.reported += u64::from(moved);
        self.alone += u64::from(moved && emitter == me);
        self.learnt += u64::from(kind == H && longer);
        self.relayed += u64::from(kind == R && !longer && after.part[0] != 0);
    }
}

fn lent(record: &[u8], part: Vec<u8>) -> Lent {
    Lent { record: record.to_vec(), part }
}

// ---- random sequences of calls on the records of one ring

struct Ring {
    records: Vec<Vec<u8>>,
    in_flight: Vec<Vec<u8>>,
    tick: u64,
    h: u64,
    w: u64,
}

impl Ring {
    fn open(compared: &mut Compared, random: &mut Random) -> Ring {
        let nodes = random.pick(&[1, 2, 3, 5, 8, 16, 33, 63, 64]);
        let h = random.pick(&[1, 2, 7, 40, 1_000]);
        let w = random.pick(&[1, 3, 20, 300, 65_535]);
        let records = (0..nodes)
            .map(|number| {
                let mut lent = lent(&random.bytes(RECORD), Vec::new());
                assert_eq!(compared.call(Call::Open { number, nodes, h, w }, &mut lent), 0);
                lent.record
            })
            .collect();
        Ring { records, in_flight: Vec::new(), tick: 0, h, w }
    }

    fn next_tick(&mut self, random: &mut Random) -> u64 {
        if random.chance(20) {
            return random.pick(&[0, 999_999, 1_000_000, 1_000_001, u64::MAX, 1 << 32 | self.tick, self.tick / 2]);
        }
        let step = random.pick(&[0, 0, 1, 2, self.h, self.w, 2 * self.w]);
        self.tick = (self.tick + random.below(step + 1)).min(MAX_TICK);
        self.tick
    }

    fn next_call(&mut self, random: &mut Random) -> (usize, Call) {
        let nodes = self.records.len() as u64;
        let tick = self.next_tick(random);
        if !self.in_flight.is_empty() && random.chance(2) {
            let m = self.in_flight.swap_remove(random.below(self.in_flight.len() as u64) as usize);
            let [kind, to, sender, subject] = [m[0], m[1], m[2], m[3]].map(u64::from);
            return (to as usize, Call::Deliver { tick, kind, sender, subject, list: number(&m[8..]) });
        }
        let node = random.below(nodes);
        if random.chance(2) {
            return (node as usize, Call::Timers { tick });
        }
        let odd = [nodes, 64, 255, 256, 256 + node, u64::MAX];
        let kind = if random.chance(12) { random.draw() >> random.below(64) } else { u64::from(random.pick(b"HOR")) };
        let (any, other, emitter) = (random.below(nodes), random.below(nodes), u64::from(self.records[node as usize][EMITTER]));
        let sender = if random.chance(12) { random.pick(&odd) } else { random.pick(&[other, emitter]) };
        let subject = if random.chance(6) { random.pick(&odd) } else { random.pick(&[any, any, emitter]) };
        let list = if random.chance(12) { random.draw() >> random.below(64) } else { some(random, nodes) };
        (node as usize, Call::Deliver { tick, kind, sender, subject, list })
    }
}

/// A list of some nodes below `nodes`, mostly few or none.
fn some(random: &mut Random, nodes: u64) -> u64 {
    let (few, any) = (1 << random.below(nodes) | 1 << random.below(nodes), random.draw());
    random.pick(&[0, few, few, any]) & u64::MAX >> (64 - nodes)
}

/// One ring, some hundred calls.
fn sequence(compared: &mut Compared, seed: u64) {
    let mut random = Random::seeded(seed);
    let mut ring = Ring::open(compared, &mut random);
    for _ in 0..400 {
        let (node, call) = ring.next_call(&mut random);
        let size = if random.chance(10) { random.below(2 * PART as u64 + 8) as usize } else { PART };
        let mut lent = lent(&ring.records[node], random.bytes(size));
        if compared.call(call, &mut lent) == 0 {
            assert!(decode(&lent.record).is_some());
            let sent = lent.part[..PART].chunks(MESSAGE).take_while(|m| m[0] != 0);
            ring.in_flight.extend(sent.map(<[u8]>::to_vec));
            ring.in_flight.truncate(200);
        }
        ring.records[node] = lent.record;
    }
}

/// A wrong rule must be told from the right one by the same sequences.
fn tells(wrong: Wrong, seed: u64) {
    let mut compared = Compared::new(wrong);
    for i in 0..40 {
        sequence(&mut compared, seed + i);
    }
    assert!(compared.differences > 0, "{wrong:?} is not told from the right rule");
}

// ---- records, lengths, ticks, messages and parts one by one

/// Records of many kinds, reached by calls.
fn reached(compared: &mut Compared, seed: u64) -> Vec<Vec<u8>> {
    let mut random = Random::seeded(seed);
    let mut records = Vec::new();
    for (number, nodes, h, w) in [(0, 1, 1, 1), (1, 2, 3, 5), (2, 5, 1_000, 65_535), (63, 64, 4, 12), (7, 40, 2, 9)] {
        let mut now = lent(&[0; RECORD], vec![0; PART]);
        compared.call(Call::Open { number, nodes, h, w }, &mut now);
        records.push(now.record.clone());
        let mut tick = 0;
        for _ in 0..6 {
            tick += random.below(2 * w + 2);
            let other = (number + 1 + random.below(nodes)) % nodes;
            let kind = u64::from(random.pick(b"HOR"));
            compared.call(Call::Deliver { tick, kind, sender: other, subject: other, list: 0 }, &mut now);
            let (sender, list) = (u64::from(now.record[EMITTER]), some(&mut random, nodes));
            compared.call(Call::Deliver { tick, kind: H, sender, subject: 0, list }, &mut now);
            compared.call(Call::Timers { tick }, &mut now);
            records.push(now.record.clone());
        }
    }
    records
}

/// Each node of a ring gets reports of one emitter after another until it is alone, with the watch on and off, and before that a report
/// of each other node. A record that lists its emitter is refused, whatever the call.
fn reported_emitters(compared: &mut Compared) {
    for nodes in [2, 3, 5, 8, 17, 64] {
        for number in 0..nodes {
            let mut now = lent(&[0; RECORD], vec![0; PART]);
            compared.call(Call::Open { number, nodes, h: 4, w: 9 }, &mut now);
            let sender = (number + 1) % nodes;
            let report = |tick, subject: u64| Call::Deliver { tick, kind: R, sender, subject, list: 0 };
            for tick in 1..nodes {
                let emitter = u64::from(now.record[EMITTER]);
                for subject in 0..nodes {
                    compared.call(report(tick, subject), &mut now.clone());
                }
                let mut off = now.clone();
                off.record[20..24].fill(0);
                assert_eq!(compared.call(report(tick, emitter), &mut off), 0);
                let mut listed = now.clone();
                listed.record[8 + emitter as usize / 8] |= 1 << (emitter % 8);
                for call in [report(tick, emitter), report(tick, sender), Call::Timers { tick }] {
                    assert_eq!(compared.call(call, &mut listed), REFUSED_RECORD);
                }
                assert_eq!(compared.call(report(tick, emitter), &mut now), 0);
            }
            assert!(u64::from(now.record[EMITTER]) == number && now.record[20..28] == [0; 8], "node {number} of {nodes} is not alone");
        }
    }
}

fn damaged_records(compared: &mut Compared, records: &[Vec<u8>]) {
    for record in records {
        let last = number(&record[16..20]);
        for place in 0..RECORD {
            for value in 0..=255 {
                let mut damaged = record.clone();
                damaged[place] = value;
                let (sender, list) = (u64::from(damaged[EMITTER]), number(&record[LIST]));
                compared.call(Call::Timers { tick: last }, &mut lent(&damaged, vec![9; PART]));
                let call = Call::Deliver { tick: last + 1, kind: H, sender, subject: 0, list };
                compared.call(call, &mut lent(&damaged, vec![9; PART]));
            }
        }
    }
}

/// A record with each bit in its mark: refused where the node is not listed, and else taken.
fn damaged_marks(compared: &mut Compared, records: &[Vec<u8>]) {
    for record in records {
        let (last, list) = (number(&record[16..20]), number(&record[LIST]));
        for node in 0..64 {
            let mut marked = record.clone();
            marked[MARK.start + node / 8] |= 1 << (node % 8);
            let wanted = if list >> node & 1 == 1 { 0 } else { REFUSED_RECORD };
            assert_eq!(compared.call(Call::Timers { tick: last }, &mut lent(&marked, vec![9; PART])), wanted);
        }
    }
}

/// A message with each bit in its list, of each kind: refused by 11 from N on, whatever the part, and else taken; on O and R with what the
/// same message does without a list.
fn lists(compared: &mut Compared, records: &[Vec<u8>]) {
    for record in records.iter().filter(|record| record[1] > 1) {
        let (tick, nodes, emitter) = (number(&record[16..20]), u64::from(record[1]), u64::from(record[EMITTER]));
        let other = (u64::from(record[0]) + 1) % nodes;
        for (kind, sender) in [(H, emitter), (H, other), (O, other), (R, other)] {
            let deliver = |list| Call::Deliver { tick, kind, sender, subject: other, list };
            let mut plain = lent(record, vec![9; PART]);
            compared.call(deliver(0), &mut plain);
            for node in 0..64 {
                for list in [1 << node, 1 << node | 1, u64::MAX >> (63 - node)] {
                    let mut now = lent(record, vec![9; PART]);
                    let answer = compared.call(deliver(list), &mut now);
                    let short = compared.call(deliver(list), &mut lent(record, vec![9; PART - 1]));
                    let taken = node < nodes && sender != u64::from(record[0]);
                    assert_eq!(answer, if taken { 0 } else { REFUSED_MESSAGE });
                    assert_eq!(short, if taken { REFUSED_PART } else { REFUSED_MESSAGE });
                    assert!(!taken || kind == H || now == plain);
                }
            }
        }
    }
}

fn lengths(compared: &mut Compared, records: &[Vec<u8>]) {
    for record in records {
        for size in 0..=130 {
            let mut bytes = record.clone();
            bytes.resize(size, 0);
            for part in [0, PART / 2, PART - 1, PART, PART + 1] {
                let mut other = lent(&bytes, vec![7; part]);
                compared.call(Call::Open { number: 1, nodes: 3, h: 1, w: 1 }, &mut other.clone());
                compared.call(Call::Open { number: 3, nodes: 3, h: 1, w: 1 }, &mut other.clone());
                compared.call(Call::Timers { tick: MAX_TICK }, &mut other.clone());
                compared.call(Call::Deliver { tick: MAX_TICK, kind: O, sender: 0, subject: 0, list: 0 }, &mut other);
            }
        }
        for part in 0..=PART + 24 {
            compared.call(Call::Timers { tick: MAX_TICK }, &mut lent(record, vec![7; part]));
            compared.call(Call::Timers { tick: 0 }, &mut lent(record, vec![7; part]));
        }
    }
}

fn numbers(compared: &mut Compared, records: &[Vec<u8>]) {
    let edges: Vec<u64> =
        (0..=66).chain([71, 72, 73, 78, 79, 80, 81, 82, 83, 255, 256, 328, 999, 1_000, 1_001, 65_535, 65_536, u64::MAX]).collect();
    for &a in &edges {
        for &b in &edges {
            compared.call(Call::Open { number: a, nodes: b, h: 5, w: 5 }, &mut lent(&[1; RECORD], Vec::new()));
            compared.call(Call::Open { number: 0, nodes: 9, h: a, w: b }, &mut lent(&[1; RECORD], Vec::new()));
        }
    }
    for record in records {
        let last = number(&record[16..20]);
        let ticks = [0, last.wrapping_sub(1), last, last + 1, MAX_TICK, MAX_TICK + 1, 1 << 32 | last, u64::MAX];
        for tick in ticks {
            for &kind in &[H, O, R] {
                for &sender in &edges {
                    let call = Call::Deliver { tick, kind, sender, subject: sender.wrapping_add(1) & 63, list: 0 };
                    compared.call(call, &mut lent(record, vec![3; PART + 1]));
                    let call = Call::Deliver { tick, kind, sender: 0, subject: sender, list: sender };
                    compared.call(call, &mut lent(record, vec![3; PART + 1]));
                }
            }
            for &kind in &edges {
                compared.call(Call::Deliver { tick, kind, sender: 0, subject: 1, list: 0 }, &mut lent(record, vec![3; PART]));
            }
            compared.call(Call::Timers { tick }, &mut lent(record, vec![3; PART]));
        }
    }
}

fn main() {
    let seed = common::seed();
    println!("host: seed {seed}");
    let mut compared = Compared::new(Wrong::No);
    for i in 0..600 {
        sequence(&mut compared, seed + i);
    }
    reported_emitters(&mut compared);
    let records = reached(&mut compared, seed);
    damaged_records(&mut compared, &records);
    damaged_marks(&mut compared, &records);
    lists(&mut compared, &records);
    lengths(&mut compared, &records);
    numbers(&mut compared, &records);
    for wrong in [
        Wrong::RenewedByAnyone,
        Wrong::ShortAfterMoving,
        Wrong::ShortAfterReport,
        Wrong::ReportedEmitterKept,
        Wrong::LastTickLost,
        Wrong::ListNotAdded,
        Wrong::ListAddedFromAnyone,
        Wrong::MarkedByHeartbeat,
        Wrong::ExpiredUnmarked,
        Wrong::ListNotSent,
    ] {
        tells(wrong, seed);
    }
    let Compared { calls, accepted, reported, alone, learnt, relayed, .. } = compared;
    println!("host: {calls} calls alike, {accepted} of them accepted; {reported} moves by report, {alone} of them to be alone; wrong rules told apart");
    println!("host: {learnt} heartbeats added to a list, {relayed} reports of listed nodes were passed on");
    assert!(reported > 10_000 && alone > 300, "too few moves by report");
    assert!(learnt > 3_000 && relayed > 500, "too few lists that came with heartbeats");
    assert_eq!(common::never_given(), Ok(()));
}
