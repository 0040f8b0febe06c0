//! The unused bytes of stores, through the static library: each in turn is set to 1 and to 255, and step, run, the run-file writer and
//! the dispatcher with a part of this one store have to answer 7 and to leave the store, their parts and the numbers behind their
//! pointers as they were. Each store is first seen in range: the calls on it are accepted, and leave what the simulator leaves.
//!
//! The stores have one node, 64 and some between; a Q line or none; rows and messages none, some and full; W at least H + D, and less. What is
//! unused of a column has every rest after whole eights, and every length below eight. A lone node sends nothing: its stores have no messages.
//!
//! Usage: unused. A difference prints the store, the byte and the call, and the program fails.
//!
//! Built with `--cfg mock`, it tests itself: the calls are then those of unused_mock.rs, which make one mistake after another, and each
//! mistake has to be found.

mod calls;
mod common;
mod lent;
mod stores;
#[cfg(mock)]
mod unused_mock;

use calls::{dispatcher, last_letter, proved, refused, simulated, Call};
#[cfg(mock)]
use common::found;
use common::{ended, same};
use lent::Lent;
use simulator::dispatch::dispatch;
use simulator::generator::Draft;
use simulator::layout::Counts;
use simulator::limits::*;
use simulator::store;
use std::ops::Range;
use std::process::ExitCode;
use stores::reached;

/// What an unused byte is set to.
const VALUES: [u8; 2] = [1, 255];
/// Budgets of the runs, by turns: none, one event, those between which a run changes how it finds its events, and all.
const BUDGETS: [u64; 5] = [0, 1, 11, 12, u64::MAX];
/// The dispatcher's turn length and turns.
const TURNS: (u64, u64) = (1, 1);

/// The part that is lent to a call beside the store.
fn part_of(call: Call) -> Lent {
    Lent::filled(match call {
        Call::Step => LOG_BYTES,
        Call::Run { .. } => 0,
        Call::Write => FILE_BYTES,
    })
}

// ---- stores

/// How many places of a store are used, as docs/LAYOUTS.md counts them.
#[derive(Clone, Copy, PartialEq, Eq, Debug)]
struct Size {
    nodes: usize,
    ordered: bool,
    crashes: usize,
    delays: usize,
    messages: usize,
}

/// How many there are of what a store may have more or less of.
#[derive(Clone, Copy, PartialEq, Eq, Debug)]
enum Amount {
    None,
    Some,
    Full,
}

const AMOUNTS: [Amount; 3] = [Amount::None, Amount::Some, Amount::Full];

fn amount(count: usize, most: usize) -> Amount {
    match count {
        0 => Amount::None,
        _ if count == most => Amount::Full,
        _ => Amount::Some,
    }
}

impl Size {
    /// C and L rows together: full where there is no room for another of either.
    fn rows(&self) -> Amount {
        amount(self.crashes + self.delays, self.nodes + MAX_DELAY_ROWS)
    }

    fn in_flight(&self) -> Amount {
        amount(self.messages, MAX_IN_FLIGHT)
    }

    /// The head, six fields of a node and its place in the Q line, two fields of a row, seven of a message.
    fn used(&self) -> usize {
        let Size { nodes, ordered, crashes, delays, messages } = *self;
        29 + (26 + usize::from(ordered)) * nodes + 5 * (crashes + delays) + 24 * messages
    }

    /// What the store's bytes 0, 28, 6, 24, 25, 26 and 27 say.
    fn told(bytes: &[u8]) -> Size {
        let two = |place: usize| usize::from(bytes[place]) + 256 * usize::from(bytes[place + 1]);
        Size {
            nodes: usize::from(bytes[0]),
            ordered: bytes[28] > 0,
            crashes: usize::from(bytes[6]),
            delays: two(24),
            messages: two(26),
        }
    }

    /// A store of this size. From tick 1 on each node sends a heartbeat a tick; before tick 1 + D none is delivered, so that as many events
    /// lead there as messages are in flight. They come to N × D, at most 2,048. The crashes are at the end tick; the L rows' delay is D. W is
    /// H + D, of a lone node without a Q line a tick less.
    fn store(&self) -> Vec<u8> {
        let [nodes, crashes, delays, messages] = [self.nodes, self.crashes, self.delays, self.messages].map(|count| count as u64);
        let (delay, end) = ((MAX_IN_FLIGHT as u64 / nodes).min(MAX_DELAY), 300);
        let draft = Draft {
            nodes,
            period: 1,
            timeout: if nodes == 1 && !self.ordered { delay } else { 1 + delay },
            delay,
            end,
            order: if self.ordered { (0..nodes).rev().collect() } else { Vec::new() },
            crashes: (0..crashes).map(|node| (end, node)).collect(),
            delays: (0..delays).map(|number| (number, delay)).collect(),
        };
        reached(&draft.bytes(), messages)
    }
}

const fn size(nodes: usize, ordered: bool, crashes: usize, delays: usize, messages: usize) -> Size {
    Size { nodes, ordered, crashes, delays, messages }
}

/// Sizes of stores beside those of 64 nodes.
const SIZES: [Size; 4] = [size(1, true, 0, 0, 0), size(1, false, 1, 13, 0), size(1, true, 1, 2_048, 0), size(61, false, 60, 1_998, 2_013)];

/// Five nodes in the midst of a run with W below H + D: one has crashed, others are listed though they live, and O and R are in flight
/// beside H.
const MIDST: (&str, u64, Size) = ("P,5,2,4,3,60\nQ,0,2,4,3,1\nC,5,3\nC,40,1\nL,2,1\nL,7,2\n", 43, size(5, true, 2, 2, 23));

/// C rows, L rows and messages of the stores of 64 nodes: all pairs of amounts of rows and messages.
const PAIRS: [(usize, usize, usize); 9] = [
    (0, 0, 0),
    (0, 0, 1_537),
    (0, 0, 2_048),
    (13, 1_001, 0),
    (59, 2_042, 2_041),
    (62, 2_047, 2_048),
    (64, 2_048, 0),
    (64, 2_048, 2_035),
    (64, 2_048, 2_048),
];

/// All stores with their sizes. Of those of 64 nodes every other one has a Q line.
fn all_stores() -> Vec<(Size, Vec<u8>)> {
    let pair = |(index, (crashes, delays, messages))| size(64, index % 2 == 1, crashes, delays, messages);
    let (file, events, midst) = MIDST;
    let made = SIZES.into_iter().chain(PAIRS.into_iter().enumerate().map(pair)).map(|size| (size, size.store()));
    [(midst, reached(file.as_bytes(), events))].into_iter().chain(made).collect()
}

/// The unused parts: as the simulator has them, and as many bytes as the size says, none of them twice.
fn unused(size: &Size, bytes: &[u8]) -> Result<Vec<Range<usize>>, String> {
    same("the store's head", Size::told(bytes), *size)?;
    let counts = Counts::read(bytes).ok_or("the store has other counts than a store may have")?;
    let parts: Vec<Range<usize>> = counts.unused().filter(|part| !part.is_empty()).collect();
    if parts.windows(2).any(|pair| pair[0].end > pair[1].start) {
        return Err("an unused byte comes up twice".to_string());
    }
    same("the count of unused bytes", parts.iter().map(Range::len).sum(), STORE_BYTES - size.used())?;
    Ok(parts)
}

// ---- the calls

/// Each call on the store as it is: accepted, and as the simulator does it.
fn accepted(bytes: &[u8]) -> Result<(), String> {
    for call in BUDGETS.map(|budget| Call::Run { budget }).into_iter().chain([Call::Step, Call::Write]) {
        let (mut store, mut part) = (Lent::new(bytes), part_of(call));
        let (mut held, mut part_left) = (store::decode(bytes).ok_or("the store is out of range")?, part.part().to_vec());
        let wanted = simulated(call, Some(&mut held), &mut part_left);
        let told = |error| format!("{call:?} on the store as it is: {error}");
        same("the simulator", wanted[0], 0).map_err(told)?;
        same("the call", proved::call(call, store.part_mut(), part.part_mut()), wanted).map_err(told)?;
        store.holds("store", &held.encode()).map_err(told)?;
        part.holds("part", &part_left).map_err(told)?;
    }
    let (mut store, mut left, (length, turns)) = (Lent::new(bytes), bytes.to_vec(), TURNS);
    let wanted = dispatcher::answer_of(&dispatch(&mut left, length, turns));
    same("the simulator's dispatcher", wanted.number, 0)?;
    same("the dispatcher on the store as it is", proved::dispatch(store.part_mut(), length, turns), wanted)?;
    store.holds("store", &left).map_err(|error| format!("the dispatcher on the store as it is: {error}"))
}

/// A store, and what is lent beside it, with how all of it has to stand.
struct Trial {
    store: Lent,
    left: Vec<u8>,
    log: Lent,
    file: Lent,
    calls: u64,
}

impl Trial {
    fn new(bytes: &[u8]) -> Trial {
        let [log, file] = [Call::Step, Call::Write].map(part_of);
        Trial { store: Lent::new(bytes), left: bytes.to_vec(), log, file, calls: 0 }
    }

    /// All calls answer 7 and leave the numbers behind their pointers.
    fn refused(&mut self, budget: u64) -> Result<(), String> {
        let store = self.store.part_mut();
        let seven = refused(REFUSED_STORE);
        same("step", proved::call(Call::Step, store, self.log.part_mut()), seven)?;
        same("run", proved::call(Call::Run { budget }, store, &mut []), seven)?;
        same("write", proved::call(Call::Write, store, self.file.part_mut()), seven)?;
        same("dispatch", proved::dispatch(store, TURNS.0, TURNS.1), dispatcher::refused(REFUSED_STORE))?;
        self.calls += 4;
        Ok(())
    }

    /// Sets the byte to the value for all calls, and back to zero.
    fn set(&mut self, place: usize, value: u8, budget: u64) -> Result<(), String> {
        for byte in [&mut self.store.part_mut()[place], &mut self.left[place]] {
            if std::mem::replace(byte, value) != 0 {
                return Err("the byte is not zero".to_string());
            }
        }
        self.refused(budget)?;
        self.store.holds("store", &self.left)?;
        (self.store.part_mut()[place], self.left[place]) = (0, 0);
        Ok(())
    }

    /// The parts beside the store are as they were lent, after all the calls: nothing puts back what one of them writes.
    fn parts_left(&self) -> Result<(), String> {
        self.log.holds("log part", part_of(Call::Step).part())?;
        self.file.holds("run file's part", part_of(Call::Write).part())
    }
}

// ----

/// What came up, for the summary.
#[derive(Default)]
struct Seen {
    sizes: Vec<Size>,
    /// How long the unused parts are.
    lengths: Vec<usize>,
    calls: u64,
    /// Stores with W below H + D.
    short: u64,
}

fn all(seen: &mut Seen, stores: &[(Size, Vec<u8>)]) -> Result<(), String> {
    for (size, bytes) in stores {
        let told = |error| format!("{size:?}: {error}");
        let parts = unused(size, bytes).map_err(told)?;
        seen.lengths.extend(parts.iter().map(Range::len));
        seen.sizes.push(*size);
        seen.short += u64::from(last_letter(bytes) == b'F');
        accepted(bytes).map_err(told)?;
        let mut trial = Trial::new(bytes);
        for (turn, (place, value)) in parts.into_iter().flatten().flat_map(|place| VALUES.map(|value| (place, value))).enumerate() {
            let budget = BUDGETS[turn % BUDGETS.len()];
            trial.set(place, value, budget).map_err(|error| told(format!("byte {place} set to {value}, budget {budget}: {error}")))?;
        }
        trial.parts_left().map_err(|error| told(format!("after calls that are refused, {error}")))?;
        seen.calls += trial.calls;
    }
    Ok(())
}

/// Something of this kind has to come up.
fn need<T>(seen: &[T], kind: String, is_kind: impl Fn(&T) -> bool) -> Result<(), String> {
    if seen.iter().any(is_kind) {
        return Ok(());
    }
    Err(format!("nothing came up with {kind}"))
}

/// Of 64 nodes all pairs of amounts come up, and each amount with a Q line and without; of one node each amount of rows, a Q line and none;
/// unused parts with each rest after whole eights, and of each length below eight.
fn every_kind(Seen { sizes, lengths, .. }: &Seen) -> Result<(), String> {
    for (rows, messages) in AMOUNTS.into_iter().flat_map(|rows| AMOUNTS.map(|messages| (rows, messages))) {
        let is_kind = |size: &Size| size.nodes == 64 && (size.rows(), size.in_flight()) == (rows, messages);
        need(sizes, format!("64 nodes, rows {rows:?}, messages {messages:?}"), is_kind)?;
    }
    for (ordered, amount) in [false, true].into_iter().flat_map(|ordered| AMOUNTS.map(|amount| (ordered, amount))) {
        let is_kind = |size: &Size| size.nodes == 64 && size.ordered == ordered;
        need(sizes, format!("64 nodes, Q {ordered}, rows {amount:?}"), |size| is_kind(size) && size.rows() == amount)?;
        need(sizes, format!("64 nodes, Q {ordered}, messages {amount:?}"), |size| is_kind(size) && size.in_flight() == amount)?;
        need(sizes, format!("1 node, Q {ordered}"), |size| size.nodes == 1 && size.ordered == ordered)?;
        need(sizes, format!("1 node, rows {amount:?}"), |size| size.nodes == 1 && size.rows() == amount)?;
    }
    for rest in 0..8 {
        need(lengths, format!("rest {rest} after eights"), |length| *length >= 8 && length % 8 == rest)?;
    }
    for short in 1..8 {
        need(lengths, format!("{short} unused bytes side by side"), |length| *length == short)?;
    }
    Ok(())
}

fn summary(seen: &Seen) -> Result<String, String> {
    every_kind(seen)?;
    let Seen { sizes, lengths, calls, short } = seen;
    if *short < 2 || *short as usize > sizes.len() / 2 {
        return Err(format!("{short} stores have a W below H + D"));
    }
    let count = |is_kind: fn(&Size) -> bool| sizes.iter().filter(|size| is_kind(size)).count();
    let (one, most, ordered) = (count(|size| size.nodes == 1), count(|size| size.nodes == 64), count(|size| size.ordered));
    let (stores, parts, bytes) = (sizes.len(), lengths.len(), lengths.iter().sum::<usize>());
    println!("unused: {stores} stores, {most} of 64 nodes and {one} of one, which sends nothing; {ordered} have a Q line, {short} a W below H + D");
    println!("unused: {parts} unused parts, of {bytes} bytes, each of them set to {VALUES:?}");
    Ok(format!("{calls} calls of step, run, write and dispatch on {stores} stores with one of {bytes} unused bytes set are refused by 7"))
}

/// Each of the mock's mistakes is found.
#[cfg(mock)]
fn mistakes(stores: &[(Size, Vec<u8>)]) -> Result<(), String> {
    for mistake in unused_mock::mistakes() {
        unused_mock::make(mistake);
        let found = found(all(&mut Seen::default(), stores)).ok_or(format!("not found: {mistake:?}"))?;
        println!("unused: {mistake:?} is found: {found}");
    }
    unused_mock::make(unused_mock::Mistake::Nothing);
    Ok(())
}

#[cfg(not(mock))]
fn mistakes(_: &[(Size, Vec<u8>)]) -> Result<(), String> {
    Ok(())
}

fn main() -> ExitCode {
    let (stores, mut seen) = (all_stores(), Seen::default());
    let compared = mistakes(&stores).and_then(|()| all(&mut seen, &stores)).and_then(|()| summary(&seen));
    ended("unused", compared)
}
