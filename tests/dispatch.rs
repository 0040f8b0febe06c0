//! The dispatcher's call through the static library, beside the simulator: turns of up to eight stores in one part. Every call must give
//! the same answer and leave the same part and the same numbers behind its pointers: on vectors worked by hand, on parts of every length
//! about whole stores, with each store of a part damaged in turn, and on parts of stores of all kinds, several calls one after another with
//! steps and runs of single stores between them. Of each accepted call it is also tested, by runs of the library on single stores, that
//!
//! - each store holds what a run of it by itself leaves, with the length of all its turns as budget, and has that run's events;
//! - no store that has an event left and is not stopped waits more than seven turns of others;
//! - turns are missing only where no store can go on.
//!
//! The call does not say to whom each turn goes. On some parts it is made with 0, 1, 2 and so on turns, which shows that too. Stores with W
//! below H + D stand beside others in one part, and each ends in its own letter.
//!
//! Usage: dispatch [SEED [COUNT]]. A difference prints its seed and index and the call, and the program fails.
//!
//! Built with `--cfg mock`, it tests itself: the call is then that of dispatch_mock.rs, which makes one mistake after another, and each
//! mistake has to be found.

mod calls;
mod common;
#[cfg(mock)]
mod dispatch_mock;
mod lent;
#[cfg(mock)]
mod mock;
mod stores;

use calls::dispatcher::{accepted, answer_of, refused, Answer};
use calls::{is_end, last_letter, proved, simulated, Call};
#[cfg(mock)]
use common::found;
use common::{count, ended, same, seed};
use lent::Lent;
use simulator::dispatch::{dispatch, Given};
use simulator::generator::{self, Draft, ORDERS, SMALL};
use simulator::layout::{self, Field};
use simulator::limits::*;
use simulator::plan::{self, Plan};
use simulator::platform::{Ending, Platform};
use simulator::random::Random;
use simulator::store;
use std::ops::Range;
use std::process::ExitCode;
use stores::{platform_of, reached};

/// How many parts are made up where no count is given.
const COUNT: u64 = 400;
/// Calls on one of them.
const CALLS: u64 = 6;
/// Parts of which the turns are read off the call one by one, and how many turns of each.
const TURN_BY_TURN: u64 = 24;
const TURNS: u64 = 30;
/// Turn lengths in range, those at which a run may change how it finds its events among them.
const LENGTHS: [u64; 8] = [1, 2, 11, 12, 13, 100, 999, 1_000];
/// Turn lengths out of range, two of them in range where the upper bits are lost.
const BAD_LENGTHS: [u64; 5] = [0, 1_001, 65_537, 1 << 32 | 1, u64::MAX];

/// Where a part has the store of this index.
fn place_of(index: usize) -> Range<usize> {
    index * STORE_BYTES..(index + 1) * STORE_BYTES
}

// ---- the comparison

/// What came up, for the summary.
#[derive(Default)]
struct Seen {
    calls: u64,
    /// How often each number was answered; of 7, how often with each index of each number of stores out of range.
    numbers: [u64; 16],
    damaged: [[u64; MAX_STORES]; MAX_STORES],
    /// Accepted calls by how many stores the part has, by turn length, and by turns: none asked for, all given, fewer.
    stores: [u64; MAX_STORES],
    lengths: [u64; LENGTHS.len()],
    turns: [u64; 3],
    /// All turns that were given.
    given: u64,
    /// How often a store was passed over since it was done, and since it was stopped, by index.
    done_skipped: [u64; MAX_STORES],
    stopped_skipped: [u64; MAX_STORES],
    /// Stores that were stopped, by index; in a turn without events, and in one with some; in their first turn, and in a later one.
    stopped: [u64; MAX_STORES],
    refused_after: [u64; 2],
    refused_in: [u64; 2],
    /// Stores that did their last event within a call: before the end of their turn, and at its end.
    finished: [u64; 2],
    /// Stores that waited seven turns.
    waited: u64,
    /// Stores whose next message number passed its bound, and went on.
    passed_bound: u64,
    /// Calls on single stores in between.
    between: u64,
    /// Turns that were read off the call itself.
    read_off: u64,
    /// Accepted calls by the stores of their part: all with W at least H + D, all with less, both.
    timeouts: [u64; 3],
    /// Turns of stores with W below H + D; such stores that were stopped, and that did their last event.
    short: [u64; 3],
    /// Steps of single stores that answer E, and F.
    ends: [u64; 2],
}

impl Seen {
    /// Makes the call both ways.
    fn call(&mut self, part: &mut Lent, length: u64, turns: u64) -> Result<Answer, String> {
        let before = part.part().to_vec();
        let mut left = before.clone();
        let simulated = dispatch(&mut left, length, turns);
        let answer = proved::dispatch(part.part_mut(), length, turns);
        let told = |error| format!("{turns} turns of {length} in a part of {} bytes: {error}", before.len());
        same("the call", answer, answer_of(&simulated)).map_err(told)?;
        part.holds("part", &left).map_err(told)?;
        self.calls += 1;
        self.numbers[answer.number as usize] += 1;
        if let Ok(given) = simulated {
            self.count(&before, &given, length, turns);
            for index in 0..before.len() / STORE_BYTES {
                let stores = [&before[place_of(index)], &left[place_of(index)]];
                self.alone(stores, index, &given, (length, turns)).map_err(|error| told(format!("store {index} {error}")))?;
            }
        }
        Ok(answer)
    }

    fn count(&mut self, part: &[u8], given: &Given, length: u64, turns: u64) {
        let stores = part.len() / STORE_BYTES;
        self.stores[stores - 1] += 1;
        let short = (0..stores).filter(|index| last_letter(&part[place_of(*index)]) == b'F').count();
        self.timeouts[if short == 0 { 0 } else { 1 + usize::from(short < stores) }] += 1;
        if let Some(place) = LENGTHS.iter().position(|other| *other == length) {
            self.lengths[place] += 1;
        }
        self.turns[if turns == 0 { 0 } else { 1 + usize::from((given.turns.len() as u64) < turns) }] += 1;
        self.given += given.turns.len() as u64;
        let mut next = 0;
        for turn in &given.turns {
            while next != *turn {
                let skipped = if given.stopped[next] { &mut self.stopped_skipped } else { &mut self.done_skipped };
                skipped[next] += 1;
                next = (next + 1) % stores;
            }
            next = (next + 1) % stores;
        }
    }

    /// What the request says of one store of an accepted call, `before` and `after` it, held against a run of the library by itself. The call
    /// and the simulator agree on all that is looked at here but for the list of turns, which is the simulator's.
    fn alone(&mut self, [before, after]: [&[u8]; 2], index: usize, given: &Given, (length, turns): (u64, u64)) -> Result<(), String> {
        let (of_store, mut alone) = (given.turns_of(index), before.to_vec());
        let [number, events, spent, ..] = proved::call(Call::Run { budget: of_store * length }, &mut alone, &mut []);
        let (stopped, still) = (number == u64::from(REFUSED_EVENT), number == 0 && spent == 1);
        same("run by itself", (events, stopped), (given.events[index], given.stopped[index]))?;
        if alone != after {
            return Err("holds other than what a run by itself leaves".to_string());
        }
        let wait = given.longest_wait(index, still);
        if wait > MAX_STORES - 1 {
            return Err(format!("waits {wait} turns of others"));
        }
        if still && (given.turns.len() as u64) < turns {
            return Err(format!("can go on after {} of {turns} turns", given.turns.len()));
        }
        self.waited += u64::from(wait == MAX_STORES - 1);
        if last_letter(after) == b'F' {
            let finished = of_store > 0 && !still && !stopped;
            self.short.iter_mut().zip([of_store, u64::from(stopped), u64::from(finished)]).for_each(|(sum, count)| *sum += count);
        }
        self.passed_bound += u64::from(layout::get(after, layout::NEXT_NUMBER, 0) > MAX_NEXT_NUMBER + 1);
        if stopped {
            self.stopped[index] += 1;
            self.refused_after[usize::from(events > (of_store - 1) * length)] += 1;
            self.refused_in[usize::from(of_store > 1)] += 1;
        } else if of_store > 0 && !still {
            self.finished[usize::from(events == of_store * length)] += 1;
        }
        Ok(())
    }

    /// A call on one store of the part.
    fn between(&mut self, call: Call, part: &mut Lent, index: usize) -> Result<(), String> {
        let mut left = part.part().to_vec();
        let (mut log, mut log_left) = ([b' '; LOG_BYTES], [b' '; LOG_BYTES]);
        let mut held = store::decode(&left[place_of(index)]);
        let wanted = simulated(call, held.as_mut(), &mut log_left);
        if let Some(held) = held {
            left[place_of(index)].copy_from_slice(&held.encode());
        }
        let answer = proved::call(call, &mut part.part_mut()[place_of(index)], &mut log);
        self.between += 1;
        let told = |error| format!("{call:?} of store {index}: {error}");
        same("the call", (answer, log), (wanted, log_left)).map_err(told)?;
        if call == Call::Step && answer[0] == 0 && is_end(answer[1]) {
            let letter = last_letter(&part.part()[place_of(index)]);
            self.ends[usize::from(letter == b'F')] += 1;
            same("the last letter", answer[1], u64::from(letter)).map_err(told)?;
        }
        part.holds("part", &left).map_err(told)
    }
}

// ---- stores

/// Runs of eight, six, one and no events; a run that is refused by 8 after 2,048.
const EIGHT: &str = "P,2,2,3,1,6\nC,3,1\n";
const SIX: &str = "P,2,1,2,1,2\nC,2,1\n";
const ONE: &str = "P,1,1,2,1,5\nC,0,0\n";
const NONE: &str = "P,1,1,2,1,5\n";
const OVERFULL: &str = "P,64,1,34,33,200\n";
/// With W below H + D: runs of three events, of one and of none; and one that is refused by 8 after 2,048, at the first watch.
const SHORT: &str = "P,2,2,2,1,6\nC,3,1\n";
const SHORT_ONE: &str = "P,1,1,1,1,5\nC,0,0\n";
const SHORT_NONE: &str = "P,1,1,1,1,5\n";
const SHORT_OVERFULL: &str = "P,64,1,33,40,33\n";

fn opened(file: &str) -> Vec<u8> {
    reached(file.as_bytes(), 0)
}

/// A store so many events before its refusal.
fn overfull_in(events: u64) -> Vec<u8> {
    reached(OVERFULL.as_bytes(), 2_048 - events)
}

/// The same with W below H + D.
fn short_overfull_in(events: u64) -> Vec<u8> {
    reached(SHORT_OVERFULL.as_bytes(), 2_048 - events)
}

/// The store with one of its numbers changed.
fn changed(store: &[u8], field: Field, number: u64) -> Vec<u8> {
    let mut changed = store.to_vec();
    layout::put(&mut changed, field, 0, number);
    changed
}

/// Stores to make parts of.
#[derive(Default)]
struct Stock {
    /// Without an event left.
    done: Vec<Vec<u8>>,
    /// As opened and in the midst of runs of some hundred events; some are soon done.
    going: Vec<Vec<u8>>,
    /// The same with thousands of events.
    long: Vec<Vec<u8>>,
    /// Refused by 8, at once or after some events.
    refusing: Vec<Vec<u8>>,
    /// In range, though no run file leads there.
    lent: Vec<Vec<u8>>,
    /// The same, with a next message number that soon passes its bound.
    last_numbers: Vec<Vec<u8>>,
}

impl Stock {
    fn new(seed: u64) -> Stock {
        let mut random = Random::seeded(seed ^ 0x7374_6f63);
        let mut stock = Stock { done: [NONE, "P,3,2,3,1,0\n", SHORT_NONE, "P,3,2,2,1,1\n"].map(opened).to_vec(), ..Stock::default() };
        let accepted = |file: &Vec<u8>| plan::read(file).ok();
        (0..60).filter_map(|index| accepted(&generator::file(seed, index, SMALL))).for_each(|plan| stock.add(plan, &mut random));
        stock.long.extend((0..24).map(|index| reached(&generator::plan(seed, index), 300 * (index % 2))));
        stock.refusing.extend([0, 0, 1, 2, 5, 11, 12, 13, 30, 999, 1_000, 1_001].map(overfull_in));
        stock.refusing.extend([0, 1, 11, 12, 999].map(short_overfull_in));
        for order in ORDERS {
            let crashes = (12..64).map(|node| (32, node)).collect();
            let file = Draft { crashes, ..generator::crowd(order) }.bytes();
            let run = platform_of(&file).run(u64::MAX);
            assert_eq!(run.ending, Ending::Refused, "the {order:?} crowd passes 2,048");
            stock.refusing.extend([0, 3, 40].map(|before| reached(&file, run.events - before)));
        }
        stock
    }

    /// The stores of a plan in several places of its run, one with any state, and one about the bound of message numbers.
    fn add(&mut self, plan: Plan, random: &mut Random) {
        let at = |events| {
            let mut platform = Platform::open(plan.clone());
            platform.run(events);
            platform
        };
        let events = at(u64::MAX).events_done();
        let places = [0, random.range(0, events), events.saturating_sub(random.range(1, 26)), events];
        for mut platform in places.map(at) {
            let stores = if platform.next_event().is_none() { &mut self.done } else { &mut self.going };
            stores.push(store::encode(&platform));
        }
        self.lent.push(stores::any(&plan, random));
        let next_number = MAX_NEXT_NUMBER - random.pick(&[0, 0, 1, 4]);
        self.last_numbers.push(changed(&store::encode(&at(random.range(0, events / 2))), layout::NEXT_NUMBER, next_number));
    }

    /// Any of these stores.
    fn any<'a>(&'a self, random: &mut Random) -> &'a [u8] {
        let Stock { done, going, long, refusing, lent, last_numbers } = self;
        let usual = random.pick(&[done, done, going, going, going, long, refusing, refusing, lent]);
        let kind = if random.chance(40) { last_numbers } else { usual };
        &kind[random.below(kind.len() as u64) as usize]
    }

    /// A part of any of these stores; one in three has only such as can go on for long.
    fn part(&self, stores: usize, random: &mut Random) -> Vec<u8> {
        let busy = random.chance(3);
        let one = |_| if busy { &self.long[random.below(self.long.len() as u64) as usize] } else { self.any(random) };
        (0..stores).map(one).collect::<Vec<&[u8]>>().concat()
    }
}

// ---- turns that the call itself shows

/// The stores that differ between two parts, in their bytes or in what the answers say of them.
fn differing(one: &(Vec<u8>, Answer), other: &(Vec<u8>, Answer)) -> Vec<usize> {
    let said = |answer: &Answer, index: usize| (answer.events[index], answer.stopped >> index & 1);
    let differs = |index: &usize| one.0[place_of(*index)] != other.0[place_of(*index)] || said(&one.1, *index) != said(&other.1, *index);
    (0..one.0.len() / STORE_BYTES).filter(differs).collect()
}

/// The call with 0, 1, 2 and so on turns on copies of one part: each turn more changes one store, the one that gets it. The first turns have
/// to go to these stores.
fn read_off(seen: &mut Seen, bytes: &[u8], length: u64, to: &[usize]) -> Result<(), String> {
    let with = |turns| {
        let mut part = bytes.to_vec();
        let answer = proved::dispatch(&mut part, length, turns);
        (part, answer)
    };
    let mut last = with(0);
    for (turn, store) in to.iter().enumerate() {
        let next = with(turn as u64 + 1);
        let to = differing(&last, &next);
        if to != [*store] {
            return Err(format!("turn {turn} of {length}, counted from 0, goes to {to:?}, not to {store}"));
        }
        seen.read_off += 1;
        last = next;
    }
    Ok(())
}

fn turn_by_turn(seen: &mut Seen, stock: &Stock, seed: u64) -> Result<(), String> {
    for index in 0..TURN_BY_TURN {
        let mut random = Random::new(seed ^ 0x7265_6164, index);
        let bytes = stock.part(1 + index as usize % MAX_STORES, &mut random);
        let length = random.pick(&[1, 3, 12, 40]);
        let told = |error| format!("seed {seed} part {index}: {error}");
        seen.call(&mut Lent::new(&bytes), length, TURNS).map_err(told)?;
        let given = dispatch(&mut bytes.clone(), length, TURNS).map_err(|number| told(format!("refused by {number}")))?;
        read_off(seen, &bytes, length, &given.turns).map_err(told)?;
    }
    Ok(())
}

// ---- vectors worked by hand

/// A call: turn length and turns asked for; the stores that get them, one after another; all stores' events; and who is stopped, as bits.
type Worked<'a> = ((u64, u64), &'a [usize], &'a [u64], u64);

/// Calls one after another on a part of these stores.
fn worked(seen: &mut Seen, stores: &[Vec<u8>], calls: &[Worked]) -> Result<(), String> {
    let mut part = Lent::new(&stores.concat());
    for ((length, turns), to, of_stores, stopped) in calls {
        let mut events = [0; MAX_STORES];
        events[..of_stores.len()].copy_from_slice(of_stores);
        read_off(seen, part.part(), *length, to)?;
        let answer = seen.call(&mut part, *length, *turns)?;
        same(&format!("{turns} turns of {length}"), answer, accepted(to.len() as u64, events, *stopped))?;
    }
    Ok(())
}

/// Stores that are done get no turn, whether they were before the call or are since an earlier turn.
fn worked_done(seen: &mut Seen) -> Result<(), String> {
    let three = [EIGHT, NONE, SIX].map(opened);
    for call in [
        ((3, u64::MAX), &[0, 2, 0, 2, 0][..], &[8, 0, 6][..], 0),
        ((3, 5), &[0, 2, 0, 2, 0], &[8, 0, 6], 0),
        ((3, 4), &[0, 2, 0, 2], &[6, 0, 6], 0),
        ((3, 1), &[0], &[3], 0),
        ((3, 0), &[], &[], 0),
        ((8, 3), &[0, 2], &[8, 0, 6], 0),
        ((1_000, u64::MAX), &[0, 2], &[8, 0, 6], 0),
    ] {
        worked(seen, &three, &[call])?;
    }
    worked(seen, &[opened(NONE)], &[((1, 7), &[], &[], 0)])?;
    worked(seen, &[NONE, NONE, ONE].map(opened), &[((1, 7), &[2], &[0, 0, 1], 0)])?;
    worked(seen, &[ONE, NONE, SIX, ONE].map(opened), &[((4, 7), &[0, 2, 3, 2], &[1, 0, 6, 1], 0)])?;
    let in_turn: Vec<usize> = (0..64).map(|turn| turn % 8).collect();
    worked(seen, &[EIGHT; 8].map(opened), &[((1, 64), &in_turn, &[8; 8], 0)])
}

/// A store that refuses has used its turn, with no event or with some, and is tried again by the next call.
fn worked_refusals(seen: &mut Seen) -> Result<(), String> {
    let three = [opened(SIX), overfull_in(2), opened(EIGHT)];
    worked(seen, &three, &[((2, u64::MAX), &[0, 1, 2, 0, 1, 2, 0, 2, 2], &[6, 2, 8], 0b10)])?;
    worked(seen, &three, &[((2, 4), &[0, 1, 2, 0], &[4, 2, 2], 0)])?;
    worked(seen, &three, &[((2, 5), &[0, 1, 2, 0, 1], &[4, 2, 2], 0b10)])?;
    worked(seen, &three, &[((3, u64::MAX), &[0, 1, 2, 0, 2, 2], &[6, 2, 8], 0b10)])?;
    let calls = [
        ((3, 3), &[0, 1, 2][..], &[3, 2, 3][..], 0b10),
        ((3, 3), &[0, 1, 2], &[3, 0, 3], 0b10),
        ((3, 3), &[1, 2], &[0, 0, 2], 0b10),
        ((3, 3), &[1], &[], 0b10),
    ];
    worked(seen, &three, &calls)?;
    let four = [overfull_in(0), overfull_in(0), opened(NONE), overfull_in(0)];
    worked(seen, &four, &[((7, 2), &[0, 1], &[], 0b11), ((7, u64::MAX), &[0, 1, 3], &[], 0b1011)])?;
    let eight: Vec<Vec<u8>> = (0..8).map(|index| overfull_in(index % 3)).collect();
    let in_turn = [0, 1, 2, 3, 4, 5, 6, 7, 2, 5];
    worked(seen, &eight, &[((2, 100), &in_turn, &[0, 1, 2, 0, 1, 2, 0, 1], 0xff)])
}

/// "A call starts at index 0": with two turns a call the third store gets none before the second is done.
fn worked_starts(seen: &mut Seen) -> Result<(), String> {
    let first = ((1, 2), &[0, 1][..], &[1, 1][..], 0);
    let third = ((1, 2), &[0, 2][..], &[1, 0, 1][..], 0);
    let last = ((1, 2), &[2, 2][..], &[0, 0, 2][..], 0);
    worked(seen, &[EIGHT, SIX, EIGHT].map(opened), &[first, first, first, first, first, first, third, third, last])
}

/// The first heartbeat of the second store passes the bound of message numbers: it goes on in that call, and the next refuses it.
fn worked_bound(seen: &mut Seen) -> Result<(), String> {
    let stores = [opened(SIX), changed(&opened(EIGHT), layout::NEXT_NUMBER, MAX_NEXT_NUMBER)];
    worked(seen, &stores, &[((1, 11), &[0, 1, 0, 1, 0, 1, 0, 1, 0, 1, 0], &[6, 5], 0)])?;
    let mut part = Lent::new(&stores.concat());
    seen.call(&mut part, 1, 11)?;
    for turns in [0, 1, 9] {
        same("the next call", seen.call(&mut part, 1, turns)?, refused(REFUSED_STORE))?;
    }
    Ok(())
}

/// Stores with W below H + D beside others: they go round with them, are stopped and done like them, and each ends in its own letter. The
/// last lines of the first two differ in that alone.
fn worked_short(seen: &mut Seen) -> Result<(), String> {
    let four = [EIGHT, SHORT, NONE, SHORT_ONE].map(opened);
    worked(seen, &four, &[((2, u64::MAX), &[0, 1, 3, 0, 1, 0, 0], &[8, 3, 0, 1], 0)])?;
    worked(seen, &four, &[((2, 4), &[0, 1, 3, 0], &[4, 2, 0, 1], 0), ((1, 3), &[0, 1, 0], &[2, 1], 0)])?;
    worked(seen, &[SHORT, SHORT_NONE].map(opened), &[((1, 9), &[0, 0, 0], &[3], 0)])?;
    let stopping = [opened(SHORT), short_overfull_in(2), opened(EIGHT)];
    worked(seen, &stopping, &[((2, u64::MAX), &[0, 1, 2, 0, 1, 2, 2, 2], &[3, 2, 8], 0b10)])?;
    worked(seen, &[overfull_in(0), short_overfull_in(0)], &[((7, 9), &[0, 1], &[], 0b11)])?;
    let mut part = Lent::new(&four.concat());
    seen.call(&mut part, 1_000, 8)?;
    for (index, line) in
        ["E,6,1,0,0000000000000002\n", "F,6,1,0,0000000000000002\n", "E,5,1,0,0000000000000000\n", "F,5,0,0,0000000000000001\n"].iter().enumerate()
    {
        seen.between(Call::Step, &mut part, index)?;
        let mut log = [b' '; LOG_BYTES];
        proved::call(Call::Step, &mut part.part().to_vec()[place_of(index)], &mut log);
        same("the last line", &log[..line.len()], line.as_bytes())?;
    }
    Ok(())
}

// ---- refusals

/// The number that a part of good stores gets by its length and the turn length alone.
fn number_of(bytes: usize, length: u64) -> u8 {
    match (bytes, length) {
        (0 | 524_289.., _) => 14,
        (_, 0 | 1_001..) => 15,
        _ if bytes % 65_536 > 0 => 7,
        _ => 0,
    }
}

/// Parts of every length about whole stores, of good stores and of none, with turn lengths in and out of range.
fn part_lengths(seen: &mut Seen) -> Result<(), String> {
    let good = [ONE, SIX, NONE, EIGHT, ONE, NONE, SIX, ONE, EIGHT, SIX].map(opened).concat();
    let bad = vec![0xff; good.len()];
    let about = (1..=9).flat_map(|stores| [-1, 0, 1].map(|more| (stores * STORE_BYTES).wrapping_add_signed(more)));
    let lengths = [1, 2, 999, 1_000].into_iter().chain(BAD_LENGTHS);
    for (bytes, length) in about.chain([0, 1, 2, 600_000]).flat_map(|bytes| lengths.clone().map(move |length| (bytes, length))) {
        let number = number_of(bytes, length);
        for turns in [0, 2, u64::MAX] {
            let answer = seen.call(&mut Lent::new(&good[..bytes]), length, turns)?;
            same(&format!("{turns} turns of {length} in {bytes} bytes"), answer.number, u64::from(number))?;
        }
        let answer = seen.call(&mut Lent::new(&bad[..bytes]), length, 1)?;
        same("a part of no stores", answer, refused(if number == 0 { REFUSED_STORE } else { number }))?;
    }
    Ok(())
}

/// One store of a part is damaged, in its first or its last bytes or in a mark, or its W is 0, or a message of it carries a node from N on: the
/// whole call is refused, though that store would get no turn. With W a tick shorter, which is then below H + D, it is not damaged.
fn damaged(seen: &mut Seen) -> Result<(), String> {
    let good: Vec<Vec<u8>> = [SIX, ONE, NONE, EIGHT, ONE, EIGHT, NONE, SIX].map(opened).to_vec();
    let places = |stores: usize| (0..stores).map(move |index| (stores, index));
    for (stores, index) in (1..=MAX_STORES).flat_map(places) {
        let store = &good[index];
        let mut last_byte = store.clone();
        last_byte[STORE_BYTES - 1] = 1;
        let bounds = [(layout::NODES, 65), (layout::NEXT_NUMBER, MAX_NEXT_NUMBER + 1), (layout::MARK, 2), (layout::TIMEOUT, 0)]
            .map(|(field, number)| changed(store, field, number));
        let carried = changed(&reached(EIGHT.as_bytes(), 2), layout::MESSAGE_LIST, 4);
        for bytes in [last_byte, vec![0; STORE_BYTES], carried].into_iter().chain(bounds) {
            let mut part = good[..stores].to_vec();
            part[index] = bytes;
            for (length, turns, number) in [(1, 0, 7), (1_000, 1, 7), (2, u64::MAX, 7), (0, 1, 15)] {
                let answer = seen.call(&mut Lent::new(&part.concat()), length, turns)?;
                same(&format!("{turns} turns of {length}, store {index} of {stores} damaged,"), answer, refused(number))?;
            }
            seen.damaged[stores - 1][index] += 1;
        }
        let mut part = good[..stores].to_vec();
        part[index] = changed(store, layout::TIMEOUT, layout::get(store, layout::TIMEOUT, 0) - 1);
        same("the last letters", [store, &part[index]].map(|bytes| last_letter(bytes)), *b"EF")?;
        for (length, turns) in [(1, 0), (1_000, 1), (2, u64::MAX)] {
            let answer = seen.call(&mut Lent::new(&part.concat()), length, turns)?;
            same(&format!("{turns} turns of {length}, store {index} of {stores} with a shorter W,"), answer.number, 0)?;
        }
    }
    Ok(())
}

// ---- parts of stores of all kinds

fn some_turns(stores: u64, random: &mut Random) -> (u64, u64) {
    let (any, bad) = (random.range(1, 1_000), random.pick(&BAD_LENGTHS));
    let edge = random.pick(&LENGTHS);
    let length = random.pick(&[edge, edge, edge, any.min(40), any]);
    let length = if random.chance(30) { bad } else { length };
    let (few, many) = (random.range(0, 2 * stores + 1), random.range(20, 100));
    let turns = random.pick(&[0, 1, few, few, few, few, many]);
    (length, if random.chance(8) { random.pick(&[1 << 32, u64::MAX]) } else { turns })
}

/// Calls one after another on one part, with steps and runs of its stores in between. A store that got out of range is put out of the
/// part after the call that refuses it.
fn sequence(seen: &mut Seen, stock: &Stock, stores: usize, random: &mut Random) -> Result<(), String> {
    let mut part = Lent::new(&stock.part(stores, random));
    for place in 0..CALLS {
        let told = |error| format!("call {place}: {error}");
        let (length, turns) = some_turns(stores as u64, random);
        let answer = seen.call(&mut part, length, turns).map_err(told)?;
        for index in 0..stores {
            if answer.number == u64::from(REFUSED_STORE) && !store::check(&part.part()[place_of(index)]) {
                part.part_mut()[place_of(index)].copy_from_slice(stock.any(random));
            }
            let (few, more) = (random.range(0, 3), random.range(0, 200));
            let run = Call::Run { budget: random.pick(&[few, few, more]) };
            if random.chance(4) {
                seen.between(random.pick(&[Call::Step, run]), &mut part, index).map_err(told)?;
            }
        }
    }
    Ok(())
}

fn mixed(seen: &mut Seen, stock: &Stock, seed: u64, count: u64) -> Result<(), String> {
    for index in 0..count {
        let mut random = Random::new(seed ^ 0x7475_726e, index);
        let stores = 1 + index as usize % MAX_STORES;
        sequence(seen, stock, stores, &mut random).map_err(|error| format!("seed {seed} index {index}: {error}"))?;
    }
    Ok(())
}

// ----

fn all(seen: &mut Seen, stock: &Stock, seed: u64, count: u64) -> Result<(), String> {
    worked_done(seen)?;
    worked_refusals(seen)?;
    worked_starts(seen)?;
    worked_bound(seen)?;
    worked_short(seen)?;
    damaged(seen)?;
    part_lengths(seen)?;
    mixed(seen, stock, seed, count)?;
    turn_by_turn(seen, stock, seed)
}

/// Every kind of case has to come up.
fn summary(seen: &Seen, count: u64) -> Result<(), String> {
    let Seen { calls, numbers, damaged, stores, lengths, turns, given, between, read_off, .. } = seen;
    let Seen { done_skipped, stopped_skipped, stopped, refused_after, refused_in, finished, waited, passed_bound, .. } = seen;
    let Seen { timeouts, short, ends, .. } = seen;
    let answered = [0, 7, 14, 15].map(|number| (number, numbers[number]));
    let each_damaged: Vec<u64> = (0..MAX_STORES).flat_map(|stores| damaged[stores][..=stores].to_vec()).collect();
    println!("dispatch: {calls} calls agree; answers by number: {answered:?}; {between} calls on single stores between them");
    println!("dispatch: accepted by stores {stores:?}; by the turn lengths {LENGTHS:?} {lengths:?}");
    let [none, all, fewer] = turns;
    println!("dispatch: {none} calls without turns, {all} that give all, {fewer} that give fewer; {given} turns, {read_off} read off the call");
    println!("dispatch: by index, stores passed over as done {done_skipped:?}, as stopped {stopped_skipped:?}; stopped {stopped:?}");
    println!("dispatch: refused without and after events of the turn {refused_after:?}, in the first and a later turn {refused_in:?}");
    println!("dispatch: {finished:?} stores finished; {waited} waited seven turns; {passed_bound} passed the bound of message numbers");
    let [only_long, only_short, both] = timeouts;
    let [short_turns, short_stopped, short_finished] = short;
    println!("dispatch: accepted with W at least H + D in all stores {only_long}, in none {only_short}, in some {both}");
    println!("dispatch: {short_turns} turns of stores with W below H + D, {short_stopped} of these stopped, {short_finished} finished");
    println!("dispatch: steps of single stores that answer the last line, E and F: {ends:?}");
    let hardly = [*only_short, *short_stopped, *short_finished, ends[1]].iter().any(|met| *met < count / 10);
    if count >= COUNT && (*both < count || *short_turns < 10 * count || hardly) {
        return Err("too few stores with W below H + D came up".to_string());
    }
    let kinds: [&[u64]; 12] = [
        &answered.map(|(_, count)| count),
        &each_damaged,
        stores,
        lengths,
        turns,
        done_skipped,
        stopped_skipped,
        stopped,
        refused_after,
        refused_in,
        finished,
        &[*waited, *passed_bound, *between, *read_off],
    ];
    if count >= COUNT && kinds.iter().any(|kind| kind.iter().any(|count| *count < 4)) {
        return Err("a kind of case hardly came up".to_string());
    }
    Ok(())
}

/// Each of the mock's mistakes is found.
#[cfg(mock)]
fn mistakes(stock: &Stock, seed: u64) -> Result<(), String> {
    for mistake in dispatch_mock::MISTAKES {
        dispatch_mock::make(mistake);
        let found = found(all(&mut Seen::default(), stock, seed, 80)).ok_or(format!("not found: {mistake:?}"))?;
        println!("dispatch: {mistake:?} is found: {found}");
    }
    dispatch_mock::make(dispatch_mock::Mistake::Nothing);
    Ok(())
}

#[cfg(not(mock))]
fn mistakes(_: &Stock, _: u64) -> Result<(), String> {
    Ok(())
}

fn main() -> ExitCode {
    let (seed, count) = (seed(), count(COUNT));
    println!("dispatch: seed {seed}, {count} parts of up to eight stores");
    let (stock, mut seen) = (Stock::new(seed), Seen::default());
    let compared = mistakes(&stock, seed).and_then(|()| all(&mut seen, &stock, seed, count)).and_then(|()| summary(&seen, count));
    ended("dispatch", compared.map(|()| "passed".to_string()))
}
