//! The platform's four calls through the static library, beside the simulator: opening, step, run and the run-file writer.
//! Every call must give the same answer and leave the same lent bytes and the same numbers behind its pointers: on files good and
//! damaged, on steps and runs mixed at random, on runs of any budget from any place of a file, on stores of which every single byte is
//! changed in turn, those of the ring's order, of marks and of carried lists in more ways, on lent stores that no file leads to, and on 01's
//! edges and 02's of a Q line, of reported emitters, of the number of nodes passed, of the lists that heartbeats carry and of a W below H + D. The
//! lines K of every step are also counted once more, from its lines alone, and the letter of every last line goes by the bytes of H, W and
//! D. Of what a store holds that a file with W at least H + D led to, the words of demand 3 and of requests 106 and 107 are asked; with less
//! a live node may be listed, and all else holds: the store is in range, and the file comes back.
//!
//! Usage: platform [SEED [COUNT]]. A difference prints its seed and index, the call and the file, and the program fails.
//!
//! Built with `--cfg mock`, it tests itself: the four calls are then those of mock.rs, which make one mistake after another,
//! and each mistake has to be found.

mod calls;
mod common;
mod lent;
#[cfg(mock)]
mod mock;
mod runs;
mod stores;

use calls::{answer, is_end, last_letter, opening, proved, refused, simulated, Answer, Call};
#[cfg(mock)]
use common::found;
use common::{count, ended, same, seed, shown};
use lent::Lent;
use simulator::generator::{self, SMALL, USUAL};
use simulator::layout;
use simulator::limits::*;
use simulator::log::Line;
use simulator::node::{Content, Node};
use simulator::plan;
use simulator::platform::{Event, Platform, Step};
use simulator::queue::Message;
use simulator::random::Random;
use simulator::recount::{Moves, Recount};
use simulator::ring::listed;
use simulator::settle::{self, Claim};
use simulator::store::{self, Held};
use std::process::ExitCode;
use stores::{platform_of, reached};

/// How many files are generated where no count is given.
const COUNT: u64 = 300;
/// Calls on the store of one file.
const CALLS: u64 = 40;
/// Calls on one lent store.
const LENT_CALLS: u64 = 8;
/// Lent stores for each file that are tried for an event that tells rules apart.
const LENT_TRIES: u64 = 40;
/// Generated files in which nodes crash close together, each run in parts to its end.
const TRIPS: u64 = 60;
/// The numbers that the four calls answer, 0 where accepted.
const NUMBERS: [usize; 10] = [0, 1, 2, 3, 5, 6, 7, 8, 9, 13];

// ---- the comparison

/// What came up, for the summary.
struct Seen {
    opened: u64,
    calls: u64,
    /// How often each number was answered.
    numbers: [u64; 14],
    spent: u64,
    done: u64,
    /// Reports that moved a node, with W at least H + D and with less; and steps by which one did so and left the node alone.
    reported: [u64; 2],
    alone: u64,
    /// Moves by steps, whose lines K are counted once more.
    moves: Moves,
    /// Calls after which demand 3 says that the ring is settled, request 106 that survivors are joined, and request 107 that their lists
    /// are full.
    owed: [u64; 3],
    /// Steps by which a node lists what a heartbeat names, and by which it relays a report of a node that it lists already.
    learnt: u64,
    named: u64,
    short: Short,
    met: runs::Met,
}

/// What came up with W below H + D.
#[derive(Default)]
struct Short {
    /// Stores opened; and accepted calls on such stores, and on lent ones.
    opened: u64,
    calls: u64,
    /// Steps that answer E, and F.
    ends: [u64; 2],
    /// Stores that a file led to, and those of them in which a live node is listed.
    reached: u64,
    listing: u64,
    /// Files that came back after the calls on their store.
    written: u64,
}

impl Seen {
    fn new() -> Seen {
        Seen {
            opened: 0,
            calls: 0,
            numbers: [0; 14],
            spent: 0,
            done: 0,
            reported: [0; 2],
            alone: 0,
            moves: Moves::NONE,
            owed: [0; 3],
            learnt: 0,
            named: 0,
            short: Short::default(),
            met: runs::Met::default(),
        }
    }

    /// Counts the lines K of an accepted step once more, from its lines and whom the nodes observed before it.
    fn recount(&mut self, mut before: Recount, lines: &[u8]) -> Result<(), String> {
        for line in lines.split_inclusive(|byte| *byte == b'\n') {
            let line = Line::read(line).map_err(|number| format!("{:?} is refused by {number}", String::from_utf8_lossy(line)))?;
            before.take(line)?;
        }
        before.end()?;
        self.moves.add(&before.moves);
        Ok(())
    }

    /// What the bytes of a store hold that a file led to, which is in range. With W at least H + D no live node is listed, and the ring is
    /// settled, survivors are joined and their lists are full where demand 3, request 106 and request 107 say so.
    fn claims(&mut self, store: &Lent) -> Result<Platform, String> {
        let mut platform = store::decode(store.part()).ok_or("the store is out of range")?.platform;
        if last_letter(store.part()) == b'F' {
            self.short.reached += 1;
            self.short.listing += u64::from(!settle::no_live_node_listed(platform.nodes()));
            return Ok(platform);
        }
        let settling = settle::crashes_spaced(&platform) && settle::settling_time_passed(&mut platform);
        let owed = [settling, settle::joining_tick_passed(&mut platform), settle::listing_tick_passed(&mut platform)];
        self.owed.iter_mut().zip(owed).for_each(|(count, owed)| *count += u64::from(owed));
        let told = match () {
            () if !settle::no_live_node_listed(platform.nodes()) => "a live node is listed",
            () if !settle::demand_3(&mut platform) => "the ring is not settled",
            () if !settle::request_106(&mut platform) => "survivors are not joined",
            () if !settle::request_107(&mut platform) => "a survivor's list is not full",
            () => return Ok(platform),
        };
        Err(format!("{told} at tick {}", platform.last_tick()))
    }

    /// Counts an accepted call, and a last line, which has to have the letter that the store's P line gives.
    fn last_line(&mut self, call: Call, letter: u8, answer: &Answer) -> Result<(), String> {
        let short = letter == b'F';
        self.short.calls += u64::from(short);
        if call == Call::Step && is_end(answer[1]) {
            self.short.ends[usize::from(short)] += 1;
            same("the letter of the last line", answer[1] as u8 as char, letter as char)?;
        }
        Ok(())
    }

    /// Counts a step by which a node learns of others, or relays a report of one that it lists; `before` are the nodes before it.
    fn count_lists(&mut self, before: &[Node], answer: &Answer, platform: &Platform) {
        let (letter, node, subject) = (answer[1] as u8, answer[3] as usize, answer[4] as u8);
        let [own, now] = [before, platform.nodes()].map(|nodes| nodes.get(node));
        let (Some(own), Some(now)) = (own, now) else { return };
        self.learnt += u64::from(letter == b'H' && own.dead_list != now.dead_list);
        self.named += u64::from(letter == b'R' && listed(own.dead_list, subject) && own.mark != now.mark);
    }

    fn count(&mut self, number: u64) {
        self.calls += 1;
        if let Some(count) = self.numbers.get_mut(number as usize) {
            *count += 1;
        }
    }

    /// Opens the store both ways. What it then holds, where the file is accepted.
    fn open(&mut self, file: &[u8], store: &mut Lent) -> Result<Option<Held>, String> {
        let before = store.part().to_vec();
        let (wanted, held) = match plan::read(file) {
            Err(refusal) => (opening(refusal.number, refusal.line as u64), None),
            Ok(_) if before.len() != STORE_BYTES => (opening(REFUSED_STORE, 0), None),
            Ok(plan) => (0, Some(Held::from(Platform::open(plan)))),
        };
        let what = format!("opening {} bytes", before.len());
        let answer = proved::open(file, store.part_mut());
        self.count(answer % 256);
        self.opened += u64::from(answer == 0);
        same(&what, answer, wanted)?;
        store.holds("store", &held.as_ref().map_or(before, Held::encode)).map_err(|error| format!("{what}: {error}"))?;
        self.short.opened += u64::from(answer == 0 && last_letter(store.part()) == b'F');
        Ok(held)
    }

    /// Makes the call both ways. `held` is what the store holds, before and after.
    fn call(&mut self, call: Call, store: &mut Lent, part: &mut Lent, held: &mut Option<Held>) -> Result<Answer, String> {
        let (before, mut part_left) = (store.part().to_vec(), part.part().to_vec());
        let reported = held.as_ref().map_or(0, |held| held.platform.moves_by_report());
        let recount = held.as_ref().filter(|_| call == Call::Step).map(|held| Recount::standing(&held.platform));
        let nodes = held.as_ref().filter(|_| call == Call::Step).map(|held| held.platform.nodes().to_vec());
        let letter = held.as_ref().map(|_| last_letter(&before));
        let wanted = simulated(call, held.as_mut(), &mut part_left);
        if let Some(platform) = held.as_ref().map(|held| &held.platform).filter(|platform| platform.moves_by_report() > reported) {
            self.reported[usize::from(letter == Some(b'F'))] += platform.moves_by_report() - reported;
            self.alone += u64::from(call == Call::Step && platform.nodes()[wanted[3] as usize].emitter == wanted[3] as u8);
        }
        let store_left = held.as_ref().map_or(before, Held::encode);
        let answer = proved::call(call, store.part_mut(), part.part_mut());
        self.count(answer[0]);
        if let (Call::Run { .. }, 0) = (call, answer[0]) {
            self.spent += answer[2];
            self.done += 1 - answer[2].min(1);
        }
        let told = |error| format!("{call:?} with a part of {} bytes: {error}", part_left.len());
        same("the call", answer, wanted).map_err(told)?;
        store.holds("store", &store_left).map_err(told)?;
        part.holds("part", &part_left).map_err(told)?;
        if let (Some(letter), 0) = (letter, answer[0]) {
            self.last_line(call, letter, &answer).map_err(told)?;
        }
        if let Some(recount) = recount.filter(|_| answer[0] == 0) {
            self.recount(recount, &part.part()[..answer[5] as usize]).map_err(told)?;
        }
        if let (Some(nodes), Some(held), 0) = (nodes, &held, answer[0]) {
            self.count_lists(&nodes, &answer, &held.platform);
        }
        if !store::check(&store_left) {
            *held = None;
        }
        Ok(answer)
    }
}

// ---- generated files, steps and runs mixed at random

fn some_call(random: &mut Random) -> (Call, usize) {
    let (few, any, more) = (random.range(0, 12), random.range(0, 100), random.range(0, 400));
    let (huge, edge) = (random.pick(&[more, more, 1 << 32, u64::MAX]), random.pick(&runs::BUDGETS));
    match random.range(0, 9) {
        0..=4 => (Call::Step, random.pick(&[79, 80, 80, 80, 80, 81, 74 + few, 40 + 2 * few, any]) as usize),
        5..=8 => (Call::Run { budget: random.pick(&[edge, edge, few, few, more, huge]) }, 0),
        _ => (Call::Write, random.pick(&[FILE_BYTES, FILE_BYTES, FILE_BYTES + 1, 70_000, FILE_BYTES - 1, 0])),
    }
}

/// A length that is no store's.
fn some_room(random: &mut Random) -> usize {
    random.pick(&[0, 1, STORE_BYTES - 1, STORE_BYTES + 1, 2 * STORE_BYTES])
}

/// One file: opened, in parts of other lengths too, then called at random to its end or for some calls.
fn sequence(seen: &mut Seen, file: &[u8], random: &mut Random) -> Result<(), String> {
    seen.open(file, &mut Lent::filled(some_room(random)))?;
    let mut store = Lent::filled(STORE_BYTES);
    let mut held = seen.open(file, &mut store)?;
    if held.is_none() {
        return Ok(());
    }
    for place in 0..CALLS {
        let (call, room) = some_call(random);
        seen.call(call, &mut store, &mut Lent::filled(room), &mut held).map_err(|error| format!("call {place}: {error}"))?;
        if held.is_none() {
            return Err(format!("call {place}: {call:?} leaves a store out of range"));
        }
        seen.claims(&store).map_err(|error| format!("call {place}: {error}"))?;
    }
    comes_back(seen, &mut store, &mut held, file)?;
    let mut other = Lent::new(&[store.part(), &[0; 2]].concat()[..some_room(random).min(STORE_BYTES + 1)]);
    let (call, room) = some_call(random);
    seen.call(call, &mut other, &mut Lent::filled(room), &mut None).map(|_| ())
}

/// The run file of a store is the one that it was opened from, whatever was done since.
fn comes_back(seen: &mut Seen, store: &mut Lent, held: &mut Option<Held>, file: &[u8]) -> Result<(), String> {
    let mut part = Lent::filled(FILE_BYTES);
    let answer = seen.call(Call::Write, store, &mut part, held)?;
    if answer[0] != 0 || part.part()[..answer[1] as usize] != *file {
        return Err("the file does not come back".to_string());
    }
    seen.short.written += u64::from(last_letter(store.part()) == b'F');
    Ok(())
}

// ---- lent stores

/// A store that is reached and then changed in a few bytes, mostly within range.
fn changed_store(file: &[u8], random: &mut Random) -> Vec<u8> {
    let mut bytes = reached(file, random.pick(&[0, 40, 300, 2_000]));
    let used: Vec<usize> = (0..STORE_BYTES).filter(|place| store::is_used(&bytes, *place)).collect();
    for _ in 0..random.range(1, 12) {
        let before = bytes.clone();
        if random.chance(6) {
            stores::reorder(&mut bytes, random);
        } else {
            stores::change(&mut bytes, &used, random);
        }
        if !store::check(&bytes) && !random.chance(40) {
            bytes = before;
        }
    }
    bytes
}

/// Calls at random on a store that no file leads to.
fn lent_sequence(seen: &mut Seen, bytes: &[u8], random: &mut Random) -> Result<(), String> {
    let mut store = Lent::new(bytes);
    let mut held = store::decode(bytes);
    for place in 0..LENT_CALLS {
        let (call, room) = some_call(random);
        let told = |error| format!("call {place} on a lent store: {error}");
        seen.call(call, &mut store, &mut Lent::filled(room), &mut held).map_err(told)?;
    }
    Ok(())
}

/// Whether the next event moves an emitter, lists what a heartbeat names, or relays a report of a node that is listed.
fn tells(platform: &Platform) -> bool {
    let mut after = platform.clone();
    let Step::Event(Event { line, passed }) = after.step() else { return false };
    let [own, now] = [platform, &after].map(|platform| platform.nodes()[line.node as usize]);
    match line.letter {
        b'H' => own.dead_list != now.dead_list,
        b'R' => passed.is_some() || listed(own.dead_list, line.other as u8) && own.mark != now.mark,
        _ => passed.is_some(),
    }
}

/// Steps and runs on stores with any state in range whose next event moves an emitter, which goes by lists of all kinds, or adds to a list or
/// a mark.
fn lent_events(seen: &mut Seen, file: &[u8], random: &mut Random) -> Result<(), String> {
    let plan = plan::read(file).expect("the file is accepted");
    for _ in 0..LENT_TRIES {
        let bytes = stores::any(&plan, random);
        let held = store::decode(&bytes);
        if held.as_ref().is_some_and(|held| tells(&held.platform)) {
            let room = random.pick(&[LOG_BYTES, LOG_BYTES + 1, LOG_BYTES - 1]);
            for call in [Call::Step, Call::Run { budget: random.pick(&[1, 12]) }] {
                seen.call(call, &mut Lent::new(&bytes), &mut Lent::filled(room), &mut held.clone())
                    .map_err(|error| format!("an event on a lent store: {error}"))?;
            }
        }
    }
    Ok(())
}

/// A store of a plan's that is changed, and one with any state in range.
fn lent(seen: &mut Seen, file: &[u8], random: &mut Random) -> Result<(), String> {
    lent_sequence(seen, &changed_store(file, random), random)?;
    let any = stores::any(&plan::read(file).expect("the file is accepted"), random);
    if !store::check(&any) {
        return Err("a lent store is out of range".to_string());
    }
    lent_sequence(seen, &any, random)
}

fn generated(seen: &mut Seen, seed: u64, count: u64) -> Result<(), String> {
    for index in 0..count {
        let mut random = Random::new(seed ^ 0x7061_7274, index);
        let (file, good) = (generator::file(seed, index, USUAL), generator::plan(seed, index));
        let told = |file: &[u8], error| format!("seed {seed} index {index}: {error}\n{}", shown(file));
        sequence(seen, &file, &mut random).map_err(|error| told(&file, error))?;
        lent(seen, &good, &mut random).map_err(|error| told(&good, error))?;
        lent_events(seen, &good, &mut random).map_err(|error| told(&good, error))?;
    }
    Ok(())
}

// ---- nodes that crash close together

/// Runs of a few events or many, one after another, to the end of files at whose end survivors have to be joined and mostly to list all
/// crashed nodes, where W is at least H + D.
fn trips(seen: &mut Seen, seed: u64) -> Result<(), String> {
    for index in 0..TRIPS {
        let file = generator::tripped_plan(seed ^ 0x7472_6970, index, SMALL);
        let told = |error| format!("seed {seed} file {index} of close crashes: {error}\n{}", shown(&file));
        let mut random = Random::new(seed ^ 0x7472_6970, index);
        let (mut store, mut held) = opened(seen, &file).map_err(told)?;
        let mut spent = 1;
        while spent == 1 {
            let (few, more) = (random.range(1, 12), random.range(12, 120));
            let run = Call::Run { budget: random.pick(&[few, more]) };
            let answer = seen.call(run, &mut store, &mut Lent::filled(0), &mut held).map_err(told)?;
            seen.claims(&store).map_err(told)?;
            spent = if answer[0] == 0 { answer[2] } else { 0 };
        }
        comes_back(seen, &mut store, &mut held, &file).map_err(told)?;
    }
    Ok(())
}

// ---- every single byte changed in turn

/// Four other values of a byte, or fewer where some are its own.
fn other_values(byte: u8, place: usize) -> Vec<u8> {
    let mut values = vec![byte.wrapping_add(1), 0, 255, byte ^ 1 << (place % 8)];
    values.sort_unstable();
    values.dedup();
    values.retain(|value| *value != byte);
    values
}

/// The store with one byte changed, called. A byte that holds something gets every value and every call, one that holds
/// nothing one value and one call, by turns.
fn changed_byte(seen: &mut Seen, bytes: &[u8], place: usize) -> Result<(), String> {
    let calls = [(Call::Step, LOG_BYTES), (Call::Run { budget: 0 }, 0), (Call::Write, FILE_BYTES)];
    let used = store::is_used(bytes, place);
    let values = other_values(bytes[place], place);
    let values = if used { &values[..] } else { &values[place % values.len()..][..1] };
    for value in values {
        let mut changed = bytes.to_vec();
        changed[place] = *value;
        let held = store::decode(&changed);
        for (call, room) in if used { &calls[..] } else { &calls[place % 3..][..1] } {
            let (mut store, mut part) = (Lent::new(&changed), Lent::filled(*room));
            seen.call(*call, &mut store, &mut part, &mut held.clone())
                .map_err(|error| format!("byte {place} set to {value}: {error}"))?;
        }
    }
    Ok(())
}

/// Five nodes that soon have O and R in flight, in number order and in another.
const MIDST: &str = "P,5,2,6,3,60\nC,5,3\nC,40,1\nL,2,1\nL,7,2\n";
const ORDERED: &str = "P,5,2,6,3,60\nQ,0,2,4,3,1\nC,5,3\nC,40,1\nL,2,1\nL,7,2\n";

/// A store as opened, two in the midst of a run, and one with many messages.
fn changed_bytes(seen: &mut Seen) -> Result<(), String> {
    let many = "P,24,2,25,20,300\nC,3,7\nC,3,8\nC,90,0\nL,1,3\nL,40,7\nL,600,19\n";
    for (file, events) in [(MIDST, 0), (MIDST, 50), (ORDERED, 50), (many, 900)] {
        let bytes = reached(file.as_bytes(), events);
        for place in 0..STORE_BYTES {
            changed_byte(seen, &bytes, place)
                .map_err(|error| format!("after {events} events, {error}\n{}", shown(file.as_bytes())))?;
        }
    }
    Ok(())
}

// ---- the ring's order in a store

/// The fields of a Q line in which each node is so many numbers after the one before.
fn spread(nodes: u64, stride: u64) -> String {
    (0..nodes).map(|place| format!(",{}", place * stride % nodes)).collect()
}

/// Each call on a store with some bytes changed answers this number.
fn gets(seen: &mut Seen, bytes: &[u8], number: u8) -> Result<(), String> {
    let held = store::decode(bytes);
    for (call, room) in [(Call::Step, LOG_BYTES), (Call::Run { budget: 1 }, 0), (Call::Write, FILE_BYTES)] {
        let answer = seen.call(call, &mut Lent::new(bytes), &mut Lent::filled(room), &mut held.clone())?;
        same(&format!("{call:?}"), answer[0], u64::from(number))?;
    }
    Ok(())
}

/// Any other count, and any other number in a place, is refused by 7: a number that no node has, a node twice, a byte beyond the count.
/// A lone node's order is node 0, whether or not a line says so. Two numbers in each other's place make another order, in range.
fn changed_order(seen: &mut Seen, file: &str, events: u64) -> Result<(), String> {
    let bytes = reached(file.as_bytes(), events);
    let [nodes, count] = [layout::NODES, layout::ORDERED].map(|field| layout::get(&bytes, field, 0));
    let counts = (0..=255).map(|value| (layout::ORDERED, 0, value));
    let places = (0..64).flat_map(|place| (0..=nodes).chain([255]).map(move |value| (layout::ORDER, place, value)));
    for (field, place, value) in counts.chain(places) {
        let mut changed = bytes.clone();
        layout::put(&mut changed, field, place, value);
        let passes = changed == bytes || nodes == 1 && place == 0 && layout::get(&changed, layout::ORDER, 0) == 0 && value <= 1;
        gets(seen, &changed, if passes { 0 } else { REFUSED_STORE }).map_err(|error| format!("{field:?} {place} set to {value}: {error}"))?;
    }
    for place in 1..count as usize {
        let mut changed = bytes.clone();
        changed.swap(64 + place - 1, 64 + place);
        gets(seen, &changed, 0).map_err(|error| format!("places {} and {place} of the order swapped: {error}", place - 1))?;
    }
    Ok(())
}

fn changed_orders(seen: &mut Seen) -> Result<(), String> {
    let sixty_four = format!("P,64,2,25,20,300\nQ{}\nC,3,7\n", spread(64, 27));
    let in_numbers = "P,5,2,6,3,60\nQ,0,1,2,3,4\n";
    let alone = ["P,1,1,2,1,5\n", "P,1,1,2,1,5\nQ,0\n"];
    for (file, events) in [(alone[0], 0), (alone[1], 0), (MIDST, 50), (ORDERED, 50), (in_numbers, 0), (&sixty_four, 700)] {
        changed_order(seen, file, events).map_err(|error| format!("{error}\n{}", shown(file.as_bytes())))?;
    }
    Ok(())
}

// ---- listed emitters in a store

/// A node that lists its emitter is refused by 7, a crashed one too; one that lists another node instead is not. The first file's node 3
/// has crashed after 50 events.
fn listed_emitters(seen: &mut Seen) -> Result<(), String> {
    for (file, events) in [(MIDST, 0), (MIDST, 50), (ORDERED, 50)] {
        let bytes = reached(file.as_bytes(), events);
        for place in 0..5 {
            let emitter = layout::get(&bytes, layout::EMITTER, place);
            let another = (0..5).find(|node| *node != emitter && *node != place as u64).expect("there are five nodes");
            for (node, number) in [(emitter, REFUSED_STORE), (another, 0)] {
                let mut changed = bytes.clone();
                layout::put(&mut changed, layout::DEAD_LIST, place, 1 << node);
                layout::put(&mut changed, layout::MARK, place, 0);
                gets(seen, &changed, number).map_err(|error| format!("node {place} lists {node}: {error}\n{}", shown(file.as_bytes())))?;
            }
        }
    }
    Ok(())
}

// ---- marks and carried lists in a store

/// The five nodes of these files list all others but their emitter, the crashed ones themselves too. A mark that has any other bit is refused
/// by 7, alone or beside all that is listed; one that is part of the list is not.
fn changed_marks(seen: &mut Seen) -> Result<(), String> {
    for (file, events) in [(MIDST, 0), (MIDST, 50), (ORDERED, 50)] {
        let bytes = reached(file.as_bytes(), events);
        let crashed = platform_after(file, events).crashed();
        for place in 0..5 {
            let itself = if listed(crashed, place as u8) { 0 } else { 1 << place };
            let list = 0b11111 & !itself & !(1u64 << layout::get(&bytes, layout::EMITTER, place));
            let mut lists = bytes.clone();
            layout::put(&mut lists, layout::DEAD_LIST, place, list);
            let marks = (0..64).flat_map(|node| [1 << node, list | 1 << node, list & !(1 << node)]).chain([0, u64::MAX]);
            for mark in marks {
                layout::put(&mut lists, layout::MARK, place, mark);
                let number = if mark & !list == 0 { 0 } else { REFUSED_STORE };
                gets(seen, &lists, number).map_err(|error| format!("node {place} marks {mark:x}: {error}\n{}", shown(file.as_bytes())))?;
            }
        }
    }
    Ok(())
}

/// The simulator's platform after some of a file's events.
fn platform_after(file: &str, events: u64) -> Platform {
    let mut platform = platform_of(file.as_bytes());
    platform.run(events);
    platform
}

/// An H may carry any nodes below N, its sender and its receiver among them; a node from N on is refused by 7, and so is any list of an O or R.
/// All three kinds are in flight, in rings of five, of 63 and of 64 nodes.
fn changed_lists(seen: &mut Seen) -> Result<(), String> {
    for file in [MIDST, ORDERED, "P,63,2,6,3,60\nC,5,3\n", "P,64,2,6,3,60\nC,5,3\n"] {
        let mut platform = platform_of(file.as_bytes());
        while platform.messages().iter().all(|(_, message)| message.content != Content::NewObserver) {
            platform.step();
        }
        let (bytes, nodes) = (store::encode(&platform), platform.plan().nodes);
        let all = u64::MAX >> (64 - nodes);
        let kind = |place: usize| layout::get(&bytes, layout::MESSAGE_KIND, place) as u8;
        let last = |letter| (0..platform.in_flight()).rev().find(|place| kind(*place) == letter);
        let places = b"HOR".map(|letter| last(letter).expect("each kind is in flight"));
        let single = |place| (0..64).map(move |node| (place, 1 << node));
        for (place, list) in places.into_iter().chain([0]).flat_map(single).chain([(places[0], all)]) {
            let mut changed = bytes.clone();
            layout::put(&mut changed, layout::MESSAGE_LIST, place, list);
            let number = if kind(place) == b'H' && list & !all == 0 { 0 } else { REFUSED_STORE };
            gets(seen, &changed, number).map_err(|error| format!("message {place} carries {list:x}: {error}\n{}", shown(file.as_bytes())))?;
        }
    }
    Ok(())
}

// ---- W in a store

/// The store with another W.
fn with_timeout(bytes: &[u8], timeout: u64) -> Vec<u8> {
    let mut changed = bytes.to_vec();
    layout::put(&mut changed, layout::TIMEOUT, 0, timeout);
    changed
}

/// W may be any number of its two bytes but 0, whatever H and D: here 1,000 and 255, of a lone node that is done, so that a step answers
/// the last line.
fn any_timeout(seen: &mut Seen) -> Result<(), String> {
    let bytes = reached(b"P,1,1000,1,255,5\n", 0);
    for timeout in (0..=1_300).chain((1_300..=65_535).step_by(251)).chain([32_767, 32_768, 65_280, 65_534, 65_535]) {
        let changed = with_timeout(&bytes, timeout);
        let told = |error| format!("W set to {timeout}: {error}");
        gets(seen, &changed, if timeout == 0 { REFUSED_STORE } else { 0 }).map_err(told)?;
        let letter = if timeout < 1_255 { b'F' } else { b'E' };
        let step = seen.call(Call::Step, &mut Lent::new(&changed), &mut Lent::filled(LOG_BYTES), &mut store::decode(&changed)).map_err(told)?;
        same("a step", step[1], if timeout == 0 { refused(REFUSED_STORE)[1] } else { u64::from(letter) }).map_err(told)?;
    }
    Ok(())
}

/// Stores whose watches are all due, so that any W is in range: each W about H + D is stepped and run as the simulator does. With H or D
/// changed instead, W is short too, and that is no damage.
fn lent_timeouts(seen: &mut Seen, random: &mut Random) -> Result<(), String> {
    use layout::*;
    for (file, events) in [("P,5,2,1,3,60\nC,5,3\n", 0), (MIDST, 50), (self::ORDERED, 50), ("P,64,1000,700,255,4000\nC,3,7\n", 90)] {
        let mut bytes = reached(file.as_bytes(), events);
        let [nodes, last, period, delay] = [NODES, LAST_TICK, PERIOD, LONGEST_DELAY].map(|field| get(&bytes, field, 0));
        for node in (0..nodes as usize).filter(|node| get(&bytes, WATCH, *node) > 0).collect::<Vec<usize>>() {
            put(&mut bytes, WATCH, node, last + 1);
        }
        let enough = period + delay;
        for timeout in [0, 1, 2, 3, period, delay, enough - 1, enough, enough + 1, 2 * enough, 65_535] {
            let changed = with_timeout(&bytes, timeout);
            let told = |error| format!("W set to {timeout} after {events} events: {error}\n{}", shown(file.as_bytes()));
            gets(seen, &changed, if timeout == 0 { REFUSED_STORE } else { 0 }).map_err(told)?;
            lent_sequence(seen, &changed, random).map_err(told)?;
        }
        for (field, number) in [(PERIOD, 1_000), (LONGEST_DELAY, 255), (LONGEST_DELAY, get(&bytes, TIMEOUT, 0).min(255))] {
            let mut changed = bytes.clone();
            put(&mut changed, field, 0, number);
            gets(seen, &changed, 0).map_err(|error| format!("{field:?} set to {number}: {error}\n{}", shown(file.as_bytes())))?;
        }
    }
    Ok(())
}

// ---- 01's edges, and 02's of a Q line, of reported emitters, of nodes passed and of lists that heartbeats carry

/// A store opened from the file, and what it holds.
fn opened(seen: &mut Seen, file: &[u8]) -> Result<(Lent, Option<Held>), String> {
    let mut store = Lent::filled(STORE_BYTES);
    let held = seen.open(file, &mut store)?;
    Ok((store, held))
}

/// Opens the file and makes the calls one after another, each with this answer. The steps' lines, one after another.
fn answers(seen: &mut Seen, file: &str, calls: &[(Call, Answer)]) -> Result<String, String> {
    let (mut store, mut held) = opened(seen, file.as_bytes())?;
    let mut lines = Vec::new();
    for (call, wanted) in calls {
        let room = if *call == Call::Write { FILE_BYTES } else { LOG_BYTES };
        let mut part = Lent::filled(room);
        let answer = seen.call(*call, &mut store, &mut part, &mut held)?;
        same(&format!("{call:?}"), answer, *wanted)?;
        if *call == Call::Step && answer[0] == 0 {
            lines.extend_from_slice(&part.part()[..answer[5] as usize]);
        }
    }
    String::from_utf8(lines).map_err(|error| error.to_string())
}

fn ran(events: u64, spent: u64) -> Answer {
    answer(0, &[events, spent])
}

/// A run that is refused by 8 after so many events.
fn stopped(events: u64) -> Answer {
    answer(REFUSED_EVENT, &[events])
}

fn refused_files(seen: &mut Seen) -> Result<(), String> {
    let mut long = b"P,2,2,3,1,6\nC,3,1\n".to_vec();
    long.resize(FILE_BYTES + 1, b'\n');
    let mut many = b"P,2,2,7,5,6\n".to_vec();
    (0..=MAX_DELAY_ROWS).for_each(|number| many.extend_from_slice(format!("L,{number},5\n").as_bytes()));
    for (file, number, line) in [
        (&long[..], 1, 0),
        (b"", 1, 0),
        (&long[..FILE_BYTES], 2, 3),
        (b"P,02,", 2, 1),
        (b"P,02,2,3,1,6\n", 2, 1),
        (b"P,65,2,3,1,6\n", 3, 1),
        (b"P,2,2,0,1,6\n", 3, 1),
        (b"P,2,2,65536,1,6\n", 3, 1),
        (b"P,2,2,2,1,6\nC,3,1\nC,3,0\n", 5, 3),
        (b"P,2,2,3,1,6\nC,3,1\nC,3,0\n", 5, 3),
        (&many, 6, MAX_DELAY_ROWS as u64 + 2),
        (b"P,3,2,3,1,6\nQ,0,1\n", 2, 2),
        (b"P,3,2,3,1,6\nC,3,1\nQ,0,1,2\n", 2, 3),
        (b"P,3,2,3,1,6\nQ,0,0,3\n", 3, 2),
        (b"P,3,2,3,1,6\nQ,0,1,0\n", 13, 2),
        (b"P,3,2,2,1,6\nQ,0,1,0\n", 13, 2),
    ] {
        for room in [STORE_BYTES, 0] {
            let answer = proved::open(file, Lent::filled(room).part_mut());
            same("opening", answer, opening(number, line)).map_err(|error| format!("{error}\n{}", shown(file)))?;
            seen.open(file, &mut Lent::filled(room))?;
        }
    }
    Ok(())
}

/// 2,048 in flight pass, 2,049 are refused; the store is then as just before that event, and the file comes back.
fn full_flight(seen: &mut Seen) -> Result<(), String> {
    let all = Call::Run { budget: u64::MAX };
    let (full, over) = ("P,64,1,33,32,200\n", "P,64,1,34,33,200\n");
    let events = platform_of(full.as_bytes()).run(u64::MAX).events;
    let last = "E,200,64,2048,0000000000000000\n";
    let done = answer(0, &[u64::from(b'E'), 200, 64, 2_048, last.len() as u64]);
    let lines = answers(seen, full, &[(all, ran(events, 0)), (Call::Step, done), (Call::Step, done)])?;
    if lines != last.repeat(2) {
        return Err(format!("the last line of {full:?} is {lines:?}"));
    }
    let eight = refused(REFUSED_EVENT);
    let calls = [
        (Call::Run { budget: 2_048 }, ran(2_048, 1)),
        (Call::Run { budget: 0 }, ran(0, 1)),
        (Call::Run { budget: 1 }, stopped(0)),
        (all, stopped(0)),
        (Call::Step, eight),
        (Call::Write, answer(0, &[over.len() as u64])),
        (Call::Step, eight),
    ];
    answers(seen, over, &calls)?;
    let fullest = answer(0, &[u64::from(b'S'), 32, 63, 0, "S,32,63,0,0000000000000000\n".len() as u64]);
    let by_step = [(Call::Run { budget: 2_047 }, ran(2_047, 1)), (Call::Step, fullest), (Call::Step, eight)];
    answers(seen, over, &by_step)?;
    answers(seen, over, &[(all, stopped(2_048)), (Call::Step, eight)]).map(|_| ())
}

/// With W below H + D likewise: 2,048 in flight pass up to tick 32; the first watch, at tick 33, would bring seven more.
fn full_flight_short(seen: &mut Seen) -> Result<(), String> {
    let all = Call::Run { budget: u64::MAX };
    let (full, over) = ("P,64,1,33,40,32\n", "P,64,1,33,40,33\n");
    let last = "F,32,64,2048,0000000000000000\n";
    let done = answer(0, &[u64::from(b'F'), 32, 64, 2_048, last.len() as u64]);
    let lines = answers(seen, full, &[(all, ran(2_048, 0)), (Call::Step, done), (all, ran(0, 0)), (Call::Step, done)])?;
    same("the last line of a full flight", lines, last.repeat(2))?;
    let eight = refused(REFUSED_EVENT);
    let written = answer(0, &[over.len() as u64]);
    let calls = [(Call::Run { budget: 2_048 }, ran(2_048, 1)), (Call::Step, eight), (all, stopped(0)), (Call::Write, written)];
    answers(seen, over, &calls)?;
    answers(seen, over, &[(all, stopped(2_048)), (Call::Step, eight)]).map(|_| ())
}

/// The steps on the file's store answer and write the lines of the log, one after another: a line K together with the line before it,
/// of which the numbers are.
fn logged(seen: &mut Seen, file: &str, log: &str) -> Result<(), String> {
    let fields = |line: &str| {
        let column: Vec<&str> = line.split(',').collect();
        let number = |place: usize| column[place].parse().expect("a number");
        answer(0, &[u64::from(line.as_bytes()[0]), number(1), number(2), number(3), line.len() as u64])
    };
    let mut calls: Vec<(Call, Answer)> = Vec::new();
    for line in log.split_inclusive('\n') {
        match calls.last_mut() {
            Some((_, own)) if line.starts_with('K') => own[5] += line.len() as u64,
            _ => calls.push((Call::Step, fields(line))),
        }
    }
    let lines = answers(seen, file, &calls)?;
    if lines != log {
        return Err(format!("the log of {file:?} is\n{lines}"));
    }
    Ok(())
}

fn worked_log(seen: &mut Seen) -> Result<(), String> {
    let file = include_str!("worked.run");
    logged(seen, file, include_str!("worked.log"))?;
    let run = |budget| Call::Run { budget };
    let done = (run(0), ran(0, 0));
    answers(seen, file, &[(run(0), ran(0, 1)), (run(7), ran(7, 1)), (run(1), ran(1, 0)), done])?;
    answers(seen, file, &[(run(8), ran(8, 0)), done])?;
    answers(seen, "P,1,1,2,1,5\n", &[done, (run(u64::MAX), ran(0, 0))]).map(|_| ())
}

/// A ring in another order, worked by hand, and in number order, which a Q line may say: the log is that without it, and the line comes back.
fn orders(seen: &mut Seen) -> Result<(), String> {
    logged(seen, include_str!("shuffled.run"), include_str!("shuffled.log"))?;
    let named = "P,2,2,3,1,6\nQ,0,1\nC,3,1\n";
    logged(seen, named, include_str!("worked.log"))?;
    for file in [named, include_str!("shuffled.run"), "P,1,1,2,1,5\nQ,0\n"] {
        let (mut store, mut held) = opened(seen, file.as_bytes())?;
        comes_back(seen, &mut store, &mut held, file.as_bytes()).map_err(|error| format!("{file:?}: {error}"))?;
    }
    Ok(())
}

/// A report of the emitter moves node 4 of ten at tick 27, node 5 of nine at tick 81.
fn reported_emitters(seen: &mut Seen) -> Result<(), String> {
    logged(seen, include_str!("reported-ten.run"), include_str!("reported-ten.log"))?;
    logged(seen, include_str!("reported-nine.run"), include_str!("reported-nine.log"))
}

/// With W at least H + D a report of the emitter leaves a node alone only on a lent store: here node 1, which lists 2 and observes 0.
fn alone_by_report(seen: &mut Seen) -> Result<(), String> {
    use layout::*;
    let mut bytes = reached(b"P,3,5,20,6,90\n", 0);
    let message = [(MESSAGE_DUE, 3), (MESSAGE_KIND, u64::from(b'R')), (MESSAGE_SENDER, 2), (MESSAGE_RECEIVER, 1), (MESSAGE_SUBJECT, 0)];
    [(MESSAGES, 1), (NEXT_NUMBER, 1)].into_iter().chain(message).for_each(|(field, number)| put(&mut bytes, field, 0, number));
    put(&mut bytes, DEAD_LIST, 1, 0b100);
    let (mut store, mut held) = (Lent::new(&bytes), store::decode(&bytes));
    let lines = "R,3,1,0,0000000000000005\nK,3,1,2,0000000000000005\n";
    let wanted = answer(0, &[u64::from(b'R'), 3, 1, 0, lines.len() as u64]);
    let mut part = Lent::filled(LOG_BYTES);
    same("the report", seen.call(Call::Step, &mut store, &mut part, &mut held)?, wanted)?;
    same("the report", &part.part()[..lines.len()], lines.as_bytes())?;
    let left = [EMITTER, OBSERVER, WATCH, HEARTBEAT, DEAD_LIST].map(|field| get(store.part(), field, 1));
    same("node 1, alone,", (left, get(store.part(), MESSAGES, 0)), ([1, 1, 0, 0, 0b101], 0))
}

/// The step that writes these lines, after the events before it on the file's store; the numbers are those of the first line.
fn moves(seen: &mut Seen, file: &str, lines: &str) -> Result<(), String> {
    let own = Line::read(lines.split_inclusive('\n').next().unwrap_or("").as_bytes()).expect("a line");
    let mut platform = platform_of(file.as_bytes());
    while platform.step().lines().next() != Some(own) {
        if platform.next_event().is_none() {
            return Err(format!("{own:?} is no event\n{}", shown(file.as_bytes())));
        }
    }
    let before = platform.events_done() - 1;
    let wanted = answer(0, &[u64::from(own.letter), own.tick, own.node, own.other, lines.len() as u64]);
    let calls = [(Call::Run { budget: before }, ran(before, 1)), (Call::Step, wanted)];
    same("the lines", answers(seen, file, &calls)?.as_str(), lines)
}

/// 02's number of nodes passed: a node left before is not passed again; nodes listed by report are, in number order and in another, at an
/// expired watch and at a report; where the node is alone, all from the one left back to itself, at most 63.
fn nodes_passed(seen: &mut Seen) -> Result<(), String> {
    let crashes: String = (1..64).map(|node| format!("C,{},{node}\n", 20 * node)).collect();
    let all = format!("P,64,1,3,2,1300\n{crashes}");
    let (four, ordered) = ("P,4,2,3,1,60\nC,5,3\nC,19,0\nC,31,2\n", "P,4,2,3,1,60\nQ,2,0,3,1\nC,5,1\nC,19,2\nC,31,3\n");
    let reported = "P,10,1,13,12,220\nC,0,1\nC,103,5\nC,121,2\nC,132,4\nC,150,3\n";
    for (file, lines) in [
        ("P,3,2,3,1,12\nC,1,1\nC,1,2\n", "W,9,0,1,0000000000000006\nK,9,0,1,0000000000000006\n"),
        (four, "W,22,1,0,0000000000000009\nK,22,1,2,0000000000000009\n"),
        (four, "W,33,1,2,000000000000000d\nK,33,1,1,000000000000000d\n"),
        (four, "R,9,1,3,0000000000000008\n"),
        (ordered, "W,22,0,2,0000000000000006\nK,22,0,2,0000000000000006\n"),
        (ordered, "W,33,0,3,000000000000000e\nK,33,0,1,000000000000000e\n"),
        (reported, "R,181,6,2,000000000000003e\nK,181,6,2,000000000000003e\n"),
        (&all, "W,1264,0,63,fffffffffffffffe\nK,1264,0,63,fffffffffffffffe\n"),
    ] {
        moves(seen, file, lines)?;
    }
    Ok(())
}

/// 02's 80 bytes: a step with fewer gets 9, whether its event moves a node, does not, is refused by 8 or is none; with 80 and more the part
/// after the lines stays.
fn log_parts(seen: &mut Seen) -> Result<(), String> {
    let file = include_str!("worked.run").as_bytes();
    let at_last_tick = longest_lines();
    let over = reached(b"P,64,1,34,33,200\n", 2_048);
    let stores = [(reached(file, 0), Some(25)), (reached(file, 7), Some(50)), (reached(file, 8), Some(25)), (at_last_tick, Some(66)), (over, None)];
    for (bytes, size) in stores {
        for room in (0..100).chain([1_000]) {
            let mut held = store::decode(&bytes);
            let found = seen.call(Call::Step, &mut Lent::new(&bytes), &mut Lent::filled(room), &mut held)?;
            let wanted = match size {
                _ if room < 80 => (REFUSED_PART, None),
                None => (REFUSED_EVENT, None),
                size => (0, size),
            };
            let size = (found[0] == 0).then_some(found[5]);
            same(&format!("a step with a part of {room} bytes"), (found[0], size), (u64::from(wanted.0), wanted.1))?;
        }
    }
    Ok(())
}

/// A store at the greatest tick whose node 63 lists all but 62, which it observes: it passes 63 nodes, and is alone.
fn longest_lines() -> Vec<u8> {
    use layout::*;
    let mut bytes = reached(b"P,64,1,2,1,1000000\n", 0);
    put(&mut bytes, LAST_TICK, 0, MAX_TICK);
    for place in 0..64 {
        put(&mut bytes, WATCH, place, MAX_TICK + 2);
        put(&mut bytes, HEARTBEAT, place, MAX_TICK + 2);
    }
    put(&mut bytes, WATCH, 63, MAX_TICK + 1);
    put(&mut bytes, DEAD_LIST, 63, u64::MAX >> 2);
    bytes
}

/// Eight nodes at tick 3, with so many messages in flight. Node 1, which lists 7, leaves 0 next, by its watch or by a report, and sends four
/// messages.
fn about_to_move(in_flight: usize, by_report: bool) -> Vec<u8> {
    let opened = platform_of(b"P,8,1,20,19,100\n");
    let mut nodes = opened.nodes().to_vec();
    nodes.iter_mut().for_each(|node| node.heartbeat = Some(4));
    nodes[1].watch = Some(if by_report { 9 } else { 3 });
    nodes[1].dead_list = 1 << 7;
    let heartbeat = |number| (5, Message { number, sender: 2, receiver: 3, content: Content::Heartbeat { list: 0 } });
    let mut messages: Vec<(u32, Message)> = (0..in_flight as u64).map(heartbeat).collect();
    if by_report {
        messages[0] = (3, Message { number: 0, sender: 2, receiver: 1, content: Content::Report { subject: 0 } });
    }
    store::encode(&Platform::resume(opened.plan().clone(), nodes, messages, in_flight as u64, 0, 3))
}

/// A move that would leave 2,049 in flight is refused by 8 and writes neither line; one that leaves 2,048 writes both, and is one event of a
/// run.
fn refused_moves(seen: &mut Seen) -> Result<(), String> {
    let size = 2 * "W,3,1,0,0000000000000081\n".len() as u64;
    for (by_report, letter, most) in [(false, b'W', 2_044), (true, b'R', 2_045)] {
        let (over, full) = (about_to_move(most + 1, by_report), about_to_move(most, by_report));
        let moved = answer(0, &[u64::from(letter), 3, 1, 0, size]);
        let run = Call::Run { budget: 1 };
        for (bytes, call, wanted) in
            [(&over, Call::Step, refused(REFUSED_EVENT)), (&over, run, stopped(0)), (&full, Call::Step, moved), (&full, run, ran(1, 1))]
        {
            let found = seen.call(call, &mut Lent::new(bytes), &mut Lent::filled(LOG_BYTES), &mut store::decode(bytes))?;
            same(&format!("{call:?} of a move that leaves {}", if bytes == &full { 2_048 } else { 2_049 }), found, wanted)?;
        }
    }
    Ok(())
}

/// 63 survivors, W 100, D 5: S is 140. A run of 64 nodes has settled by then, in any order of the ring.
fn settling(seen: &mut Seen) -> Result<(), String> {
    if settle::settling_time(100, 5, 63) != 140 {
        return Err("S is not 140".to_string());
    }
    for order in [String::new(), format!("Q{}\n", spread(64, 27))] {
        settles(seen, &format!("P,64,20,100,5,400\n{order}C,33,9\n"))?;
    }
    Ok(())
}

fn settles(seen: &mut Seen, file: &str) -> Result<(), String> {
    let (mut store, mut held) = opened(seen, file.as_bytes())?;
    let mut settled = 0;
    while held.as_mut().is_some_and(|held| held.platform.earliest_due().is_some_and(|due| due <= 33 + 200)) {
        let budget = Call::Run { budget: 25 };
        seen.call(budget, &mut store, &mut Lent::filled(0), &mut held)?;
        let mut platform = store::decode(store.part()).expect("the store is in range").platform;
        if platform.crashes_done() == 1 && platform.earliest_due().is_some_and(|due| due >= 33 + 140) {
            settled += 1;
            if !settle::settled(platform.ring(), platform.nodes()) {
                return Err(format!("not settled at tick {}", platform.last_tick()));
            }
        }
    }
    if settled == 0 {
        return Err("the settled ring was not looked at".to_string());
    }
    Ok(())
}

/// Eight nodes of 48 crash at one tick, H 100, W 120, D 20: 2 × W × f + D is 1,940. As neighbours in the ring they keep the survivors apart for
/// 1,839 ticks, dealt out by a Q line for 159. All but one of five crash, and all of five.
fn joining(seen: &mut Seen) -> Result<(), String> {
    let mut joins = |file: &str, by| holds_from(seen, Claim::Joined, file, by);
    let dealt: String = (0..48).map(|place| format!(",{}", place % 6 * 8 + place / 6)).collect();
    let eight: String = (8..16).map(|node| format!("C,301,{node}\n")).collect();
    for (order, ticks) in [(String::new(), 1_839), (format!("Q{dealt}\n"), 159)] {
        same("joined after", joins(&format!("P,48,100,120,20,2300\n{order}{eight}"), 301 + 1_940)?, 301 + ticks)?;
    }
    let four: String = (0..4).map(|node| format!("C,7,{node}\n")).collect();
    same("a lone survivor joined after", joins(&format!("P,5,2,3,1,60\n{four}"), 7 + 25)?, 28)?;
    same("no survivor joined after", joins(&format!("P,5,2,3,1,60\n{four}C,7,4\n"), 7 + 31)?, 7).map(|_| ())
}

/// Three of five nodes crash, and the reports of 1 go from 2 to 3 and 4 alone, which are dead. 0 leaves 3 for 2 at tick 20; 2 gets its O at 22 and
/// sends at once, so that 0 lists 1 at 24. The tick of request 106 is 5 + 30 + 2, and with two survivors that of request 107 is 5 later. The
/// same with four of nine nodes, where heartbeats alone name node 0, from node to node; and of five in another order.
fn listing(seen: &mut Seen) -> Result<(), String> {
    let five = include_str!("learnt.run");
    logged(seen, five, include_str!("learnt.log"))?;
    same("full lists of two after", holds_from(seen, Claim::Listed, five, 42)?, 24)?;
    let nine = "P,9,4,5,1,66\nC,5,0\nC,5,2\nC,5,3\nC,5,5\n";
    same("full lists of five after", holds_from(seen, Claim::Listed, nine, 66)?, 29)?;
    moves(seen, nine, "H,22,4,1,000000000000002d\n")?;
    moves(seen, nine, "H,29,8,7,000000000000002d\n")?;
    let ordered = "P,5,3,5,2,92\nQ,0,3,1,2,4\nC,4,3\nC,5,2\nC,5,4\n";
    same("full lists in another order after", holds_from(seen, Claim::Listed, ordered, 42)?, 24)?;
    for (file, lists) in [(five, [(0, 0x1a), (2, 0x1a)]), (ordered, [(0, 0x1c), (1, 0x1c)])] {
        let (mut store, mut held) = opened(seen, file.as_bytes())?;
        seen.call(Call::Run { budget: u64::MAX }, &mut store, &mut Lent::filled(0), &mut held)?;
        for (node, list) in lists {
            same("the list at the end", layout::get(store.part(), layout::DEAD_LIST, node), list)?;
        }
    }
    Ok(())
}

/// Does the file's events by steps and asks the claims after each. The tick from whose end on what is claimed holds of the survivors of all its
/// crashes; it has to be claimed from the end of the tick that is given, and of some event.
fn holds_from(seen: &mut Seen, claim: Claim, file: &str, by: u64) -> Result<u64, String> {
    let (mut store, mut held) = opened(seen, file.as_bytes())?;
    let crashes = platform_of(file.as_bytes()).plan().crashes.len();
    let (mut since, mut owed) = (None, 0);
    while !is_end(seen.call(Call::Step, &mut store, &mut Lent::filled(LOG_BYTES), &mut held)?[1]) {
        let mut platform = seen.claims(&store)?;
        let holds = platform.crashes_done() == crashes && claim.holds(platform.ring(), platform.nodes());
        since = if holds { since.or(Some(u64::from(platform.last_tick()))) } else { None };
        owed += u64::from(claim.owed(&mut platform));
        if platform.crashes_done() == crashes {
            same("the tick of the claim", claim.tick(&platform), Some(by))?;
        }
    }
    since.filter(|_| owed > 0).ok_or(format!("{claim:?}: nothing was claimed"))
}

/// What stands at the end of a run, with one field of node 0 changed, breaks a claim: a live node is listed, the survivor before it is not
/// observed, a crashed node is not listed. With one crash the ring is then not settled.
fn broken_claims(seen: &mut Seen) -> Result<(), String> {
    use layout::*;
    let (three, one) = (include_str!("learnt.run"), "P,5,3,5,2,92\nC,4,1\n");
    for (file, changes, told) in [
        (three, &[(EMITTER, 1), (DEAD_LIST, 0x1c), (MARK, 0)][..], "a live node is listed"),
        (three, &[(EMITTER, 4), (DEAD_LIST, 0x0a), (MARK, 0)], "survivors are not joined"),
        (three, &[(DEAD_LIST, 0x18), (MARK, 0)], "a survivor's list is not full"),
        (one, &[(DEAD_LIST, 0), (MARK, 0)], "the ring is not settled"),
    ] {
        let mut bytes = reached(file.as_bytes(), u64::MAX);
        seen.claims(&Lent::new(&bytes))?;
        changes.iter().for_each(|(field, number)| put(&mut bytes, *field, 0, *number));
        let found = seen.claims(&Lent::new(&bytes)).map(|_| ());
        same("a broken claim", found, Err(format!("{told} at tick {}", get(&bytes, LAST_TICK, 0))))?;
    }
    Ok(())
}

/// Five messages to node 1 of five, which observes 0, at tick 3. Each H names 0 to 3.
///
/// - The H of 2 does nothing. By that of 0 it lists 2 and 3, neither itself nor 0, and marks none.
/// - By the first R of 3, which it lists, it marks 3 and sends two R: 4 is one ahead, 0 two. The second R of 3 does nothing.
/// - By R of 0 it leaves it for 4, marks it, and sends O and R to 4.
///
/// At tick 5 nodes 0 and 1 send; what they send carries their lists, and no other message carries any.
fn named_nodes(seen: &mut Seen) -> Result<(), String> {
    let opened = platform_of(b"P,5,5,20,6,90\n");
    let (heartbeat, report) = (Content::Heartbeat { list: 0b1111 }, |subject| Content::Report { subject });
    let contents = [(2, heartbeat), (0, heartbeat), (2, report(3)), (4, report(3)), (2, report(0))];
    let message = |(number, (sender, content))| (3, Message { number, sender, receiver: 1, content });
    let messages = (0..).zip(contents).map(message).collect();
    let mut store = Lent::new(&store::encode(&Platform::resume(opened.plan().clone(), opened.nodes().to_vec(), messages, 5, 0, 3)));
    let mut held = store::decode(store.part());
    let all = 0b1111;
    for (lines, node, carried) in [
        ("H,3,1,2,0000000000000000\n", [0, 0], &[all, 0, 0, 0][..]),
        ("H,3,1,0,000000000000000c\n", [0b1100, 0], &[0, 0, 0]),
        ("R,3,1,3,000000000000000c\n", [0b1100, 0b1000], &[0, 0, 0, 0]),
        ("R,3,1,3,000000000000000c\n", [0b1100, 0b1000], &[0, 0, 0]),
        ("R,3,1,0,000000000000000d\nK,3,1,1,000000000000000d\n", [0b1101, 0b1001], &[0, 0, 0, 0]),
        ("S,5,0,1,0000000000000000\n", [0b1101, 0b1001], &[0, 0, 0, 0, 0]),
        ("S,5,1,2,000000000000000d\n", [0b1101, 0b1001], &[0, 0, 0, 0, 0, 0b1101]),
    ] {
        let mut part = Lent::filled(LOG_BYTES);
        let answer = seen.call(Call::Step, &mut store, &mut part, &mut held)?;
        same("the step", &part.part()[..answer[5] as usize], lines.as_bytes())?;
        let column = |field, place| layout::get(store.part(), field, place);
        same(lines, [layout::DEAD_LIST, layout::MARK].map(|field| column(field, 1)), node)?;
        let lists: Vec<u64> = (0..column(layout::MESSAGES, 0) as usize).map(|place| column(layout::MESSAGE_LIST, place)).collect();
        same(lines, &lists[..], carried)?;
    }
    Ok(())
}

/// 8 of nine nodes crashes at tick 3. By L lines four heartbeats are quick, so that 1, 2, 3 and 4 are told by them before the reports come.
/// These they relay all the same, so that 3 gets one of 1, and 6 and 7 know before tick 59, from which on the ring has to be settled: S is 56.
/// The O of 0 comes to 7 at tick 31.
fn named_before_reports(seen: &mut Seen) -> Result<(), String> {
    let file = "P,9,2,11,9,80\nC,3,8\nL,85,1\nL,94,1\nL,103,1\nL,112,1\n";
    for line in ["H,23,1,0,", "H,29,4,3,", "R,31,1,8,", "R,40,3,8,", "R,49,7,8,"] {
        moves(seen, file, &format!("{line}0000000000000100\n"))?;
    }
    same("eight joined after", holds_from(seen, Claim::Joined, file, 3 + 31)?, 31)
}

/// 02's runs with W below H + D, worked by hand.
///
/// - Two nodes, H 2, D 1, which is 01's edge: with W 2 each watch expires before the first heartbeat comes. Both list the other, are alone and
///   send nothing.
/// - Three nodes likewise, in tests/short.run: each lists the one before and sends O and R to the one after. Node 2 crashes, and by the reports 0
///   and 1 leave the emitters that they had just taken. Both are alone, each listing the other.
/// - A lone node; no event up to the end tick; all messages quicker by L lines than D, so that no watch expires. F goes by the P line alone.
fn short_timeouts(seen: &mut Seen) -> Result<(), String> {
    let two = "W,2,0,1,0000000000000002\nK,2,0,1,0000000000000002\nW,2,1,0,0000000000000001\nK,2,1,1,0000000000000001\n";
    let quick: String = (0..8).map(|number| format!("L,{number},1\n")).collect();
    let both = |letter, tick| format!("{letter},{tick},0,1,0000000000000000\n{letter},{tick},1,0,0000000000000000\n");
    let back = |tick| format!("H,{tick},1,0,0000000000000000\nH,{tick},0,1,0000000000000000\n");
    let steady: String = (2..5).map(|tick| back(tick) + &both('S', tick)).collect();
    for (file, log) in [
        ("P,2,2,2,1,6\n", format!("{two}F,6,2,0,0000000000000000\n")),
        ("P,2,2,2,1,6\nC,3,1\n", format!("{two}C,3,1,1,0000000000000001\nF,6,1,0,0000000000000002\n")),
        ("P,1,1,1,1,5\n", "F,5,1,0,0000000000000000\n".to_string()),
        ("P,1,1,1,1,5\nC,0,0\n", "C,0,0,0,0000000000000000\nF,5,0,0,0000000000000001\n".to_string()),
        ("P,3,2,2,1,1\n", "F,1,3,0,0000000000000000\n".to_string()),
        (&format!("P,2,1,2,2,4\n{quick}"), format!("{}{steady}F,4,2,2,0000000000000000\n", both('S', 1))),
        (&format!("P,2,1,3,2,4\n{quick}"), format!("{}{steady}E,4,2,2,0000000000000000\n", both('S', 1))),
        (include_str!("short.run"), include_str!("short.log").to_string()),
    ] {
        logged(seen, file, &log)?;
    }
    full_flight_short(seen)
}

/// The file by steps to its end, and by runs of some budgets: both leave the same store, and then a step answers the letter.
fn ends_in(seen: &mut Seen, file: &str, letter: u8) -> Result<(), String> {
    let told = |error| format!("{error}\n{}", shown(file.as_bytes()));
    let (mut by_steps, mut held) = opened(seen, file.as_bytes()).map_err(told)?;
    let mut last = 0;
    while !is_end(last) {
        let answer = seen.call(Call::Step, &mut by_steps, &mut Lent::filled(LOG_BYTES), &mut held).map_err(told)?;
        seen.claims(&by_steps).map_err(told)?;
        same("a step", answer[0], 0).map_err(told)?;
        last = answer[1];
    }
    same("the last letter", last, u64::from(letter)).map_err(told)?;
    let (mut by_runs, mut held) = opened(seen, file.as_bytes()).map_err(told)?;
    for budget in [0, 1, 3, 11, 12, 1, 40, u64::MAX, 0] {
        let answer = seen.call(Call::Run { budget }, &mut by_runs, &mut Lent::filled(0), &mut held).map_err(told)?;
        same("a run", answer[0], 0).map_err(told)?;
    }
    comes_back(seen, &mut by_runs, &mut held, file.as_bytes()).map_err(told)?;
    by_runs.holds("store", by_steps.part()).map_err(told)
}

/// Every W up to two ticks above H + D, with crashes and without, in number order and in another.
fn every_timeout(seen: &mut Seen) -> Result<(), String> {
    for (period, delay) in [(1, 1), (3, 2), (2, 5)] {
        for timeout in 1..=period + delay + 2 {
            let letter = if timeout < period + delay { b'F' } else { b'E' };
            for (nodes, lines) in [(1, ""), (2, ""), (5, ""), (5, "C,4,1\nC,4,3\n"), (6, "Q,0,3,1,5,2,4\nC,9,2\nL,1,1\nL,9,1\n")] {
                ends_in(seen, &format!("P,{nodes},{period},{timeout},{delay},40\n{lines}"), letter)?;
            }
        }
    }
    Ok(())
}

/// An event on a lent store may bring the next number above its bound: it is done, and the next call gets 7.
fn last_number(seen: &mut Seen) -> Result<(), String> {
    let mut bytes = reached(b"P,2,2,3,1,6\nC,3,1\n", 0);
    layout::put(&mut bytes, layout::NEXT_NUMBER, 0, MAX_NEXT_NUMBER);
    for (call, room) in [(Call::Step, LOG_BYTES), (Call::Run { budget: 3 }, 0)] {
        let (mut store, mut held) = (Lent::new(&bytes), store::decode(&bytes));
        seen.call(call, &mut store, &mut Lent::filled(room), &mut held)?;
        let answer = seen.call(Call::Run { budget: 0 }, &mut store, &mut Lent::filled(0), &mut held)?;
        same("a run after it", answer, refused(REFUSED_STORE))?;
    }
    Ok(())
}

fn edges(seen: &mut Seen) -> Result<(), String> {
    refused_files(seen)?;
    worked_log(seen)?;
    orders(seen)?;
    reported_emitters(seen)?;
    alone_by_report(seen)?;
    nodes_passed(seen)?;
    log_parts(seen)?;
    refused_moves(seen)?;
    full_flight(seen)?;
    named_nodes(seen)?;
    named_before_reports(seen)?;
    short_timeouts(seen)?;
    every_timeout(seen)?;
    settling(seen)?;
    joining(seen)?;
    listing(seen)?;
    broken_claims(seen)?;
    last_number(seen)
}

// ----

fn all(seen: &mut Seen, seed: u64, count: u64) -> Result<(), String> {
    edges(seen)?;
    runs::all(seen, seed)?;
    trips(seen, seed)?;
    generated(seen, seed, count)?;
    any_timeout(seen)?;
    lent_timeouts(seen, &mut Random::new(seed ^ 0x7761_7463, 0))?;
    changed_orders(seen)?;
    listed_emitters(seen)?;
    changed_marks(seen)?;
    changed_lists(seen)?;
    changed_bytes(seen)
}

/// Every kind of answer has to come up.
fn summary(seen: &Seen, count: u64) -> Result<(), String> {
    let Seen { opened, calls, numbers, spent, done, reported, alone, moves, owed, learnt, named, short, met } = seen;
    let answered = NUMBERS.map(|number| (number, numbers[number]));
    println!("platform: {calls} calls agree, {opened} stores opened; answers by number: {answered:?}; {spent} runs spent, {done} done");
    println!("platform: moves by report with W at least H + D and with less {reported:?}, {alone} steps of them to be alone");
    let (lines, more, most) = (moves.all(), moves.passing_more(), moves.greatest());
    println!("platform: {lines} lines K counted once more, {more} with more than one node passed, at most {most}; {} after R", moves.by_report);
    if count > 0 && (lines < count || more < count / 3 || most < 63 || moves.by_report < count / 10) {
        return Err("too few lines K came up".to_string());
    }
    let [settled, joined, full] = owed;
    println!("platform: owed after calls on stores that a file led to, and so: {settled} settled rings, {joined} joined ones, {full} full lists");
    let Short { opened: short_opened, calls: short_calls, ends, reached, listing, written } = short;
    println!("platform: with W below H + D {short_opened} stores opened, {short_calls} calls accepted, {written} files come back");
    println!("platform: steps that answer the last line, E and F: {ends:?}");
    println!("platform: {reached} times such a store was looked at that a file led to, {listing} times with a live node in a list");
    println!("platform: {learnt} steps by which a node lists what a heartbeat names, {named} by which it relays a report of a listed node");
    if count > 0 && (*settled < count || *joined < 2 * count || *full < count) {
        return Err("too few claims were owed".to_string());
    }
    if count > 0 && (*short_opened < count / 4 || *written < count / 6 || ends[0] < count || ends[1] < count) {
        return Err("too few files with W below H + D came up".to_string());
    }
    if count > 0 && (*short_calls < 20 * count || *reached < 5 * count || *listing < 2 * count) {
        return Err("too few stores with W below H + D, or live nodes in their lists, came up".to_string());
    }
    if count > 0 && (*learnt < count / 2 || *named < count / 3) {
        return Err("too few lists of heartbeats, or reports of what they name, came up".to_string());
    }
    if count > 0 && (reported.iter().any(|moves| *moves < count) || *alone == 0) {
        return Err("too few reports moved a node".to_string());
    }
    if count > 0 && (answered.iter().any(|(_, answers)| *answers == 0) || *spent == 0 || *done == 0) {
        return Err("an answer never came up".to_string());
    }
    met.summary()
}

/// Each of the mock's mistakes is found.
#[cfg(mock)]
fn mistakes(seed: u64) -> Result<(), String> {
    for mistake in mock::MISTAKES {
        mock::make(mistake);
        let found = found(all(&mut Seen::new(), seed, 40)).ok_or(format!("not found: {mistake:?}"))?;
        println!("platform: {mistake:?} is found: {found}");
    }
    for &mistake in mock::rules() {
        mock::make_in_runs(mistake);
        let found = found(all(&mut Seen::new(), seed, 40)).ok_or(format!("not found in runs: {mistake:?}"))?;
        println!("platform: {mistake:?} in runs is found: {found}");
    }
    mock::make(mock::Mistake::None);
    Ok(())
}

#[cfg(not(mock))]
fn mistakes(_: u64) -> Result<(), String> {
    Ok(())
}

fn main() -> ExitCode {
    let (seed, count) = (seed(), count(COUNT));
    println!("platform: seed {seed}, {count} generated files");
    let mut seen = Seen::new();
    let compared = mistakes(seed).and_then(|()| all(&mut seen, seed, count)).and_then(|()| summary(&seen, count));
    ended("platform", compared.map(|()| "passed".to_string()))
}
