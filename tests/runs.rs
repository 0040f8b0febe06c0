//! Runs from many places of a file and with many budgets, beside the simulator. A run may search the messages for each event, or keep them
//! in a queue with 3,072 places; where it changes from one to the other, where it ends and what was run before must not be seen. So
//! small files are cut at every event; large ones bring many messages into flight, in other orders than their numbers', up to the refusal
//! by 8, or send more messages in one call than the queue has places.

use super::calls::Call;
use super::common::shown;
use super::stores::{self, platform_of};
use super::{opened, Lent, Seen};
use simulator::generator::{self, Draft, CROWD, ORDERS, USUAL};
use simulator::layout;
use simulator::limits::LOG_BYTES;
use simulator::log::Line;
use simulator::node::{Content, Node};
use simulator::platform::{Event, Platform, Step};
use simulator::queue::Message;
use simulator::random::Random;
use simulator::store::{self, Held};
use std::cmp::Reverse;

/// Budgets about those at which a run may change how it finds its events, the least and the greatest.
pub const BUDGETS: [u64; 13] = [0, 1, 2, 10, 11, 12, 13, 14, 31, 32, 33, 1_000, u64::MAX];
/// Fewer of them, for stores that take long.
const FEW_BUDGETS: [u64; 6] = [0, 11, 12, 13, 1_000, u64::MAX];
/// How many tiny and how many small files are generated.
const TINY: u64 = 60;
const SMALL: u64 = 12;
/// How many files are generated in which a report of the emitter may well move a node.
const REPORTED: u64 = 40;
/// How many files are generated of which steps at moves are tried, and how many moves of each.
const MOVING: u64 = 60;
const MOVES: usize = 6;
/// How many files are generated of which steps at lists and marks are tried, and how many events of each; and lent stores with many lists in
/// flight.
const TELLING: u64 = 60;
const TELLINGS: usize = 6;
const CARRIED: u64 = 8;
/// Messages for which the queue has places.
const PLACES: u64 = 3_072;
/// At tick 8 a crash comes before two watches, no message and no heartbeat among them.
const WATCHES: &str = "P,6,3,4,1,16\nC,5,1\nC,5,3\nC,8,5\n";

/// What the runs came upon, for the summary.
#[derive(Default)]
pub struct Met {
    /// Cuts between two events of one tick, by their classes: crash, message, watch, heartbeat.
    cuts: [[u64; 4]; 4],
    /// Runs that sent more messages than the queue has places, with few messages in flight after them, and with many.
    long: [u64; 2],
    /// Runs of some events that were then refused by 8.
    refused: u64,
    /// Small files with W below H + D.
    short: u64,
    /// Generated files in which a report moves a node.
    reported: u64,
    /// Steps at moves of generated files, and those of them that pass more than one node.
    moves: [u64; 2],
    /// Steps in generated files by which a node lists what a heartbeat names, and by which it relays a report of a node that it lists.
    told: [u64; 2],
    /// Runs with many lists in flight of heartbeats that were sent before them: some arrived in the run, some were left after it.
    carried: [u64; 2],
}

impl Met {
    /// Every cut that a tick allows has to come up, and each kind of run.
    pub fn summary(&self) -> Result<(), String> {
        let Met { cuts, long, refused, short, reported, moves, told, carried } = self;
        println!("platform: cuts within a tick by class {cuts:?}; {long:?} runs of more than {PLACES} messages; {refused} refused late");
        println!("platform: {short} of {} small files, cut at every event, have a W below H + D", TINY + SMALL);
        println!("platform: a report moves a node in {reported} of {REPORTED} generated files");
        println!("platform: {} steps at moves of {MOVING} generated files, {} with more than one node passed", moves[0], moves[1]);
        println!("platform: {told:?} steps in {TELLING} generated files by which a heartbeat tells a node, or a report one that knew");
        println!("platform: {carried:?} runs of {CARRIED} stores with many lists in flight, in which some arrive, and which leave some");
        if moves[0] < 2 * MOVING || moves[1] < MOVING / 4 || told[0] < TELLING / 2 || told[1] < TELLING / 4 || carried.contains(&0) {
            return Err("too few moves or lists came up".to_string());
        }
        let missing = (0..4).any(|one| (one.min(2)..4).any(|other| cuts[one][other] == 0));
        if missing || long.contains(&0) || *refused == 0 || *reported < REPORTED / 8 || *short < (TINY + SMALL) / 5 {
            return Err("a kind of run never came up".to_string());
        }
        Ok(())
    }
}

/// A store in the midst of its run, and what it holds.
#[derive(Clone)]
struct Point {
    store: Lent,
    held: Option<Held>,
}

impl Point {
    fn open(seen: &mut Seen, file: &[u8]) -> Result<Point, String> {
        let (store, held) = opened(seen, file)?;
        Ok(Point { store, held })
    }

    /// Messages sent so far and messages in flight.
    fn messages(&self) -> (u64, usize) {
        self.held.as_ref().map_or((0, 0), |held| (held.platform.next_number(), held.platform.in_flight()))
    }

    fn run(&mut self, seen: &mut Seen, budget: u64) -> Result<(), String> {
        let (before, _) = self.messages();
        let answer = seen.call(Call::Run { budget }, &mut self.store, &mut Lent::filled(0), &mut self.held)?;
        let (after, in_flight) = self.messages();
        if after - before > PLACES {
            seen.met.long[usize::from(in_flight > 1_000)] += 1;
        }
        seen.met.refused += u64::from(answer[0] == 8 && answer[1] > 0);
        Ok(())
    }
}

/// The lines of a file's events, to the last or to one that is refused.
fn events_of(file: &[u8]) -> Vec<Line> {
    let mut platform = platform_of(file);
    let next = || match platform.step() {
        Step::Event(event) => Some(event.line),
        Step::Done(_) | Step::Refused => None,
    };
    std::iter::from_fn(next).collect()
}

/// From each of these places of the file's run, which rise, a run of each of the budgets.
fn from_places(
    seen: &mut Seen,
    file: &[u8],
    places: impl IntoIterator<Item = u64>,
    budgets: impl Fn(u64) -> Vec<u64>,
) -> Result<(), String> {
    let mut point = Point::open(seen, file)?;
    let mut reached = 0;
    for place in places {
        let told = |error| format!("after {place} events: {error}\n{}", shown(file));
        point.run(seen, place - reached).map_err(told)?;
        reached = place;
        for budget in budgets(place) {
            point.clone().run(seen, budget).map_err(told)?;
        }
    }
    Ok(())
}

// ---- small files, cut at every event

/// Counts the places between two events of one tick.
fn count_cuts(seen: &mut Seen, events: &[Line]) {
    let class = |line: &Line| match line.letter {
        b'C' => 0,
        b'W' => 2,
        b'S' => 3,
        _ => 1,
    };
    for pair in events.windows(2).filter(|pair| pair[0].tick == pair[1].tick) {
        seen.met.cuts[class(&pair[0])][class(&pair[1])] += 1;
    }
}

/// From every place of the file's run. `all` takes every budget up to one more than is left, else those that are named.
fn cut_everywhere(seen: &mut Seen, file: &[u8], all: bool) -> Result<(), String> {
    let events = events_of(file);
    count_cuts(seen, &events);
    let count = events.len() as u64;
    let about_the_end = |left: u64| [left.saturating_sub(1), left, left + 1];
    from_places(seen, file, 0..=count, |place| match count - place {
        left if all => (0..=left + 1).collect(),
        left => BUDGETS.into_iter().chain(about_the_end(left)).collect(),
    })
}

/// A few nodes with short times, so that a tick has events of several classes, and crashes at one tick or one tick after another, mostly
/// one at the end tick, too. W is below H + D in two of five.
fn short_draft(random: &mut Random, most_nodes: u64, events: u64) -> Draft {
    let nodes = random.range(2, most_nodes);
    let (period, delay) = (random.range(1, 4), random.range(1, 4));
    let enough = period + delay;
    let any = random.range(1, enough - 1);
    let timeout = random.pick(&[any, enough - 1, enough, enough, enough + 1]);
    let end = (events * period / (2 * nodes)).max(2 * enough);
    let delays = (0..random.pick(&[0, events])).map(|number| (number, random.range(1, delay))).collect();
    let order = generator::some_order(random, nodes);
    let mut draft = Draft { nodes, period, timeout, delay, end, order, crashes: Vec::new(), delays };
    let (first, pace) = (random.range(0, end / 2), random.range(0, 2));
    let tick_of = |row| if row == 0 { end } else { first + row * pace };
    let rows = (0..random.range(0, nodes)).map(|row| (tick_of(row), random.range(0, nodes - 1))).collect();
    generator::put_crashes(&mut draft, rows);
    draft
}

fn small_files(seen: &mut Seen, seed: u64) -> Result<(), String> {
    cut_everywhere(seen, WATCHES.as_bytes(), true)?;
    for index in 0..TINY + SMALL {
        let mut random = Random::new(seed ^ 0x6375_7473, index);
        let tiny = index < TINY;
        let draft = if tiny { short_draft(&mut random, 5, 50) } else { short_draft(&mut random, 12, 300) };
        seen.met.short += u64::from(draft.timeout < draft.period + draft.delay);
        cut_everywhere(seen, &draft.bytes(), tiny).map_err(|error| format!("seed {seed} small file {index}: {error}"))?;
    }
    Ok(())
}

// ---- files in which a report of the emitter moves a node

/// The first place of a file's run before which a report has moved a node; nothing where none does.
fn moved_by_report(file: &[u8]) -> Option<u64> {
    let mut platform = platform_of(file);
    while platform.moves_by_report() == 0 && platform.run(1).events == 1 {}
    (platform.moves_by_report() > 0).then(|| platform.events_done())
}

/// Runs up to that place, to it and beyond it, from the opened store and from just before.
fn reported(seen: &mut Seen, seed: u64) -> Result<(), String> {
    for index in 0..REPORTED {
        let file = generator::reported_plan(seed, index, USUAL);
        let Some(place) = moved_by_report(&file) else { continue };
        seen.met.reported += 1;
        let budgets = |from: u64| vec![place - 1 - from, place - from, place + 12 - from, u64::MAX];
        from_places(seen, &file, [0, place - 12, place - 1], budgets)
            .map_err(|error| format!("seed {seed} file {index} of reported emitters: {error}"))?;
    }
    Ok(())
}

// ---- steps at moves

/// The places of a file's run before a move, each with how many nodes it passes: those that pass most, in the order of the run.
fn places_of_moves(file: &[u8]) -> Vec<(u64, u8)> {
    let mut platform = platform_of(file);
    let mut moves = Vec::new();
    while let Step::Event(event) = platform.step() {
        moves.extend(event.passed.map(|passed| (platform.events_done() - 1, passed)));
    }
    moves.sort_by_key(|(place, passed)| (Reverse(*passed), *place));
    moves.truncate(MOVES);
    moves.sort_unstable();
    moves
}

/// At each of these places a step, which writes two lines, and a run of one event, which counts one.
fn moving(seen: &mut Seen, seed: u64) -> Result<(), String> {
    for index in 0..MOVING {
        let file = if index % 3 == 0 { generator::reported_plan(seed, index, USUAL) } else { generator::plan(seed ^ 0x6d6f_7665, index) };
        let told = |error| format!("seed {seed} file {index} of moves: {error}\n{}", shown(&file));
        let mut point = Point::open(seen, &file).map_err(told)?;
        let mut reached = 0;
        for (place, passed) in places_of_moves(&file) {
            point.run(seen, place - reached).map_err(told)?;
            reached = place;
            let mut other = point.clone();
            let lines = seen.call(Call::Step, &mut other.store, &mut Lent::filled(LOG_BYTES), &mut other.held).map_err(told)?;
            if lines[5] < 50 {
                return Err(told(format!("after {place} events: a step that moves writes {} bytes", lines[5])));
            }
            point.clone().run(seen, 1).map_err(told)?;
            seen.met.moves[0] += 1;
            seen.met.moves[1] += u64::from(passed > 1);
        }
    }
    Ok(())
}

// ---- steps at lists and marks

/// The places of a file's run before an event by which a node lists what a heartbeat names, and those before one by which it relays a report of
/// a node that it lists; some of each, in the order of the run, with the kind.
fn places_of_lists(file: &[u8]) -> Vec<(u64, usize)> {
    let mut platform = platform_of(file);
    let mut places = [Vec::new(), Vec::new()];
    let mut nodes = platform.nodes().to_vec();
    while let Step::Event(Event { line, passed }) = platform.step() {
        let place = platform.events_done() - 1;
        let (own, now) = (std::mem::replace(&mut nodes[line.node as usize], platform.nodes()[line.node as usize]), nodes[line.node as usize]);
        match line.letter {
            b'H' if own.dead_list != now.dead_list => places[0].push((place, 0)),
            b'R' if passed.is_none() && own.dead_list == now.dead_list && own.mark != now.mark => places[1].push((place, 1)),
            _ => {}
        }
    }
    places.iter_mut().for_each(|places| places.truncate(TELLINGS / 2));
    let mut places = places.concat();
    places.sort_unstable();
    places
}

/// Some nodes with quick heartbeats and long delays, of which many messages take one tick alone, and crashes close together: heartbeats often
/// name a node before the report of it comes. In one of four W is a tick short of H + D.
fn telling_draft(random: &mut Random) -> Draft {
    let nodes = random.range(4, 12);
    let (period, delay) = (random.range(1, 3), random.range(3, 9));
    let timeout = period + delay - u64::from(random.chance(4));
    let order = generator::some_order(random, nodes);
    let delays = (0..random.pick(&[600, 1_500])).map(|number| (number, random.pick(&[1, 1, delay]))).collect();
    let mut draft = Draft { nodes, period, timeout, delay, end: 8 * timeout, order, crashes: Vec::new(), delays };
    let first = random.range(0, timeout);
    let rows = (1..random.range(2, nodes)).map(|_| (first + random.range(0, 2), random.range(0, nodes - 1))).collect();
    generator::put_crashes(&mut draft, rows);
    draft
}

/// At each of these places a step, and runs of one event and of more.
fn telling(seen: &mut Seen, seed: u64) -> Result<(), String> {
    for index in 0..TELLING {
        let file = telling_draft(&mut Random::new(seed ^ 0x7465_6c6c, index)).bytes();
        let told = |error| format!("seed {seed} file {index} of lists: {error}\n{}", shown(&file));
        let mut point = Point::open(seen, &file).map_err(told)?;
        let mut reached = 0;
        for (place, kind) in places_of_lists(&file) {
            point.run(seen, place - reached).map_err(told)?;
            reached = place;
            let mut other = point.clone();
            seen.call(Call::Step, &mut other.store, &mut Lent::filled(LOG_BYTES), &mut other.held).map_err(told)?;
            for budget in [1, 13] {
                point.clone().run(seen, budget).map_err(told)?;
            }
            seen.met.told[kind] += 1;
        }
    }
    Ok(())
}

// ---- lent stores with many lists in flight

/// How many of the messages with numbers below this one carry a list.
fn lists_below(held: &Option<Held>, number: u64) -> usize {
    let messages = held.as_ref().map_or(Vec::new(), |held| held.platform.messages());
    let carries = |message: &Message| matches!(message.content, Content::Heartbeat { list: 1.. }) && message.number < number;
    messages.iter().filter(|(_, message)| carries(message)).count()
}

/// 64 nodes or fewer with any fields and at least 300 messages, due in any order: runs of some budgets.
fn carried(seen: &mut Seen, seed: u64) -> Result<(), String> {
    for index in 0..CARRIED {
        let mut random = Random::new(seed ^ 0x6c69_7374, index);
        let file = format!("P,{},20,60,{},900\nC,40,1\nC,40,5\n", random.pick(&[64, 64, 40, 7]), random.pick(&[3, 40]));
        let plan = platform_of(file.as_bytes()).plan().clone();
        let any = || Some(stores::any(&plan, &mut random)).filter(|bytes| layout::get(bytes, layout::MESSAGES, 0) >= 300);
        let bytes = std::iter::repeat_with(any).flatten().next().expect("some stores have many messages");
        let held = store::decode(&bytes);
        let number = held.as_ref().map_or(0, |held| held.platform.next_number());
        let before = lists_below(&held, number);
        for budget in FEW_BUDGETS.into_iter().chain([30, 250]) {
            let mut point = Point { store: Lent::new(&bytes), held: held.clone() };
            point.run(seen, budget).map_err(|error| format!("seed {seed} store {index} with many lists: {error}"))?;
            let left = lists_below(&point.held, number);
            seen.met.carried[0] += u64::from(left < before);
            seen.met.carried[1] += u64::from(left > 0 && budget > 11);
        }
    }
    Ok(())
}

// ---- lent stores without timers

/// No timer is on but those that a message sets: a heartbeat a watch, a new observer a heartbeat, or a report of the emitter a watch.
fn woken(seen: &mut Seen) -> Result<(), String> {
    let opened = platform_of(b"P,4,5,20,6,90\n");
    let asleep = |node: &Node| Node { watch: None, heartbeat: None, ..*node };
    let heartbeats = [0, 0b1101].map(|list| Content::Heartbeat { list });
    for content in heartbeats.into_iter().chain([Content::NewObserver, Content::Report { subject: 0 }]) {
        let message = (6, Message { number: 0, sender: 0, receiver: 1, content });
        let nodes = opened.nodes().iter().map(asleep).collect();
        let held = Held::from(Platform::resume(opened.plan().clone(), nodes, vec![message], 1, 0, 3));
        let point = Point { store: Lent::new(&held.encode()), held: Some(held) };
        for budget in 0..60 {
            point.clone().run(seen, budget).map_err(|error| format!("{content:?} where no timer is on: {error}"))?;
        }
    }
    Ok(())
}

// ---- many messages in flight

/// A crowd of 2,048 messages in each order: all nodes crash when all are sent; none does, so that the next is refused by 8; or a few are
/// left, just before all are sent, and stay below 2,048 or pass it later. W is H + D, or a tick less.
fn crowds(seen: &mut Seen) -> Result<(), String> {
    let places = [0, 700, CROWD - 64, CROWD - 17, CROWD - 1, CROWD, CROWD + 1, CROWD + 64, CROWD + 80, 2_600, 4_000];
    for order in ORDERS {
        for (tick, survivors, timeout) in [(33, 0, 255), (33, 64, 256), (32, 2, 255), (32, 12, 256)] {
            let mut draft = Draft { timeout, ..generator::crowd(order) };
            draft.crashes = (survivors..64).map(|node| (tick, node)).collect();
            from_places(seen, &draft.bytes(), places, |_| FEW_BUDGETS.to_vec())
                .map_err(|error| format!("{order:?} crowd of which {survivors} survive tick {tick}: {error}"))?;
        }
    }
    Ok(())
}

// ---- more messages in a run than the queue has places

/// The first place of a file's run at which so many messages are sent.
fn place_of(file: &[u8], sent: u64) -> u64 {
    let mut platform = platform_of(file);
    while platform.next_number() < sent && platform.run(1).events == 1 {}
    platform.events_done()
}

/// 64 nodes over this many ticks, H 1, with a crash at every tick from 58 on. As the crashes are found, one event sends seven messages.
fn reporting(delay: u64, crashes: u64, end: u64) -> Draft {
    let crashes = (0..crashes).map(|row| (58 + row, (63 + 15 * row) % 64)).collect();
    Draft { nodes: 64, period: 1, timeout: 1 + delay, delay, end, order: Vec::new(), crashes, delays: Vec::new() }
}

/// Runs to the end from each of the first places, so that the queue's last places are reached at all kinds of events; and runs that end
/// just there.
fn long_runs(seen: &mut Seen) -> Result<(), String> {
    let seven = Draft { nodes: 7, ..reporting(1, 0, 1_300) };
    let shuffled = Draft { order: (0..64).map(|place| place * 27 % 64).collect(), ..reporting(26, 4, 160) };
    let drafts =
        [seven, reporting(1, 0, 120), reporting(32, 0, 160), reporting(4, 4, 110), reporting(26, 3, 160), reporting(30, 4, 160), shuffled];
    for draft in drafts {
        let file = draft.bytes();
        let told = |error| format!("a long run: {error}");
        from_places(seen, &file, 0..40, |_| vec![u64::MAX]).map_err(told)?;
        let (from, to) = (place_of(&file, PLACES - 16), place_of(&file, PLACES + 8));
        from_places(seen, &file, [0], |_| (from..=to).collect()).map_err(told)?;
    }
    Ok(())
}

pub fn all(seen: &mut Seen, seed: u64) -> Result<(), String> {
    small_files(seen, seed)?;
    reported(seen, seed)?;
    moving(seen, seed)?;
    telling(seen, seed)?;
    carried(seen, seed)?;
    woken(seen)?;
    crowds(seen)?;
    long_runs(seen)
}
