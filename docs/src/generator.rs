//! A seeded generator of run files, good and damaged. A file depends on its seed and index alone. Of the good files of every kind about a
//! third has W below H + D.
//!
//! `file(seed, index, size)` gives the bytes of one file, `plan(seed, index)` an undamaged one, `spaced_plan(seed, index)` one whose
//! crashes are all spaced by S, `reported_plan(seed, index, size)` one in which a report of the emitter may well move a node,
//! `tripped_plan(seed, index, size)` one in which many nodes crash close together and the survivors come to be joined and to have full lists;
//! `crowd(order)` is a plan that brings 2,048 messages into flight, due in that order; `some_order` is an order of a ring's nodes, or none.

use super::limits::{FILE_BYTES, MAX_DELAY_ROWS};
use super::random::Random;
use std::fmt::Write as _;

/// How many events the heartbeats of a plan lead to.
#[derive(Clone, Copy)]
pub struct Size {
    /// About how many.
    events: u64,
    /// At most, where the plan is damaged.
    most_events: u64,
    /// Whether some plans bring about 2,048 messages into flight or reports over many relays, however many events that takes.
    crowded: bool,
}

pub const USUAL: Size = Size { events: 6_000, most_events: 20_000, crowded: true };
pub const SMALL: Size = Size { events: 240, most_events: 1_500, crowded: false };

/// The fields of a run file, in the paper's order.
pub struct Draft {
    pub nodes: u64,
    pub period: u64,
    pub timeout: u64,
    pub delay: u64,
    pub end: u64,
    /// The numbers of the Q line; none where there is no such line.
    pub order: Vec<u64>,
    pub crashes: Vec<(u64, u64)>,
    pub delays: Vec<(u64, u64)>,
}

impl Draft {
    pub fn bytes(&self) -> Vec<u8> {
        let Draft { nodes, period, timeout, delay, end, .. } = self;
        let mut text = format!("P,{nodes},{period},{timeout},{delay},{end}\n");
        if !self.order.is_empty() {
            text += &order_line(&self.order);
        }
        for (tick, node) in &self.crashes {
            writeln!(text, "C,{tick},{node}").expect("a string takes every byte");
        }
        for (number, delay) in &self.delays {
            writeln!(text, "L,{number},{delay}").expect("a string takes every byte");
        }
        text.into_bytes()
    }

    /// The nodes in the ring's order.
    fn ring(&self) -> Vec<u64> {
        if self.order.is_empty() {
            (0..self.nodes).collect()
        } else {
            self.order.clone()
        }
    }

    /// S = W + (K + 2) × D, where this many survive.
    fn settling_time(&self, survivors: u64) -> u64 {
        let rounded_up = u64::from(survivors.max(1).next_power_of_two().trailing_zeros());
        self.timeout + (rounded_up + 2) * self.delay
    }
}

/// A Q line with these fields.
fn order_line<T: ToString>(fields: &[T]) -> String {
    let fields: String = fields.iter().map(|field| format!(",{}", field.to_string())).collect();
    format!("Q{fields}\n")
}

/// One file: about one in three is damaged.
pub fn file(seed: u64, index: u64, size: Size) -> Vec<u8> {
    let mut random = Random::new(seed, index);
    let bytes = draft(&mut random, size).bytes();
    if random.chance(3) {
        damage(&mut random, bytes, size)
    } else {
        bytes
    }
}

/// One file that 01 accepts.
pub fn plan(seed: u64, index: u64) -> Vec<u8> {
    draft(&mut Random::new(seed, index), USUAL).bytes()
}

/// One file whose crashes are each S ticks or a little more after the one before.
pub fn spaced_plan(seed: u64, index: u64) -> Vec<u8> {
    let mut random = Random::new(seed, index);
    let mut draft = open_draft(&mut random, USUAL);
    crash_spaced(&mut random, &mut draft, 0);
    put_delays(&mut random, &mut draft);
    draft.bytes()
}

/// One file in which a report of the emitter may well move a node.
pub fn reported_plan(seed: u64, index: u64, size: Size) -> Vec<u8> {
    reported_draft(&mut Random::new(seed, index), size).bytes()
}

/// One file of a power trip.
pub fn tripped_plan(seed: u64, index: u64, size: Size) -> Vec<u8> {
    tripped_draft(&mut Random::new(seed, index), size).bytes()
}

/// How the due ticks of messages go with their numbers.
#[derive(Clone, Copy, PartialEq, Eq, Debug)]
pub enum Order {
    Rising,
    Falling,
    Mixed,
}

pub const ORDERS: [Order; 3] = [Order::Rising, Order::Falling, Order::Mixed];

/// Messages of a crowd: 64 a tick.
pub const CROWD: u64 = 2_048;

/// 64 nodes that send a heartbeat each tick, 2,048 of them up to tick 32. These are due from tick 40 to 240, in this order.
/// All nodes crash at tick 33.
pub fn crowd(order: Order) -> Draft {
    let delay_of = |number: u64| {
        let place = match order {
            Order::Rising => number,
            Order::Falling => CROWD - 1 - number,
            Order::Mixed => number * 1_031 % CROWD,
        };
        40 + place * 200 / (CROWD - 1) - (1 + number / 64)
    };
    Draft {
        nodes: 64,
        period: 1,
        timeout: 256,
        delay: 255,
        end: 600,
        order: Vec::new(),
        crashes: (0..64).map(|node| (33, node)).collect(),
        delays: (0..CROWD).map(|number| (number, delay_of(number))).collect(),
    }
}

fn draft(random: &mut Random, size: Size) -> Draft {
    if random.chance(8) && size.crowded {
        return crowded_draft(random);
    }
    if random.chance(6) {
        return reported_draft(random, size);
    }
    if random.chance(6) {
        return tripped_draft(random, size);
    }
    let mut draft = open_draft(random, size);
    match random.range(0, 6) {
        0 => {}
        1 | 2 => crash_anywhere(random, &mut draft),
        3 => crash_block(random, &mut draft),
        4 => crash_neighbours(random, &mut draft),
        _ => {
            let short = random.range(0, 2);
            crash_spaced(random, &mut draft, short);
        }
    }
    put_delays(random, &mut draft);
    draft
}

/// The P line and possibly a Q line. The end tick keeps the events few.
fn open_draft(random: &mut Random, size: Size) -> Draft {
    let sizes = [1, 2, 3, 4, 5, 8, 9, 16, 17, 33, 63, 64];
    let nodes = if random.chance(2) { random.pick(&sizes) } else { random.range(1, 64) };
    let (most_period, most_delay) = random.pick(&[(3, 3), (10, 8), (1, 6), (6, 1), (40, 60), (1_000, 255)]);
    let period = random.range(1, most_period);
    let delay = random.range(1, most_delay);
    let above = random.pick(&[0, 0, 1, 2, delay, period, 50]);
    let most_end = (size.events * period / (2 * nodes)).clamp(1, 1_000_000);
    let end = match random.range(0, 15) {
        0 => 0,
        1 => random.range(0, most_end),
        _ => most_end,
    };
    let timeout = some_timeout(random, period, delay, above);
    let order = some_order(random, nodes);
    Draft { nodes, period, timeout, delay, end, order, crashes: Vec::new(), delays: Vec::new() }
}

/// A third of the time W is below H + D: by one tick or two, of any length, H, or as short as can be. Else it is so many ticks above.
fn some_timeout(random: &mut Random, period: u64, delay: u64, above: u64) -> u64 {
    let enough = period + delay;
    if !random.chance(3) {
        return enough + above;
    }
    let any = random.range(1, enough - 1);
    random.pick(&[enough - 1, enough - 1, enough - 1, (enough - 2).max(1), any, any, period, 1])
}

/// Half of the time none. Else mostly any order, or one that a planner would write: that of the numbers, rotated or
/// reversed; the nodes of each power supply as far apart as can be; those of each together, but the supplies mixed.
pub fn some_order(random: &mut Random, nodes: u64) -> Vec<u64> {
    if random.chance(2) {
        return Vec::new();
    }
    let mut order: Vec<u64> = (0..nodes).collect();
    let supply = random.pick(&[2, 3, 4, 8]);
    match random.range(0, 11) {
        0 => {}
        1 => order.rotate_left(random.below(nodes) as usize),
        2 => order.reverse(),
        3 => order.sort_by_key(|node| (node % supply, *node)),
        4 => {
            let mut supplies: Vec<&[u64]> = order.chunks(supply as usize).collect();
            random.shuffle(&mut supplies);
            order = supplies.concat();
        }
        _ => random.shuffle(&mut order),
    }
    order
}

/// A plan whose heartbeats alone bring about 2,048 messages into flight, where a short W does not before.
fn crowded_draft(random: &mut Random) -> Draft {
    let uneven = random.range(32, 64);
    let nodes = random.pick(&[32, 64, 64, uneven]);
    let period = random.range(1, 3);
    let delay = 2_048 * period / nodes + random.pick(&[0, 0, 1]);
    let above = random.pick(&[0, 0, 1, 20]);
    let timeout = some_timeout(random, period, delay, above);
    let end = 2 * timeout.max(period + delay) + random.range(0, 60);
    let order = some_order(random, nodes);
    let mut draft = Draft { nodes, period, timeout, delay, end, order, crashes: Vec::new(), delays: Vec::new() };
    if random.chance(2) {
        crash_anywhere(random, &mut draft);
    }
    if random.chance(2) {
        put_delays(random, &mut draft);
    }
    draft
}

/// A plan in which a report of the emitter may well move a node. Four or six nodes in a row die, and the node after them moves so:
///
/// - All of the row but the first two die at once. The node after the row expires on one after another of them, 2 × W apart, and
///   comes to the second.
/// - The first dies, and the second expires on it. It reports that to the nodes at distances of powers of two, among them the dead
///   of which it has not heard. So it passes over the node after the row, the third or fifth ahead, which then hears of it by
///   relays, all around the ring.
/// - The second dies too. The node after the row expires on it and comes to the first, of which it has not heard. The report finds
///   it there.
///
/// How long the report takes goes by D and by the number of relays, which N decides; how long the watches take goes by W. So D is
/// large against H, W hardly above H + D, unless it is short, and N mostly one that takes many relays.
fn reported_draft(random: &mut Random, size: Size) -> Draft {
    let usual_nodes = [10, 14, 16, 17, 28, 29, 33];
    let (usual_nodes, most_nodes, most_periods) = if size.crowded { (&usual_nodes[..], 34, 10) } else { (&usual_nodes[..4], 18, 5) };
    let gap = if size.crowded && random.chance(3) { 4 } else { 2 };
    let nodes = if random.chance(4) { random.range(10, most_nodes) } else { random.pick(usual_nodes) };
    let period = random.range(1, 3);
    let delay = period * random.range(4, most_periods);
    let above = random.pick(&[0, 0, 0, 1]);
    let timeout = some_timeout(random, period, delay, above);
    let at_second = (2 * gap as u64 - 1) * timeout;
    let end = at_second + random.range(3, 5) * timeout;
    let order = some_order(random, nodes);
    let mut draft = Draft { nodes, period, timeout, delay, end, order, crashes: Vec::new(), delays: Vec::new() };
    let mut row = draft.ring();
    row.rotate_left(random.below(nodes) as usize);
    let reported = (at_second + delay).saturating_sub(random.range(delay / 4, 3 * delay / 2));
    let first_dies = reported.saturating_sub(timeout + delay);
    let mut rows = vec![(first_dies, row[0]), (reported + random.range(1, delay / 2), row[1])];
    rows.extend(row[2..].iter().take(gap).map(|node| (random.range(0, period), *node)));
    rows.extend((0..random.pick(&[0, 0, 1, 2, nodes / 6])).map(|_| (random.range(0, end), random.below(nodes))));
    put_crashes(&mut draft, rows);
    if random.chance(3) {
        put_delays(random, &mut draft);
    }
    draft
}

/// A power trip. One group of nodes crashes or several, each at one tick or within a few, and the run goes on to the tick from whose end on
/// the survivors are joined or beyond it, half of the time to the one from whose end on their lists are full. Heartbeats are slow against delays in larger rings, as a survivor may wait 2 × W for each of
/// the dead.
fn tripped_draft(random: &mut Random, size: Size) -> Draft {
    let nodes = if size.crowded { random.pick(&[2, 5, 8, 16, 24, 48, 62]) + random.range(0, 2) } else { random.range(2, 9) };
    let most_period = random.pick(&[1, 3, 12, 100]);
    let period = random.range(1, most_period);
    let most_delay = if nodes > 18 { period.div_ceil(2) } else { 2 * period };
    let delay = random.range(1, most_delay);
    let above = random.pick(&[0, 0, 0, 1, period / 2]);
    let timeout = some_timeout(random, period, delay, above);
    let order = some_order(random, nodes);
    let mut draft = Draft { nodes, period, timeout, delay, end: u64::MAX, order, crashes: Vec::new(), delays: Vec::new() };
    crash_groups(random, &mut draft);
    let crashes = draft.crashes.len() as u64;
    let joined = draft.crashes[draft.crashes.len() - 1].0 + 2 * timeout * crashes + delay;
    let listed = (nodes - crashes).saturating_sub(1) * (period + delay);
    draft.end = joined + random.pick(&[0, timeout, listed, listed + 3 * timeout]);
    put_delays(random, &mut draft);
    draft
}

/// Up to three groups, each a row of nodes that may share some with another: mostly a few, sometimes all nodes or all but one.
fn crash_groups(random: &mut Random, draft: &mut Draft) {
    let mut tick = random.range(0, 2 * draft.timeout);
    let mut rows = Vec::new();
    for _ in 0..random.pick(&[1, 1, 1, 2, 2, 3]) {
        let few = random.range(1, draft.nodes.div_ceil(2).min(8));
        let count = if random.chance(8) { random.pick(&[draft.nodes - 1, draft.nodes]) } else { few };
        let within = random.pick(&[0, 0, 0, 1, 3]);
        let row = in_a_row(random, draft);
        rows.extend(row[..count as usize].iter().map(|node| (tick + random.range(0, within), *node)));
        let apart = random.pick(&[1, 3, draft.delay, draft.timeout, 2 * draft.timeout]);
        tick += random.range(0, apart);
    }
    put_crashes(draft, rows);
}

/// Keeps the rows that a file may hold: up to the end tick, rising, no node twice.
pub fn put_crashes(draft: &mut Draft, mut rows: Vec<(u64, u64)>) {
    let mut seen = vec![false; draft.nodes as usize];
    let end = draft.end;
    rows.retain(|(tick, node)| *tick <= end && !std::mem::replace(&mut seen[*node as usize], true));
    rows.sort_unstable();
    draft.crashes = rows;
}

fn crash_anywhere(random: &mut Random, draft: &mut Draft) {
    let count = random.range(1, draft.nodes);
    let last = random.pick(&[draft.end, draft.end, draft.end.min(3 * draft.timeout)]);
    let rows = (0..count).map(|_| (random.range(0, last), random.range(0, draft.nodes - 1))).collect();
    put_crashes(draft, rows);
}

/// All nodes in a row, from any on: in the ring's order or, as they share a power supply, by number.
fn in_a_row(random: &mut Random, draft: &Draft) -> Vec<u64> {
    let mut row = if random.chance(2) { draft.ring() } else { (0..draft.nodes).collect() };
    row.rotate_left(random.below(draft.nodes) as usize);
    row
}

/// Neighbours in a row, all at one tick.
fn crash_block(random: &mut Random, draft: &mut Draft) {
    let count = random.range(1, draft.nodes) as usize;
    let row = in_a_row(random, draft);
    let tick = random.range(0, draft.end.min(2 * draft.timeout));
    put_crashes(draft, row[..count].iter().map(|node| (tick, *node)).collect());
}

/// Neighbours one after another, going ahead or back, a few ticks apart.
fn crash_neighbours(random: &mut Random, draft: &mut Draft) {
    let count = random.range(1, draft.nodes) as usize;
    let mut row = in_a_row(random, draft);
    if random.chance(2) {
        row.reverse();
    }
    let pace = random.pick(&[1, draft.delay, draft.timeout, draft.timeout + draft.delay]);
    let mut tick = random.range(0, draft.end.min(draft.timeout));
    let mut rows = Vec::new();
    for node in &row[..count] {
        rows.push((tick, *node));
        tick += random.range(0, pace);
    }
    put_crashes(draft, rows);
}

/// Crashes S + 0 or 1 ticks apart; with `short` not 0 also S − 1 now and then.
fn crash_spaced(random: &mut Random, draft: &mut Draft, short: u64) {
    let mut rows = Vec::new();
    let mut nodes: Vec<u64> = (0..draft.nodes).collect();
    let mut tick = random.range(0, draft.end.min(2 * draft.timeout));
    while !nodes.is_empty() && tick <= draft.end {
        let place = random.range(0, nodes.len() as u64 - 1) as usize;
        rows.push((tick, nodes.swap_remove(place)));
        tick += draft.settling_time(nodes.len() as u64) + random.range(0, 1);
        if short > 0 && random.chance(3) {
            tick -= 1;
        }
    }
    put_crashes(draft, rows);
}

/// L lines: none, all 1, all D, or mixed; from the first message on, or with gaps.
fn put_delays(random: &mut Random, draft: &mut Draft) {
    let count = match random.range(0, 4) {
        0 => return,
        1 => MAX_DELAY_ROWS as u64,
        _ => random.range(0, MAX_DELAY_ROWS as u64),
    };
    let style = random.range(0, 4);
    let gap = random.pick(&[1, 1, 2, 4]);
    let mut number = random.pick(&[0, 0, 3, 999_000]);
    for _ in 0..count {
        if number > 999_999 {
            break;
        }
        let delay = match style {
            0 => 1,
            1 => draft.delay,
            2 => random.pick(&[1, draft.delay]),
            _ => random.range(1, draft.delay),
        };
        draft.delays.push((number, delay));
        number += random.range(1, gap);
    }
}

/// Damages a file in one to three places. A file that would then run for long is left whole.
fn damage(random: &mut Random, bytes: Vec<u8>, size: Size) -> Vec<u8> {
    let mut damaged = bytes.clone();
    for _ in 0..random.range(1, 3) {
        damage_once(random, &mut damaged);
    }
    if runs_long(&damaged, size.most_events) {
        bytes
    } else {
        damaged
    }
}

/// Whether the first line is a P line whose heartbeats alone make more than this many events.
fn runs_long(bytes: &[u8], most_events: u64) -> bool {
    let line = bytes.split(|byte| *byte == b'\n').next().unwrap_or(&[]);
    let fields: Vec<u64> =
        String::from_utf8_lossy(line).split(',').filter_map(|field| field.parse().ok()).collect();
    let [nodes, period, _, _, end] = fields[..] else { return false };
    2 * u128::from(nodes) * u128::from(end) > u128::from(most_events) * u128::from(period)
}

fn damage_once(random: &mut Random, bytes: &mut Vec<u8>) {
    match random.range(0, 16) {
        0 => change_byte(random, bytes),
        1 => drop_byte(random, bytes),
        2 => add_byte(random, bytes),
        3 => swap_lines(random, bytes),
        4 => drop(bytes.pop()),
        5 => lengthen_number(random, bytes),
        6 => lengthen_file(random, bytes),
        7 => double_line(random, bytes),
        8 => change_number(random, bytes),
        9 | 11 => add_rows(random, bytes),
        10 => bytes.truncate(random.range(0, bytes.len() as u64) as usize),
        12 => drop_line(random, bytes),
        13 => change_timeout(random, bytes),
        _ => damage_order(random, bytes),
    }
}

/// A place in the file; half of the time near its start, where the P line is, a Q line and the first C lines.
fn place(random: &mut Random, bytes: &[u8]) -> usize {
    let length = bytes.len() as u64;
    let last = if random.chance(2) { length.min(40) } else { length };
    random.range(0, last.max(1) - 1) as usize
}

/// Half of the time a byte that a run file may hold.
fn some_byte(random: &mut Random) -> u8 {
    let usual = b"0123456789PQCL,\n\r +-.\0\xff";
    if random.chance(2) {
        random.pick(usual)
    } else {
        random.draw() as u8
    }
}

fn change_byte(random: &mut Random, bytes: &mut [u8]) {
    let place = place(random, bytes);
    let byte = some_byte(random);
    if let Some(old) = bytes.get_mut(place) {
        *old = byte;
    }
}

fn drop_byte(random: &mut Random, bytes: &mut Vec<u8>) {
    let place = place(random, bytes);
    if place < bytes.len() {
        bytes.remove(place);
    }
}

fn add_byte(random: &mut Random, bytes: &mut Vec<u8>) {
    let place = place(random, bytes);
    let byte = some_byte(random);
    bytes.insert(place, byte);
}

/// Does `change` on the list of lines.
fn with_lines(bytes: &mut Vec<u8>, change: impl FnOnce(&mut Vec<Vec<u8>>)) {
    let mut lines: Vec<Vec<u8>> = bytes.split_inclusive(|byte| *byte == b'\n').map(<[u8]>::to_vec).collect();
    if !lines.is_empty() {
        change(&mut lines);
        *bytes = lines.concat();
    }
}

fn some_line(random: &mut Random, lines: &[Vec<u8>]) -> usize {
    random.range(0, lines.len() as u64 - 1) as usize
}

fn swap_lines(random: &mut Random, bytes: &mut Vec<u8>) {
    with_lines(bytes, |lines| {
        let first = some_line(random, lines);
        let second = if random.chance(2) { (first + 1) % lines.len() } else { some_line(random, lines) };
        lines.swap(first, second);
    });
}

fn double_line(random: &mut Random, bytes: &mut Vec<u8>) {
    with_lines(bytes, |lines| {
        let place = some_line(random, lines);
        let line = lines[place].clone();
        lines.insert(place, line);
    });
}

fn drop_line(random: &mut Random, bytes: &mut Vec<u8>) {
    with_lines(bytes, |lines| {
        let place = some_line(random, lines);
        lines.remove(place);
    });
}

/// Puts another W into the first line: one that is out of range, the least or the greatest, or one tick shorter than H + D, or H + D.
fn change_timeout(random: &mut Random, bytes: &mut Vec<u8>) {
    with_lines(bytes, |lines| {
        let line = String::from_utf8_lossy(&lines[0]).into_owned();
        let mut fields: Vec<String> = line.trim_end().split(',').map(str::to_string).collect();
        let number = |place: usize| fields.get(place).and_then(|field| field.parse::<u16>().ok()).map_or(1, u64::from);
        let enough = number(2) + number(4);
        let timeout = random.pick(&[0, 0, 65_536, 65_536, 65_535, 1, enough.max(1) - 1, enough]);
        if let Some(field) = fields.get_mut(3) {
            *field = timeout.to_string();
            lines[0] = (fields.join(",") + "\n").into_bytes();
        }
    });
}

/// Puts a number at or near the edge of a range in place of a field.
fn change_number(random: &mut Random, bytes: &mut Vec<u8>) {
    let edges: [&[u8]; 20] = [
        b"0", b"1", b"63", b"64", b"65", b"255", b"256", b"1000", b"1001", b"65535", b"65536", b"999999",
        b"1000000", b"1000001", b"4294967296", b"4294967297", b"18446744073709551615",
        b"18446744073709551616", b"18446744073709551618", b"",
    ];
    let edge = random.pick(&edges);
    with_lines(bytes, |lines| {
        let place = if random.chance(2) { 0 } else { some_line(random, lines) };
        let body = lines[place].strip_suffix(b"\n").unwrap_or(&lines[place]);
        let mut fields: Vec<&[u8]> = body.split(|byte| *byte == b',').collect();
        let last = fields.len() - 1;
        fields[random.range(1.min(last as u64), last as u64) as usize] = edge;
        lines[place] = [fields.join(&b','), b"\n".to_vec()].concat();
    });
}

/// Puts many digits into the file.
fn lengthen_number(random: &mut Random, bytes: &mut Vec<u8>) {
    let place = place(random, bytes);
    let count = random.pick(&[1, 10, 19, 20, 21, 39, 100, 5_000]);
    let digit = random.pick(b"0123456789");
    bytes.splice(place..place, std::iter::repeat_n(digit, count));
}

/// Brings the file to one of the lengths about the greatest: with lines, or with one byte.
fn lengthen_file(random: &mut Random, bytes: &mut Vec<u8>) {
    let length = FILE_BYTES + random.pick(&[0, 1, 1, 2, 4_000]) - random.range(0, 1) as usize;
    let unit = random.pick(&[&b"L,1,1\n"[..], b"\n", b"0", b",", b"\0"]);
    while bytes.len() < length {
        bytes.extend_from_slice(unit);
    }
    bytes.truncate(length);
}

/// Adds C or L rows at the end, possibly one more than a file may hold.
fn add_rows(random: &mut Random, bytes: &mut Vec<u8>) {
    let most = MAX_DELAY_ROWS as u64;
    let rows = random.pick(&[1, 2, most, most + 1, most + 1]);
    let letter = random.pick(&['C', 'L', 'L', 'L']);
    let base = random.pick(&[0, 10_000, 900_000, 900_000]);
    for row in 0..rows {
        bytes.extend_from_slice(format!("{letter},{},1\n", base + row).as_bytes());
    }
}

/// Damages the Q line, or puts one in and damages it.
fn damage_order(random: &mut Random, bytes: &mut Vec<u8>) {
    with_lines(bytes, |lines| {
        let nodes = String::from_utf8_lossy(&lines[0]).split(',').nth(1).and_then(|field| field.parse().ok());
        let nodes = nodes.filter(|nodes| (1..=64).contains(nodes)).unwrap_or(5);
        if lines.get(1).is_none_or(|line| line[0] != b'Q') {
            lines.insert(1, order_line(&(0..nodes).collect::<Vec<u64>>()).into_bytes());
        }
        if random.chance(4) {
            misplace_order(random, lines);
        } else {
            let line = String::from_utf8_lossy(&lines[1]);
            let mut fields = line.trim_end().split(',').skip(1).map(str::to_string).collect();
            damage_fields(random, &mut fields, nodes);
            lines[1] = order_line(&fields).into_bytes();
        }
    });
}

/// The Q line before P, twice, or after other lines.
fn misplace_order(random: &mut Random, lines: &mut Vec<Vec<u8>>) {
    let last = lines.len();
    let later = random.range(2, last as u64) as usize;
    match random.range(0, 2) {
        0 => lines.swap(0, 1),
        1 => lines.insert(random.pick(&[2, later]), lines[1].clone()),
        _ => lines[1..random.pick(&[3, later]).min(last)].rotate_left(1),
    }
}

/// A node twice, a number that no node has, a field too few or too many, no field, or one that is no number.
fn damage_fields(random: &mut Random, fields: &mut Vec<String>, nodes: u64) {
    if fields.is_empty() {
        return fields.push(String::new());
    }
    let [one, other] = [0; 2].map(|_| random.below(fields.len() as u64) as usize);
    let beyond = random.pick(&[nodes, nodes, nodes + 1, 64, 255, 256, 1 << 32]);
    match random.range(0, 10) {
        0..=2 => fields[one] = fields[other].clone(),
        3 => fields[one] = beyond.to_string(),
        4 => drop(fields.remove(one)),
        5 => fields.push(random.below(nodes).to_string()),
        6 => fields.push(String::new()),
        7 => fields[one].insert(0, '0'),
        8 => fields[one].push(' '),
        9 => fields.clear(),
        _ => *fields = vec![beyond.to_string(); fields.len() - random.below(2) as usize],
    }
}

#[cfg(test)]
mod tests {
    use super::super::plan;
    use super::super::platform::Platform;
    use super::super::settle;
    use super::*;

    /// About half of the good files have a Q line. Among rings of more than four nodes, each kind of order comes up, and most
    /// have neighbours that are none in number order.
    #[test]
    fn half_of_the_good_files_have_an_order() {
        let order_of = |index| plan::read(&plan(101, index)).expect("the file is accepted").order;
        let orders: Vec<Vec<u8>> = (0..2_000).map(order_of).filter(|order| !order.is_empty()).collect();
        assert!((900..1_100).contains(&orders.len()), "{} files have a Q line", orders.len());
        let large: Vec<&Vec<u8>> = orders.iter().filter(|order| order.len() > 4).collect();
        let steps = |order: &[u8]| -> Vec<i16> {
            order.windows(2).map(|pair| i16::from(pair[1]) - i16::from(pair[0])).collect()
        };
        let count = |is_such: fn(&[i16]) -> bool| large.iter().filter(|order| is_such(&steps(order))).count();
        let rising = count(|steps| steps.iter().all(|step| *step == 1));
        let falling = count(|steps| steps.iter().all(|step| *step == -1));
        let rotated = count(|steps| steps.iter().filter(|step| **step != 1).count() == 1);
        let apart = count(|steps| steps.iter().all(|step| *step != 1 && *step != -1));
        let mixed = count(|steps| steps.iter().filter(|step| step.abs() != 1).count() > 1);
        for (kind, count) in [("rising", rising), ("falling", falling), ("rotated", rotated), ("apart", apart)] {
            assert!(count > 20, "{count} orders are {kind}");
        }
        assert!(mixed * 3 > large.len() * 2, "{mixed} of {} orders are mixed", large.len());
    }

    /// How many of these files move a node by a report.
    fn moving(files: impl Iterator<Item = Vec<u8>>) -> usize {
        let moves = |file: Vec<u8>| {
            let mut platform = Platform::open(plan::read(&file).expect("the file is accepted"));
            platform.run(u64::MAX);
            platform.moves_by_report() > 0
        };
        files.filter(|file| moves(file.clone())).count()
    }

    fn is_short(file: &[u8]) -> bool {
        plan::read(file).expect("the file is accepted").short_timeout()
    }

    /// Of the files that are made for it and have W at least H + D about a third moves a node by a report, with a Q line and without one, and
    /// of all such good files one in twenty. Where W is shorter, live nodes are reported, and most files move one.
    #[test]
    fn reports_of_the_emitter_move_nodes() {
        for size in [USUAL, SMALL] {
            let (ordered, plain): (Vec<_>, Vec<_>) = (0..450)
                .map(|index| reported_plan(102, index, size))
                .filter(|file| !is_short(file))
                .partition(|file| file.windows(3).any(|part| part == b"\nQ,"));
            for files in [ordered, plain] {
                let (all, moving) = (files.len(), moving(files.into_iter()));
                assert!(all > 100 && moving * 6 > all, "{moving} of {all} files made for it");
            }
        }
        let (short, enough): (Vec<_>, Vec<_>) = (0..900).map(|index| plan(102, index)).partition(|file| is_short(file));
        let (all, all_short) = (enough.len(), short.len());
        let [moving, moving_short] = [enough, short].map(|files| moving(files.into_iter()));
        assert!(moving > 15, "{moving} of {all} files");
        assert!(moving_short * 2 > all_short, "{moving_short} of {all_short} files with a short W");
    }

    /// Several crashes, and an end tick soon after the one from whose end on survivors are joined.
    fn ends_soon_after_joining(file: &[u8]) -> bool {
        let plan = plan::read(file).expect("the file is accepted");
        let last = plan.crashes.last().map_or(0, |crash| u64::from(crash.tick));
        let joined = last + settle::joining_time(plan.timeout, plan.delay, plan.crashes.len());
        plan.crashes.len() > 1 && (joined..=joined + 3 * u64::from(plan.timeout)).contains(&u64::from(plan.end))
    }

    /// Every power trip with W at least H + D has an end tick by which survivors have to be joined, many one by which their lists have to be full. In many of them
    /// neighbours in the ring crash at one tick, in some all nodes crash or all but one, in rings with a Q line and without; and of all good
    /// files one in ten is such.
    #[test]
    fn power_trips_come_up_in_every_way() {
        for size in [USUAL, SMALL] {
            let (mut together, mut apart, mut all, mut but_one, mut ordered, mut listed) = (0, 0, 0, 0, 0, 0);
            for index in 0..600 {
                let plan = plan::read(&tripped_plan(103, index, size)).expect("the file is accepted");
                if plan.short_timeout() {
                    continue;
                }
                let (ring, crashes, survivors) = (plan.ring(), &plan.crashes, usize::from(plan.nodes) - plan.crashes.len());
                let row = |crash: &&plan::Crash| crashes.contains(&plan::Crash { node: ring.after(crash.node), ..**crash });
                together += usize::from(crashes.iter().filter(row).count() > 0);
                apart += usize::from(crashes.len() > 1 && crashes[0].tick < crashes[crashes.len() - 1].tick);
                all += usize::from(survivors == 0);
                but_one += usize::from(survivors == 1);
                ordered += usize::from(!plan.order.is_empty());
                let mut platform = Platform::open(plan);
                platform.run(u64::MAX);
                assert!(settle::joining_tick_passed(&mut platform), "index {index}");
                listed += usize::from(platform.survivors() > 1 && settle::listing_tick_passed(&mut platform));
            }
            let counts = [together, apart, all, but_one, ordered, listed];
            assert!(together > 150 && apart > 150 && all > 30 && but_one > 30 && (150..250).contains(&ordered) && listed > 100, "{counts:?}");
        }
        let trips = (0..400).filter(|index| ends_soon_after_joining(&plan(103, *index))).count();
        assert!(trips > 20, "{trips} of 400 files");
    }

    /// What kinds of W the good files have: one tick short of H + D, shorter, as short as can be, and H + D or more.
    #[derive(Default, Debug)]
    struct Timeouts {
        one_short: u64,
        shorter: u64,
        least: u64,
        enough: u64,
    }

    impl Timeouts {
        fn of(files: impl Iterator<Item = Vec<u8>>) -> Timeouts {
            let mut timeouts = Timeouts::default();
            for file in files {
                let plan = plan::read(&file).expect("the file is accepted");
                let count = match plan.period + plan.delay {
                    enough if plan.timeout >= enough => &mut timeouts.enough,
                    _ if plan.timeout == 1 => &mut timeouts.least,
                    enough if plan.timeout == enough - 1 => &mut timeouts.one_short,
                    _ => &mut timeouts.shorter,
                };
                *count += 1;
            }
            timeouts
        }
    }

    /// Of good files of every kind, with a Q line and without one, about a third has W below H + D: some by one tick, some with W 1, some
    /// in between.
    #[test]
    fn a_third_of_the_good_files_have_a_short_timeout() {
        let kinds: [fn(u64) -> Vec<u8>; 6] = [
            |index| plan(109, index),
            |index| spaced_plan(109, index),
            |index| reported_plan(109, index, USUAL),
            |index| reported_plan(109, index, SMALL),
            |index| tripped_plan(109, index, USUAL),
            |index| tripped_plan(109, index, SMALL),
        ];
        for (kind, file) in kinds.into_iter().enumerate() {
            let (ordered, plain): (Vec<_>, Vec<_>) = (0..900).map(file).partition(|file| file.windows(3).any(|part| part == b"\nQ,"));
            for files in [ordered, plain] {
                let timeouts = Timeouts::of(files.into_iter());
                let Timeouts { one_short, shorter, least, enough } = timeouts;
                let short = one_short + shorter + least;
                assert!(short * 3 > enough && short * 5 < enough * 4, "kind {kind}: {timeouts:?}");
                assert!(one_short > 20 && shorter > 20 && least > 10, "kind {kind}: {timeouts:?}");
            }
        }
    }

    /// Damaged files have a P line whose W alone is out of range, below it and above; and no file is refused by 4.
    #[test]
    fn damaged_timeouts_are_refused_by_3() {
        let (mut none, mut beyond) = (0, 0);
        for index in 0..4_000 {
            for size in [USUAL, SMALL] {
                let file = file(109, index, size);
                let Err(refusal) = plan::read(&file) else { continue };
                assert_ne!(refusal.number, 4, "index {index}");
                let line = String::from_utf8_lossy(file.split(|byte| *byte == b'\n').next().unwrap_or(&[])).into_owned();
                let fields: Vec<&str> = line.split(',').collect();
                let &["P", nodes, period, timeout, delay, end] = &fields[..] else { continue };
                let repaired = format!("P,{nodes},{period},1,{delay},{end}\n");
                if (refusal.number, refusal.line) == (3, 1) && plan::read(repaired.as_bytes()).is_ok() {
                    none += u64::from(timeout == "0");
                    beyond += u64::from(timeout == "65536");
                }
            }
        }
        assert!(none > 20 && beyond > 20, "{none} with W 0, {beyond} with W 65,536");
    }

    /// Damaged files have bad Q lines in the second place, refused by each number that there is, and Q lines in others.
    #[test]
    fn damaged_orders_are_refused_in_every_way() {
        let mut refused = [0; 14];
        let mut misplaced = [0; 3];
        for index in 0..4_000 {
            let file = file(101, index, SMALL);
            let Err(refusal) = plan::read(&file) else { continue };
            let line = refusal.line.checked_sub(1).and_then(|place| file.split(|byte| *byte == b'\n').nth(place));
            match refusal.line {
                _ if line.is_none_or(|line| line.first() != Some(&b'Q')) => {}
                1 => misplaced[0] += 1,
                2 => refused[usize::from(refusal.number)] += 1,
                3 => misplaced[1] += 1,
                _ => misplaced[2] += 1,
            }
        }
        assert!([2, 3, 13].into_iter().all(|number: usize| refused[number] > 20), "Q lines refused by number: {refused:?}");
        assert!(misplaced.iter().all(|count| *count > 10), "Q lines in line 1, 3 and below: {misplaced:?}");
    }
}
