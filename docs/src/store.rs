//! The store: "65,536 lent bytes, opened from an accepted run file, its unused part zero". Its fields
//! and their ranges are those of docs/LAYOUTS.md, of document 01 and of requests 102, 107 and 109: W is 1 to 65,535, whatever H and D.
//!
//! `check` is number 7: "other length, a field out of range, or an unused byte not zero".

use super::layout::*;
use super::limits::*;
use super::node::{Content, Node};
use super::plan::{self, Crash, Delay, Plan};
use super::platform::Platform;
use super::queue::Message;
use super::ring;

/// A store of unused bytes.
static ZEROS: [u8; STORE_BYTES] = [0; STORE_BYTES];

/// A timer: 0 off, else one more than its tick.
fn timer(number: u64) -> Option<u32> {
    (number as u32).checked_sub(1)
}

/// A message of a store with its due tick. No rule looks at the subject of an H or O, and a lent store
/// may hold any node there. The list of an O or R has to be empty.
struct Flight {
    due: u32,
    message: Message,
    subject: u8,
    list: u64,
}

/// What a store's bytes hold, its ranges not yet looked at.
struct Parts {
    plan: Plan,
    nodes: Vec<Node>,
    flights: Vec<Flight>,
    next_number: u64,
    crashes_done: usize,
    last_tick: u32,
}

impl Parts {
    /// Nothing where the length, a count, an unused byte or a message's kind is no store's.
    fn read(bytes: &[u8]) -> Option<Parts> {
        if bytes.len() != STORE_BYTES {
            return None;
        }
        let counts = Counts::read(bytes)?;
        if !counts.unused().all(|range| bytes[range.clone()] == ZEROS[range]) {
            return None;
        }
        let plan = read_plan(bytes, &counts);
        let crashes_done = get(bytes, CRASHES_DONE, 0) as usize;
        let crashed = |node| plan.crashes.iter().take(crashes_done).any(|row| row.node == node);
        Some(Parts {
            nodes: (0..plan.nodes).map(|number| read_node(bytes, number, !crashed(number))).collect(),
            flights: (0..counts.messages).map(|place| read_flight(bytes, place)).collect::<Option<_>>()?,
            plan,
            next_number: get(bytes, NEXT_NUMBER, 0),
            crashes_done,
            last_tick: get(bytes, LAST_TICK, 0) as u32,
        })
    }

    fn in_range(&self) -> bool {
        let Parts { plan, crashes_done, last_tick, .. } = self;
        *crashes_done <= plan.crashes.len()
            && *last_tick <= plan.end
            && self.next_number <= MAX_NEXT_NUMBER
            && plan.crashes[*crashes_done..].iter().all(|row| row.tick >= *last_tick)
            && self.nodes.iter().all(|node| self.node_in_range(node))
            && self.flights.iter().all(|flight| self.flight_in_range(flight))
            && self.numbers_rise()
            && may_be_held(plan)
    }

    /// Out of range is "a live node that lists itself, observes itself with the watch on or sends to itself
    /// with the heartbeat on", and "a live node's timer .. due before the last event's tick". "A listed emitter
    /// is from now on a field out of range", a crashed node's too: no rule leads there. Of every node the mark is part of the list.
    fn node_in_range(&self, node: &Node) -> bool {
        let Plan { nodes, period, timeout, .. } = self.plan;
        let last = u64::from(self.last_tick);
        let up_to = |due: Option<u32>, most| due.is_none_or(|tick| u64::from(tick) <= last + u64::from(most));
        let live = |due: Option<u32>, other: u8| {
            due.is_none_or(|tick| tick >= self.last_tick && other != node.number)
        };
        node.emitter < nodes
            && node.observer < nodes
            && ring::below(node.dead_list, u64::from(nodes))
            && node.mark & !node.dead_list == 0
            && !ring::listed(node.dead_list, node.emitter)
            && up_to(node.watch, 2 * timeout)
            && up_to(node.heartbeat, period)
            && (!node.alive
                || !ring::listed(node.dead_list, node.number)
                    && live(node.watch, node.emitter)
                    && live(node.heartbeat, node.observer))
    }

    fn flight_in_range(&self, Flight { due, message, subject, list }: &Flight) -> bool {
        let Plan { nodes, delay, .. } = self.plan;
        message.sender < nodes
            && message.receiver < nodes
            && *subject < nodes
            && ring::below(*list, u64::from(nodes))
            && *list == list_of(message.content)
            && message.sender != message.receiver
            && *due >= self.last_tick
            && u64::from(*due) <= u64::from(self.last_tick) + u64::from(delay)
    }

    /// No message's number is another's too, and all are below the next.
    fn numbers_rise(&self) -> bool {
        let numbers: Vec<u64> = self.flights.iter().map(|flight| flight.message.number).collect();
        numbers.windows(2).all(|pair| pair[0] < pair[1])
            && numbers.last().is_none_or(|number| *number < self.next_number)
    }
}

/// Whether a run file may hold the plan's P line, Q line and rows: written out, it is accepted as the same plan.
fn may_be_held(plan: &Plan) -> bool {
    plan::read(&plan.bytes()).is_ok_and(|read| read == *plan)
}

fn read_plan(bytes: &[u8], counts: &Counts) -> Plan {
    let number = |field| get(bytes, field, 0);
    let node = |place| get(bytes, ORDER, place) as u8;
    let crash =
        |row| Crash { tick: get(bytes, CRASH_TICK, row) as u32, node: get(bytes, CRASH_NODE, row) as u8 };
    let delay =
        |row| Delay { number: get(bytes, DELAY_NUMBER, row), delay: get(bytes, DELAY_TICKS, row) as u32 };
    Plan {
        nodes: number(NODES) as u8,
        period: number(PERIOD) as u32,
        timeout: number(TIMEOUT) as u32,
        delay: number(LONGEST_DELAY) as u32,
        end: number(END) as u32,
        order: (0..counts.ordered).map(node).collect(),
        crashes: (0..counts.crashes).map(crash).collect(),
        delays: (0..counts.delays).map(delay).collect(),
    }
}

fn read_node(bytes: &[u8], number: u8, alive: bool) -> Node {
    let place = usize::from(number);
    Node {
        number,
        alive,
        emitter: get(bytes, EMITTER, place) as u8,
        observer: get(bytes, OBSERVER, place) as u8,
        watch: timer(get(bytes, WATCH, place)),
        heartbeat: timer(get(bytes, HEARTBEAT, place)),
        dead_list: get(bytes, DEAD_LIST, place),
        mark: get(bytes, MARK, place),
    }
}

/// Nothing for an unknown kind.
fn read_flight(bytes: &[u8], place: usize) -> Option<Flight> {
    let (subject, list) = (get(bytes, MESSAGE_SUBJECT, place) as u8, get(bytes, MESSAGE_LIST, place));
    let content = match get(bytes, MESSAGE_KIND, place) as u8 {
        b'H' => Content::Heartbeat { list },
        b'O' => Content::NewObserver,
        b'R' => Content::Report { subject },
        _ => return None,
    };
    let message = Message {
        number: get(bytes, MESSAGE_NUMBER, place),
        sender: get(bytes, MESSAGE_SENDER, place) as u8,
        receiver: get(bytes, MESSAGE_RECEIVER, place) as u8,
        content,
    };
    Some(Flight { due: get(bytes, MESSAGE_DUE, place) as u32, message, subject, list })
}

/// Whether a call takes these bytes for a store; otherwise it is refused by 7.
pub fn check(bytes: &[u8]) -> bool {
    Parts::read(bytes).is_some_and(|parts| parts.in_range())
}

/// Whether the byte at this place of a store in range holds something.
pub fn is_used(bytes: &[u8], place: usize) -> bool {
    Counts::read(bytes).is_some_and(|counts| !counts.unused().any(|range| range.contains(&place)))
}

/// A platform as a store holds it.
#[derive(Clone, Debug)]
pub struct Held {
    pub platform: Platform,
    /// The subjects other than 0 that the store gives its H and O messages, by message number.
    idle_subjects: Vec<(u64, u8)>,
}

impl From<Platform> for Held {
    fn from(platform: Platform) -> Held {
        Held { platform, idle_subjects: Vec::new() }
    }
}

/// What a store holds; nothing where it is out of range. A store does not say how many events led to it.
pub fn decode(bytes: &[u8]) -> Option<Held> {
    let Parts { plan, nodes, flights, next_number, crashes_done, last_tick } =
        Parts::read(bytes).filter(Parts::in_range)?;
    let idle_subjects = flights
        .iter()
        .filter(|flight| flight.subject != subject_of(flight.message.content))
        .map(|flight| (flight.message.number, flight.subject))
        .collect();
    let messages = flights.into_iter().map(|Flight { due, message, .. }| (due, message)).collect();
    let platform = Platform::resume(plan, nodes, messages, next_number, crashes_done, last_tick);
    Some(Held { platform, idle_subjects })
}

/// The store of a platform.
pub fn encode(platform: &Platform) -> Vec<u8> {
    let mut bytes = vec![0; STORE_BYTES];
    put_plan(&mut bytes, platform.plan());
    put(&mut bytes, CRASHES_DONE, 0, platform.crashes_done() as u64);
    put(&mut bytes, LAST_TICK, 0, u64::from(platform.last_tick()));
    put(&mut bytes, NEXT_NUMBER, 0, platform.next_number());
    put(&mut bytes, MESSAGES, 0, platform.in_flight() as u64);
    platform.nodes().iter().for_each(|node| put_node(&mut bytes, node));
    for (place, (due, message)) in platform.messages().iter().enumerate() {
        put_message(&mut bytes, place, *due, message);
    }
    bytes
}

impl Held {
    /// The store, with the subjects that no rule looks at.
    pub fn encode(&self) -> Vec<u8> {
        let mut bytes = encode(&self.platform);
        for (place, (_, message)) in self.platform.messages().iter().enumerate() {
            if let Some((_, subject)) =
                self.idle_subjects.iter().find(|(number, _)| *number == message.number)
            {
                put(&mut bytes, MESSAGE_SUBJECT, place, u64::from(*subject));
            }
        }
        bytes
    }
}

fn put_plan(bytes: &mut [u8], plan: &Plan) {
    put(bytes, NODES, 0, u64::from(plan.nodes));
    put(bytes, LONGEST_DELAY, 0, u64::from(plan.delay));
    put(bytes, PERIOD, 0, u64::from(plan.period));
    put(bytes, TIMEOUT, 0, u64::from(plan.timeout));
    put(bytes, CRASHES, 0, plan.crashes.len() as u64);
    put(bytes, END, 0, u64::from(plan.end));
    put(bytes, DELAYS, 0, plan.delays.len() as u64);
    put(bytes, ORDERED, 0, plan.order.len() as u64);
    for (place, node) in plan.order.iter().enumerate() {
        put(bytes, ORDER, place, u64::from(*node));
    }
    for (row, Crash { tick, node }) in plan.crashes.iter().enumerate() {
        put(bytes, CRASH_TICK, row, u64::from(*tick));
        put(bytes, CRASH_NODE, row, u64::from(*node));
    }
    for (row, Delay { number, delay }) in plan.delays.iter().enumerate() {
        put(bytes, DELAY_NUMBER, row, *number);
        put(bytes, DELAY_TICKS, row, u64::from(*delay));
    }
}

fn put_node(bytes: &mut [u8], node: &Node) {
    let due = |timer: Option<u32>| timer.map_or(0, |tick| u64::from(tick) + 1);
    let place = usize::from(node.number);
    put(bytes, EMITTER, place, u64::from(node.emitter));
    put(bytes, OBSERVER, place, u64::from(node.observer));
    put(bytes, WATCH, place, due(node.watch));
    put(bytes, HEARTBEAT, place, due(node.heartbeat));
    put(bytes, DEAD_LIST, place, node.dead_list);
    put(bytes, MARK, place, node.mark);
}

/// The subject of an R, 0 for H and O.
fn subject_of(content: Content) -> u8 {
    match content {
        Content::Report { subject } => subject,
        Content::Heartbeat { .. } | Content::NewObserver => 0,
    }
}

/// What an H carries, 0 for O and R.
fn list_of(content: Content) -> u64 {
    match content {
        Content::Heartbeat { list } => list,
        Content::NewObserver | Content::Report { .. } => 0,
    }
}

fn put_message(bytes: &mut [u8], place: usize, due: u32, message: &Message) {
    let kind = match message.content {
        Content::Heartbeat { .. } => b'H',
        Content::NewObserver => b'O',
        Content::Report { .. } => b'R',
    };
    put(bytes, MESSAGE_NUMBER, place, message.number);
    put(bytes, MESSAGE_DUE, place, u64::from(due));
    put(bytes, MESSAGE_KIND, place, u64::from(kind));
    put(bytes, MESSAGE_SENDER, place, u64::from(message.sender));
    put(bytes, MESSAGE_RECEIVER, place, u64::from(message.receiver));
    put(bytes, MESSAGE_SUBJECT, place, u64::from(subject_of(message.content)));
    put(bytes, MESSAGE_LIST, place, list_of(message.content));
}

#[cfg(test)]
mod tests {
    use super::*;

    fn open(file: &str) -> Platform {
        Platform::open(plan::read(file.as_bytes()).expect("the file is accepted"))
    }

    /// Five nodes in the midst of a run: node 4 has just listed node 3, so O and R are in flight beside H.
    fn in_midst() -> Platform {
        let mut platform = open("P,5,2,6,3,60\nC,5,3\nC,40,1\nL,2,1\nL,7,2\n");
        platform.run(50);
        assert_eq!((platform.crashes_done(), platform.last_tick(), platform.in_flight()), (1, 13, 7));
        platform
    }

    /// The same in another order: 3 crashes, and 1, which stands after it, has just listed it.
    fn in_order() -> Platform {
        let mut platform = open("P,5,2,6,3,60\nQ,0,2,4,3,1\nC,5,3\nC,40,1\nL,2,1\nL,7,2\n");
        platform.run(50);
        assert_eq!((platform.crashes_done(), platform.last_tick(), platform.in_flight()), (1, 13, 7));
        assert_eq!(platform.nodes()[1].dead_list, 1 << 3);
        platform
    }

    /// The platform's store with one number changed.
    fn changed_in(platform: &Platform, field: Field, place: usize, number: u64) -> Vec<u8> {
        let mut bytes = encode(platform);
        put(&mut bytes, field, place, number);
        bytes
    }

    fn changed(field: Field, place: usize, number: u64) -> Vec<u8> {
        changed_in(&in_midst(), field, place, number)
    }

    /// The store of the file as opened has these bytes and is zero elsewhere.
    fn opened_bytes(file: &str, used: &[(usize, &[u8])]) {
        let mut expected = vec![0; STORE_BYTES];
        for (start, part) in used {
            expected[*start..start + part.len()].copy_from_slice(part);
        }
        assert_eq!(encode(&open(file)), expected);
    }

    #[test]
    fn an_opened_store_byte_by_byte() {
        let used = [
            (0, &[2, 1, 2, 0, 3, 0, 1, 0, 6][..]),
            (24, &[1]),
            (128, &[1, 0]),
            (192, &[1, 0]),
            (256, &[4, 0, 0, 0, 4]),
            (512, &[3, 0, 0, 0, 3]),
            (1_792, &[3]),
            (2_048, &[1]),
            (2_112, &[2, 1]),
            (10_304, &[1]),
        ];
        opened_bytes("P,2,2,3,1,6\nC,3,1\nL,258,1\n", &used);
    }

    /// Node 4 has listed and marked 3. Its next heartbeat carries that, whose list stands among the messages' lists.
    #[test]
    fn a_mark_and_a_carried_list_byte_by_byte() {
        let mut platform = in_midst();
        let bytes = encode(&platform);
        assert_eq!((&bytes[800..808], &bytes[1_312..1_320]), (&[8, 0, 0, 0, 0, 0, 0, 0][..], &[8, 0, 0, 0, 0, 0, 0, 0][..]));
        assert!(bytes[1_280..1_312].iter().chain(&bytes[1_320..1_792]).chain(&bytes[45_120..]).all(|byte| *byte == 0));
        let carries = |(_, message): &(u32, Message)| message.content == Content::Heartbeat { list: 8 };
        while !platform.messages().iter().any(carries) && platform.run(1).events > 0 {}
        let place = platform.messages().iter().position(carries).expect("a heartbeat carries it");
        assert_eq!((platform.last_tick(), platform.messages()[place].1.sender), (14, 4));
        let carried = 45_120 + 8 * place..45_128 + 8 * place;
        assert_eq!(encode(&platform)[carried], [8, 0, 0, 0, 0, 0, 0, 0]);
    }

    /// 1 → 0 → 3 → 2 → 1: the nodes' columns go by number.
    #[test]
    fn an_opened_store_with_an_order_byte_by_byte() {
        let used = [
            (0, &[4, 1, 2, 0, 3, 0, 0, 0, 6][..]),
            (28, &[4]),
            (64, &[1, 0, 3, 2]),
            (128, &[1, 2, 3, 0]),
            (192, &[3, 0, 1, 2]),
            (256, &[4, 0, 0, 0, 4, 0, 0, 0, 4, 0, 0, 0, 4]),
            (512, &[3, 0, 0, 0, 3, 0, 0, 0, 3, 0, 0, 0, 3]),
        ];
        opened_bytes("P,4,2,3,1,6\nQ,1,0,3,2\n", &used);
        opened_bytes("P,1,1,2,1,5\nQ,0\n", &[(0, &[1, 1, 1, 0, 2, 0, 0, 0, 5]), (28, &[1])]);
        let (ordered, plain) = (encode(&open("P,3,2,3,1,6\nQ,0,1,2\n")), encode(&open("P,3,2,3,1,6\n")));
        let differing: Vec<usize> = (0..STORE_BYTES).filter(|place| ordered[*place] != plain[*place]).collect();
        assert_eq!(differing, [28, 65, 66]);
    }

    /// The store of each file comes back as the same file, with a Q line in number order too.
    #[test]
    fn files_come_back_from_stores() {
        let mixed: String = (0..64).map(|place| format!(",{}", place * 27 % 64)).collect();
        let sixty_four = format!("P,64,1,2,1,5\nQ{mixed}\n");
        for file in [
            "P,1,1,2,1,5\n",
            "P,1,1,2,1,5\nQ,0\n",
            "P,5,2,6,3,60\nC,5,3\nL,7,2\n",
            "P,5,2,6,3,60\nQ,0,1,2,3,4\nC,5,3\nL,7,2\n",
            "P,5,2,6,3,60\nQ,3,1,4,0,2\nC,5,3\nL,7,2\n",
            &sixty_four,
        ] {
            let bytes = encode(&open(file));
            let held = decode(&bytes).unwrap();
            assert_eq!(String::from_utf8(held.platform.plan().bytes()).unwrap(), file);
            assert_eq!(held.encode(), bytes);
            assert_eq!(held.platform.ring(), &plan::read(file.as_bytes()).unwrap().ring());
        }
    }

    #[test]
    fn other_lengths() {
        let mut bytes = encode(&in_midst());
        assert!(check(&bytes));
        bytes.push(0);
        assert!(!check(&bytes));
        bytes.truncate(STORE_BYTES - 1);
        assert!(!check(&bytes));
        assert!(!check(&[]));
    }

    #[test]
    fn every_unused_byte_is_zero() {
        let used = 29 + 5 * 26 + 2 * 5 + 2 * 5 + 7 * 24;
        for (platform, used) in [(in_midst(), used), (in_order(), used + 5)] {
            let bytes = encode(&platform);
            let mut unused = 0;
            for place in (0..STORE_BYTES).filter(|place| !is_used(&bytes, *place)) {
                let mut other = bytes.clone();
                other[place] = 1;
                assert!(!check(&other), "byte {place}");
                unused += 1;
            }
            assert_eq!(unused, STORE_BYTES - used);
        }
    }

    /// The count is 0 or N, each number is below N, no node is there twice, and the places beyond the count are zero.
    #[test]
    fn the_order_at_its_bounds() {
        let cases = [
            (in_midst(), ORDERED, 0, &[0][..]),
            (in_midst(), ORDER, 0, &[0]),
            (in_midst(), ORDER, 63, &[0]),
            (in_order(), ORDERED, 0, &[5]),
            (in_order(), ORDER, 1, &[2]),
            (in_order(), ORDER, 4, &[1]),
            (in_order(), ORDER, 5, &[0]),
            (in_order(), ORDER, 63, &[0]),
            (open("P,1,1,2,1,5\n"), ORDERED, 0, &[0, 1]),
            (open("P,1,1,2,1,5\nQ,0\n"), ORDERED, 0, &[0, 1]),
            (open("P,1,1,2,1,5\nQ,0\n"), ORDER, 0, &[0]),
        ];
        for (platform, field, place, passing) in cases {
            for number in 0..=255 {
                let passes = check(&changed_in(&platform, field, place, number));
                assert_eq!(passes, passing.contains(&number), "{field:?} place {place}: {number}");
            }
        }
        let mut swapped = changed_in(&in_order(), ORDER, 0, 4);
        put(&mut swapped, ORDER, 2, 0);
        assert_eq!(decode(&swapped).unwrap().platform.plan().order, [4, 2, 0, 3, 1]);
        assert!(!check(&changed_in(&in_order(), NODES, 0, 4)) && !check(&changed_in(&in_order(), NODES, 0, 6)));
    }

    /// W is 1 to 65,535, whatever H and D, and its two bytes hold nothing above. It is 1 here, so that every watch is due by 2 × W.
    #[test]
    fn the_timeout_of_a_store_may_be_short() {
        for file in ["P,5,2,1,3,60\n", "P,1,2,1,3,60\n", "P,64,1000,1,255,60\n"] {
            let opened = open(file);
            for timeout in [1, 2, 4, 5, 6, 256, 1_254, 1_255, 65_535] {
                let bytes = changed_in(&opened, TIMEOUT, 0, timeout);
                let held = decode(&bytes).expect("the store is in range");
                assert!(check(&bytes) && held.encode() == bytes, "{file}W {timeout}");
                let plan = held.platform.plan();
                assert_eq!((u64::from(plan.timeout), plan.short_timeout()), (timeout, timeout < u64::from(plan.period + plan.delay)), "{file}");
            }
            assert!(!check(&changed_in(&opened, TIMEOUT, 0, 0)), "{file}");
        }
    }

    /// Node 4 has just moved, so that its watch is due 2 × W after the last tick: with a shorter W, 5 here, it is out of range.
    #[test]
    fn numbers_at_their_bounds() {
        let (last, period, timeout, delay) = (13, 2, 6, 3);
        let messages = in_midst().messages();
        let (first, second) = (messages[0].1.number, messages[1].1.number);
        let next = in_midst().next_number();
        let cases = [
            (NODES, 0, 0, false),
            (NODES, 0, 65, false),
            (LONGEST_DELAY, 0, 0, false),
            (LONGEST_DELAY, 0, 5, true),
            (LONGEST_DELAY, 0, 255, true),
            (PERIOD, 0, 0, false),
            (PERIOD, 0, 4, true),
            (PERIOD, 0, 1_000, true),
            (PERIOD, 0, 1_001, false),
            (TIMEOUT, 0, 65_535, true),
            (TIMEOUT, 0, timeout - 1, false),
            (CRASHES, 0, 6, false),
            (CRASHES_DONE, 0, 2, true),
            (CRASHES_DONE, 0, 3, false),
            (END, 0, 1_000_000, true),
            (END, 0, 1_000_001, false),
            (END, 0, 39, false),
            (LAST_TICK, 0, last - 1, false),
            (LAST_TICK, 0, last + 1, true),
            (LAST_TICK, 0, last + 2, false),
            (NEXT_NUMBER, 0, MAX_NEXT_NUMBER, true),
            (NEXT_NUMBER, 0, MAX_NEXT_NUMBER + 1, false),
            (NEXT_NUMBER, 0, next - 1, false),
            (DELAYS, 0, 2_049, false),
            (MESSAGES, 0, 2_049, false),
            (EMITTER, 0, 5, false),
            (EMITTER, 0, 0, false),
            (EMITTER, 3, 3, true),
            (OBSERVER, 0, 5, false),
            (OBSERVER, 0, 0, false),
            (OBSERVER, 3, 3, true),
            (WATCH, 0, 0, true),
            (WATCH, 0, last, false),
            (WATCH, 0, last + 1, true),
            (WATCH, 0, last + 2 * timeout + 1, true),
            (WATCH, 0, last + 2 * timeout + 2, false),
            (WATCH, 3, 1, true),
            (WATCH, 3, last + 2 * timeout + 2, false),
            (HEARTBEAT, 0, 0, true),
            (HEARTBEAT, 0, last, false),
            (HEARTBEAT, 0, last + period + 1, true),
            (HEARTBEAT, 0, last + period + 2, false),
            (HEARTBEAT, 3, 1, true),
            (DEAD_LIST, 0, 0b01110, true),
            (DEAD_LIST, 0, 0b1, false),
            (DEAD_LIST, 0, 0b100000, false),
            (DEAD_LIST, 3, 0b11011, true),
            (DEAD_LIST, 3, 0b100000, false),
            (DEAD_LIST, 4, 0, false),
            (MARK, 0, 0, true),
            (MARK, 0, 0b00010, false),
            (MARK, 3, 0b00010, false),
            (MARK, 4, 0, true),
            (MARK, 4, 0b01000, true),
            (MARK, 4, 0b01010, false),
            (MARK, 4, 0b101000, false),
            (CRASH_TICK, 0, 0, true),
            (CRASH_TICK, 0, 41, false),
            (CRASH_TICK, 1, last, true),
            (CRASH_TICK, 1, last - 1, false),
            (CRASH_TICK, 1, 61, false),
            (CRASH_NODE, 1, 3, false),
            (CRASH_NODE, 1, 5, false),
            (DELAY_NUMBER, 0, 7, false),
            (DELAY_NUMBER, 1, 999_999, true),
            (DELAY_NUMBER, 1, 1_000_000, false),
            (DELAY_TICKS, 0, 0, false),
            (DELAY_TICKS, 0, 4, false),
            (MESSAGE_NUMBER, 0, second, false),
            (MESSAGE_NUMBER, 1, first, false),
            (MESSAGE_NUMBER, 6, next, false),
            (MESSAGE_DUE, 0, last, true),
            (MESSAGE_DUE, 0, last - 1, false),
            (MESSAGE_DUE, 0, last + delay, true),
            (MESSAGE_DUE, 0, last + delay + 1, false),
            (MESSAGE_LIST, 0, 0, true),
            (MESSAGE_LIST, 0, 0b11111, true),
            (MESSAGE_LIST, 0, 0b100000, false),
            (MESSAGE_LIST, 0, 1 << 63, false),
            (MESSAGE_KIND, 0, u64::from(b'R'), true),
            (MESSAGE_KIND, 0, u64::from(b'X'), false),
            (MESSAGE_SENDER, 0, 5, false),
            (MESSAGE_RECEIVER, 0, 5, false),
            (MESSAGE_RECEIVER, 0, u64::from(messages[0].1.sender), false),
            (MESSAGE_SUBJECT, 0, 4, true),
            (MESSAGE_SUBJECT, 0, 5, false),
        ];
        for (field, place, number, passes) in cases {
            assert_eq!(check(&changed(field, place, number)), passes, "{field:?} place {place}: {number}");
        }
    }

    /// No node lists its emitter: neither a live one, 4, which has left 3 for 2, nor a crashed one, 3, which observes 2,
    /// with the watch on or off, nor one that is its own emitter, which only a crashed one could list.
    #[test]
    fn a_listed_emitter_is_out_of_range() {
        let platform = in_midst();
        assert_eq!([3, 4].map(|place| (platform.nodes()[place].alive, platform.nodes()[place].emitter)), [(false, 2), (true, 2)]);
        for (place, emitter, others) in [(4, 2, 0b01011), (3, 2, 0b11011), (3, 3, 0b10111)] {
            for watch in [0, 14] {
                let mut bytes = changed(WATCH, place, if emitter as usize == place { 0 } else { watch });
                put(&mut bytes, EMITTER, place, emitter);
                put(&mut bytes, DEAD_LIST, place, others);
                assert!(check(&bytes), "node {place} observes {emitter}");
                put(&mut bytes, DEAD_LIST, place, 1 << emitter);
                assert!(!check(&bytes), "node {place} lists {emitter}");
                put(&mut bytes, DEAD_LIST, place, others | 1 << emitter);
                assert!(!check(&bytes), "node {place} lists {emitter} among others");
            }
        }
        assert!(!check(&changed(EMITTER, 4, 3)), "node 4 lists 3");
    }

    /// An H may carry any list below 2^N, also one with its sender's or receiver's bit; an O and an R carry none. Of 64 nodes every bit will do.
    #[test]
    fn only_heartbeats_carry_a_list() {
        let mut kinds = [0; 3];
        for (place, (_, message)) in in_midst().messages().into_iter().enumerate() {
            let kind = match message.content {
                Content::Heartbeat { .. } => 0,
                Content::NewObserver => 1,
                Content::Report { .. } => 2,
            };
            kinds[kind] += 1;
            for bit in 0..64 {
                assert_eq!(check(&changed(MESSAGE_LIST, place, 1 << bit)), kind == 0 && bit < 5, "place {place}, bit {bit}");
            }
            let mut bytes = changed(MESSAGE_LIST, place, 0b11111);
            assert_eq!(decode(&bytes).map(|held| held.encode() == bytes), (kind == 0).then_some(true));
            for letter in [b'O', b'R'] {
                put(&mut bytes, MESSAGE_KIND, place, u64::from(letter));
                assert!(!check(&bytes), "place {place}");
            }
            put(&mut bytes, MESSAGE_LIST, place, 0);
            assert!(check(&bytes), "place {place}");
        }
        assert!(kinds.iter().all(|count| *count > 0), "H, O and R: {kinds:?}");
        let mut full = open("P,64,1,2,1,5\n");
        full.run(70);
        assert!(check(&changed_in(&full, MESSAGE_LIST, 0, u64::MAX)) && !check(&changed_in(&full, MESSAGE_LIST, full.in_flight(), 1)));
    }

    /// A mark is part of the list, of a live node, 4, and of a crashed one, 3: of the nodes that are listed each may be marked or not.
    #[test]
    fn marks_are_part_of_lists() {
        for (place, list) in [(4, 0b01011), (3, 0b11011)] {
            for mark in 0..64 {
                let mut bytes = changed(DEAD_LIST, place, list);
                put(&mut bytes, MARK, place, mark);
                assert_eq!(check(&bytes), mark & !list == 0, "node {place}: mark {mark} of {list}");
                assert!(decode(&bytes).is_none_or(|held| held.encode() == bytes && held.platform.nodes()[place].mark == mark));
            }
        }
    }

    /// The bytes of every store in range come back from what is read from it.
    #[test]
    fn subjects_that_no_rule_looks_at_stay() {
        let bytes = changed(MESSAGE_SUBJECT, 0, 4);
        let mut held = decode(&bytes).unwrap();
        assert!(matches!(held.platform.messages()[0].1.content, Content::Heartbeat { list: 0 }));
        assert_eq!(held.encode(), bytes);
        assert_ne!(encode(&held.platform), bytes);
        held.platform.run(u64::MAX);
        assert_eq!(held.encode(), encode(&held.platform));
    }
}
