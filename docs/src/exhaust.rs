//! All runs of a small ring, in number order or another: every delay from 1 to D of every message, every crash at
//! every tick, up to an end tick. It asks demand 3's words of the state after each event, and those of requests 106 and 107; at each move
//! that the number passed is right; and of each report that its sender makes it once. For a larger ring the choices may be fewer: longer
//! delays alone, and crashes of some nodes alone.
//!
//! The search goes from tick to tick. Ticks are counted from the state's own, and what can no longer matter
//! is left out, so that states which go on alike are one and are met once; where no new state comes up, the
//! answer holds for every end tick. A run in which something is found comes back as a plan.
//!
//! What requests 106 and 107 claim goes by the ticks since the last crash, which a state leaves out where crashes are close. So it is asked
//! when all states are met, of each with the most ticks that can have passed (`ages`).

use super::ages::Graph;
use super::node::{self, Content, Effect, Node, Sends, Sent, Settings, Timer};
use super::plan::{Crash, Delay, Plan};
use super::ring;
use super::settle::{self, Claim};
use std::collections::HashMap;

/// The rules that the search goes by: the papers', or wrong ones, of which 01 names the first and the third as "natural".
#[derive(Clone, Copy, PartialEq, Eq, Debug)]
pub enum Rules {
    Paper,
    /// "W instead of 2 × W after moving".
    ShortWatch,
    /// The same after a move by report alone.
    ShortReported,
    /// "timers before deliveries of the same tick".
    TimersFirst,
    /// Not a rule but a claim: S without its 2 × D.
    ShortSettling,
    /// The number passed without the node just left.
    LeftNotCounted,
    /// The number passed as all nodes that are listed.
    AllCounted,
    /// 3 × W for 2 × W after moving.
    LongWatch,
    /// The watch is off after moving until the first heartbeat of the new emitter.
    LateWatch,
    /// Not a rule but a claim: request 106 with the last crash not counted, 2 × W × (f − 1) + D.
    ShortJoining,
    /// The same with W for 2 × W: W × f + D.
    SingleJoining,
    /// A heartbeat carries no list.
    NoList,
    /// A report of a node that a heartbeat named is not relayed.
    NamedNotRelayed,
    /// The emitter left by an expired watch is not marked.
    LeftNotMarked,
    /// Not a rule but a claim: request 107 with the last crash not counted in the bound of request 106.
    ShortListing,
    /// The same with W for 2 × W.
    SingleListing,
    /// The same without (m − 1) × (H + D): by the bound of request 106.
    NoSpreading,
}

/// What is searched: N, the ring's order, H, W, D, the end tick and the rules. W may be below H + D.
#[derive(Clone, Debug)]
pub struct Search {
    pub nodes: u8,
    /// The numbers of a Q line; none for the order of the nodes' numbers.
    pub order: Vec<u8>,
    pub period: u32,
    pub timeout: u32,
    pub delay: u32,
    /// The least delay: 1, or more where not every delay is gone through.
    pub least_delay: u32,
    /// The nodes that may crash, as a list: all, or fewer where not every crash is gone through.
    pub mortal: u64,
    pub end: u32,
    pub rules: Rules,
}

#[derive(Clone, Copy, PartialEq, Eq, Debug)]
pub enum Finding {
    /// A node's list holds a live node.
    LiveNodeListed,
    /// Crashes are spaced and S ticks have passed, but the ring is not settled.
    Unsettled,
    /// The number passed at a move is not the count of the listed nodes from the one left back to the new emitter.
    Miscounted,
    /// A node reports a subject that it had marked or does not mark; or it gets a report and the subject is not marked then.
    Misreported,
    /// A node lists its emitter, or marks a node that it does not list.
    OutOfRange,
    /// No event due up to 2 × W × f + D ticks after the last of f crashes is left, but the survivors are not joined.
    Unjoined,
    /// The same with (m − 1) × (H + D) ticks more, m being the survivors, but one of their lists is not full.
    Unlisted,
}

/// For each number of crashes done the most ticks after the last of them at whose end what is claimed does not hold; nothing where it does
/// at the end of every tick.
pub type Late = [Option<u32>; 17];

/// What is found, at which tick, and a run that leads to it.
#[derive(Clone, PartialEq, Eq, Debug)]
pub struct Found {
    pub finding: Finding,
    pub tick: u32,
    pub plan: Plan,
}

#[derive(Clone, Debug)]
pub struct Outcome {
    /// States at the start of a tick, equal ones counted once.
    pub states: usize,
    pub events: u64,
    /// Of the events, the reports that made their receiver leave its emitter.
    pub moves_by_report: u64,
    /// For each number, how many moves passed so many listed nodes.
    pub passed: [u64; 17],
    /// Different runs up to the end tick: plans of crashes and delays of all messages sent.
    pub runs: f64,
    /// The ticks after which no new state came up; nothing where the end tick came first.
    pub closed: Option<u32>,
    /// Heartbeats that came to a live node from another than its emitter.
    pub strange: u64,
    /// How late survivors are not joined, where nothing is found.
    pub late: Late,
    /// How late their lists are not full, where nothing is found.
    pub late_lists: Late,
    pub found: Option<Found>,
}

/// A message in flight that may still change its receiver.
#[derive(Clone, Copy, PartialEq, Eq, Debug)]
struct Flight {
    due: u32,
    sender: u8,
    receiver: u8,
    content: Content,
}

/// The crashes done so far, as settling sees them.
#[derive(Clone, Copy, PartialEq, Eq, Debug)]
enum Crashes {
    None,
    /// Each came at least S ticks after the one before; the last one this many ticks ago, at most S.
    Spaced(u32),
    Close,
}

/// A state of the ring; ticks are counted from its own.
#[derive(Clone, PartialEq, Eq, Debug)]
struct State {
    nodes: Vec<Node>,
    /// By due tick, then in the order of sending.
    flights: Vec<Flight>,
    /// Bit d stands for messages due in d ticks that will do nothing.
    idle: u32,
    crashes: Crashes,
}

impl State {
    fn open(settings: &Settings) -> State {
        State {
            nodes: (0..settings.ring.nodes()).map(|number| Node::open(settings, number)).collect(),
            flights: Vec::new(),
            idle: 0,
            crashes: Crashes::None,
        }
    }

    /// The message as far as it can still change its receiver; nothing where it cannot. Lists and marks only grow, so that a listed
    /// node need not be named and a marked one not be reported.
    fn essence(&self, flight: Flight) -> Option<Flight> {
        let receiver = &self.nodes[usize::from(flight.receiver)];
        match flight.content {
            _ if !receiver.alive => None,
            Content::Heartbeat { list } => {
                let list = ring::without(list & !receiver.dead_list, receiver.number);
                Some(Flight { content: Content::Heartbeat { list: ring::without(list, flight.sender) }, ..flight })
            }
            Content::NewObserver => Some(flight),
            Content::Report { subject } => {
                (subject != receiver.number && !ring::listed(receiver.mark, subject)).then_some(flight)
            }
        }
    }

    fn put(&mut self, flight: Flight) {
        if let Some(flight) = self.essence(flight) {
            let place = self.flights.partition_point(|other| other.due <= flight.due);
            self.flights.insert(place, flight);
        } else {
            self.idle |= 1 << flight.due;
        }
    }

    /// Marks what no mark can matter for any more: the nodes that all live nodes list, so that none of these will observe one and report
    /// it, and of which no report is in flight.
    fn mark_settled(&mut self) {
        let reported = |list, flight: &Flight| match flight.content {
            Content::Report { subject } => ring::with(list, subject),
            _ => list,
        };
        let settled = self.nodes.iter().filter(|node| node.alive).fold(u64::MAX, |list, node| list & node.dead_list);
        let settled = settled & !self.flights.iter().fold(0, reported);
        self.nodes.iter_mut().filter(|node| node.alive).for_each(|node| node.mark |= settled);
    }

    fn crashes_done(&self) -> usize {
        self.nodes.iter().filter(|node| !node.alive).count()
    }

    /// The next timer due at this tick, "by node, watch before heartbeat".
    fn due_timer(&self) -> Option<(usize, Timer)> {
        let timers = |node: &Node| {
            [Timer::Watch, Timer::Heartbeat].into_iter().find(|timer| node.due(*timer) == Some(0))
        };
        self.nodes.iter().find_map(|node| Some((usize::from(node.number), timers(node)?)))
    }

    /// In how many ticks the first pending thing is due.
    fn earliest_due(&self) -> Option<u32> {
        let timers = self.nodes.iter().flat_map(|node| [node.due(Timer::Watch), node.due(Timer::Heartbeat)]);
        let idle = (self.idle != 0).then(|| self.idle.trailing_zeros());
        timers.chain([idle, self.flights.first().map(|flight| flight.due)]).flatten().min()
    }

    /// The state at the start of the next tick, without what can no longer matter.
    fn next_tick(mut self, search: &Search, settings: &Settings) -> State {
        self.idle &= !1;
        for flight in std::mem::take(&mut self.flights) {
            self.put(flight);
        }
        self.mark_settled();
        self.idle >>= 1;
        self.flights.iter_mut().for_each(|flight| flight.due -= 1);
        for node in &mut self.nodes {
            if node.alive {
                node.watch = node.watch.map(|due| due - 1);
                node.heartbeat = node.heartbeat.map(|due| due - 1);
            } else {
                *node = Node { alive: false, ..Node::open(settings, node.number) };
            }
        }
        if let Crashes::Spaced(since) = &mut self.crashes {
            *since = (*since + 1).min(search.settling_time(&self.nodes));
        }
        self
    }

    /// Puts the state into bytes, equal for equal states.
    fn put_key(&self, key: &mut Vec<u8>) {
        let due = |timer: Option<u32>| timer.map_or(0, |due| due as u8 + 1);
        let crashes = match self.crashes {
            Crashes::None => 0,
            Crashes::Close => 1,
            Crashes::Spaced(since) => 2 + since as u8,
        };
        let crashed = (node::crashed(&self.nodes) as u16).to_le_bytes();
        key.clear();
        key.extend([crashed[0], crashed[1], self.idle as u8, crashes]);
        for node in self.nodes.iter().filter(|node| node.alive) {
            key.extend([node.emitter << 4 | node.observer, due(node.watch), due(node.heartbeat)]);
            key.extend((node.dead_list as u16).to_le_bytes());
            key.extend((node.mark as u16).to_le_bytes());
        }
        for Flight { due, sender, receiver, content } in &self.flights {
            key.extend([*due as u8, sender << 4 | receiver]);
            match content {
                Content::Heartbeat { list } => {
                    key.push(254);
                    key.extend((*list as u16).to_le_bytes());
                }
                Content::NewObserver => key.push(255),
                Content::Report { subject } => key.push(*subject),
            }
        }
    }
}

impl Search {
    fn settings(&self) -> Settings {
        Settings { ring: self.plan(&[]).ring(), period: self.period, timeout: self.timeout }
    }

    /// S after a crash that left these nodes.
    fn settling_time(&self, nodes: &[Node]) -> u32 {
        let survivors = nodes.iter().filter(|node| node.alive).count();
        let time = settle::settling_time(self.timeout, self.delay, survivors) as u32;
        if self.rules == Rules::ShortSettling {
            time - 2 * self.delay
        } else {
            time
        }
    }

    /// 2 × W × f + D after the last of f crashes.
    pub fn joining_time(&self, crashes: usize) -> u32 {
        let time = settle::joining_time(self.timeout, self.delay, crashes) as u32;
        match self.rules {
            Rules::ShortJoining => time - 2 * self.timeout,
            Rules::SingleJoining => time - self.timeout * crashes as u32,
            _ => time,
        }
    }

    /// 2 × W × f + D and (m − 1) × (H + D) after the last of f crashes, m being the survivors.
    pub fn listing_time(&self, crashes: usize) -> u32 {
        let joined = settle::joining_time(self.timeout, self.delay, crashes);
        let time = (joined + settle::spreading_time(self.period, self.delay, usize::from(self.nodes) - crashes)) as u32;
        match self.rules {
            Rules::ShortListing => time - 2 * self.timeout,
            Rules::SingleListing => time - self.timeout * crashes as u32,
            Rules::NoSpreading => joined as u32,
            _ => time,
        }
    }

    /// In how many ticks after the last of so many crashes the claim is owed at the latest.
    fn time(&self, claim: Claim, crashes: usize) -> u32 {
        match claim {
            Claim::Joined => self.joining_time(crashes),
            Claim::Listed => self.listing_time(crashes),
        }
    }

    /// Searches to the end tick, or until something is found. Requests 106 and 107 are asked at the end.
    pub fn explore(&self) -> Outcome {
        let longest_watch = if self.rules == Rules::LongWatch { 3 } else { 2 } * self.timeout;
        assert!(self.nodes <= 16 && longest_watch < 250 && self.delay < 8, "the search is for small rings");
        let mut tree = Tree::new(self);
        let mut layer = vec![0];
        let mut closed = None;
        for tick in 0..=self.end {
            let before = tree.states.len();
            for id in layer {
                if let Some(finding) = tree.expand(id) {
                    return Outcome { found: Some(tree.found(finding, id, tick)), ..tree.outcome() };
                }
            }
            layer = (before..tree.states.len()).collect();
            if layer.is_empty() {
                closed = Some(tick);
                break;
            }
        }
        let (outcome, ages) = (Outcome { closed, ..tree.outcome() }, tree.graph().ages());
        match tree.breach(&ages) {
            Some(breach) => Outcome { found: Some(tree.found_breach(&ages, breach)), ..outcome },
            None => {
                let [late, late_lists] = [Claim::Joined, Claim::Listed].map(|claim| tree.late(claim, &ages));
                Outcome { runs: tree.runs(), late, late_lists, ..outcome }
            }
        }
    }
}

/// What was chosen in one tick: who crashed, and the delays of the messages sent, in the order of sending.
#[derive(Clone, Default, Debug)]
struct Choice {
    crashed: Vec<u8>,
    delays: Vec<u8>,
}

/// What is looked for where a state is gone on from once more, for the choice that leads to it.
#[derive(Clone, Copy, PartialEq, Eq, Debug)]
enum Sought {
    Nothing,
    /// This state one tick later.
    State(usize),
    /// An event that parts joined survivors.
    Parting,
}

/// A state that breaks a claim where the last crash is so many ticks ago or more.
#[derive(Clone, Copy, PartialEq, Eq, Debug)]
struct Breach {
    claim: Claim,
    id: usize,
    age: u32,
    /// Whether survivors that are joined when its tick starts are parted by an event of it. Else they are not joined at the start.
    parting: bool,
}

/// The states met so far, each with the state and the choice that first led to it.
struct Tree<'search> {
    search: &'search Search,
    settings: Settings,
    ids: HashMap<Box<[u8]>, usize>,
    states: Vec<State>,
    led_by: Vec<(usize, Choice)>,
    /// For each state that was gone on from, the states one tick later and in how many ways each is led to.
    ways: Vec<Vec<(usize, u32)>>,
    /// For each of these, whether an event of a tick without a crash parts its joined survivors.
    parted: Vec<bool>,
    events: u64,
    moves_by_report: u64,
    passed: [u64; 17],
    strange: u64,
    /// Of the state that is being gone on from: what is chosen so far, and the states led to.
    chosen: Choice,
    leads: Vec<usize>,
    from: usize,
    /// Whether a crash is done before it and its survivors are joined; whether an event of it parts them; what is looked for.
    intact: bool,
    parting: bool,
    sought: Sought,
    key: Vec<u8>,
}

impl<'search> Tree<'search> {
    fn new(search: &'search Search) -> Tree<'search> {
        let mut tree = Tree {
            search,
            settings: search.settings(),
            ids: HashMap::new(),
            states: Vec::new(),
            led_by: Vec::new(),
            ways: Vec::new(),
            parted: Vec::new(),
            events: 0,
            moves_by_report: 0,
            passed: [0; 17],
            strange: 0,
            chosen: Choice::default(),
            leads: Vec::new(),
            from: 0,
            intact: false,
            parting: false,
            sought: Sought::Nothing,
            key: Vec::new(),
        };
        tree.meet(State::open(&tree.settings));
        tree
    }

    /// The id of a state, which is kept where it is new.
    fn meet(&mut self, state: State) -> usize {
        state.put_key(&mut self.key);
        if let Some(id) = self.ids.get(&self.key[..]) {
            return *id;
        }
        let id = self.states.len();
        self.ids.insert(self.key.clone().into(), id);
        self.states.push(state);
        self.led_by.push((self.from, self.chosen.clone()));
        id
    }

    /// Goes on from a state by one tick, in every way; states are gone on from in the order of their ids.
    fn expand(&mut self, id: usize) -> Option<Finding> {
        let finding = self.go_on_from(id);
        self.leads.sort_unstable();
        let ways = self.leads.chunk_by(|one, other| one == other).map(|led| (led[0], led.len() as u32));
        self.ways.push(ways.collect());
        self.parted.push(self.parting);
        finding
    }

    /// The same, possibly once more.
    fn go_on_from(&mut self, id: usize) -> Option<Finding> {
        let state = self.states[id].clone();
        self.from = id;
        self.leads.clear();
        self.chosen = Choice::default();
        self.intact = state.crashes_done() > 0 && self.joined(&state);
        self.parting = false;
        self.crash_from(state, 0)
    }

    fn joined(&self, state: &State) -> bool {
        settle::joined(&self.settings.ring, &state.nodes)
    }

    /// Crashes of this tick, by node: each live node from `number` on crashes or does not.
    fn crash_from(&mut self, state: State, number: usize) -> Option<Finding> {
        let Some(node) = state.nodes.get(number) else { return self.go_on(state) };
        if !node.alive || !ring::listed(self.search.mortal, node.number) {
            return self.crash_from(state, number + 1);
        }
        let finding = self.crash_from(state.clone(), number + 1);
        if finding.is_some() {
            return finding;
        }
        let mut other = state;
        self.crash(&mut other, number);
        self.chosen.crashed.push(number as u8);
        let finding = self.after_event(&other).or_else(|| self.crash_from(other, number + 1));
        if finding.is_none() {
            self.chosen.crashed.pop();
        }
        finding
    }

    fn crash(&self, state: &mut State, number: usize) {
        let settled = |since| since >= self.search.settling_time(&state.nodes);
        state.crashes = match state.crashes {
            Crashes::None => Crashes::Spaced(0),
            Crashes::Spaced(since) if settled(since) => Crashes::Spaced(0),
            _ => Crashes::Close,
        };
        state.nodes[number].alive = false;
    }

    /// Does the next event of this tick, or goes to the next tick where none is left.
    fn go_on(&mut self, mut state: State) -> Option<Finding> {
        let timer = state.due_timer();
        let delivery = state.flights.first().is_some_and(|flight| flight.due == 0);
        let (node, sends) = match timer {
            Some((number, timer)) if !delivery || self.search.rules == Rules::TimersFirst => {
                let node = &mut state.nodes[number];
                (node.number, self.expire(node, timer))
            }
            _ if delivery => {
                let Flight { sender, receiver, content, .. } = state.flights.remove(0);
                (receiver, self.deliver(&mut state.nodes[usize::from(receiver)], sender, content))
            }
            _ => return self.end_tick(state),
        };
        match sends {
            Ok(sends) => self.after_event(&state).or_else(|| self.send(state, node, &sends, 0)),
            Err(finding) => Some(finding),
        }
    }

    /// What the node sends, or what is found wrong with it.
    fn deliver(&mut self, node: &mut Node, sender: u8, content: Content) -> Result<Sends, Finding> {
        if !node.alive {
            return Ok(Sends::none());
        }
        let before = *node;
        let effect = self.effect_of(node, sender, content);
        self.strange += u64::from(matches!(content, Content::Heartbeat { .. }) && sender != before.emitter);
        if node.emitter != before.emitter {
            self.moves_by_report += 1;
            if self.search.rules == Rules::ShortReported {
                node.watch = node.watch.map(|_| self.settings.timeout);
            }
        }
        let marked = |subject| subject == node.number || ring::listed(node.mark, subject);
        if matches!(content, Content::Report { subject } if !marked(subject)) {
            return Err(Finding::Misreported);
        }
        self.asked(&before, node, effect)
    }

    /// What a message does by the rules.
    fn effect_of(&self, node: &mut Node, sender: u8, content: Content) -> Effect {
        let content = match (self.search.rules, content) {
            (Rules::NoList, Content::Heartbeat { .. }) => Content::Heartbeat { list: 0 },
            (Rules::NamedNotRelayed, Content::Report { subject }) if ring::listed(node.dead_list, subject) => return Effect::none(),
            _ => content,
        };
        node.deliver(&self.settings, 0, sender, content)
    }

    /// The same of a timer.
    fn expire(&mut self, node: &mut Node, timer: Timer) -> Result<Sends, Finding> {
        let before = *node;
        let effect = match timer {
            Timer::Watch => node.expire_watch(&self.settings, 0),
            Timer::Heartbeat => node.send_heartbeat(&self.settings, 0),
        };
        if timer == Timer::Watch {
            node.watch = node.watch.and_then(|due| self.watch_after_moving(due));
            if self.search.rules == Rules::LeftNotMarked {
                node.mark = before.mark;
            }
        }
        self.asked(&before, node, effect)
    }

    /// What an event of a node sends, where nothing is wrong with the number passed, with what it reports and with its lists.
    fn asked(&mut self, before: &Node, after: &Node, Effect { sends, passed }: Effect) -> Result<Sends, Finding> {
        let newly = |subject| ring::listed(after.mark, subject) && !ring::listed(before.mark, subject);
        let repeats = |sent: &Sent| matches!(sent.content, Content::Report { subject } if !newly(subject));
        if !self.counted(before, after, passed) {
            Err(Finding::Miscounted)
        } else if sends.as_slice().iter().any(repeats) {
            Err(Finding::Misreported)
        } else if ring::listed(after.dead_list, after.emitter) || after.mark & !after.dead_list != 0 {
            Err(Finding::OutOfRange)
        } else {
            Ok(sends)
        }
    }

    /// When the watch is due by the rules, where the papers' rule says when.
    fn watch_after_moving(&self, due: u32) -> Option<u32> {
        match self.search.rules {
            Rules::ShortWatch => Some(self.settings.timeout),
            Rules::LongWatch => Some(3 * self.settings.timeout),
            Rules::LateWatch => None,
            _ => Some(due),
        }
    }

    /// Whether a number passed is told exactly where the emitter changes, and is the count of the listed nodes from the one left back to
    /// the new emitter. They are counted by the places of all nodes in the ring: those of fewer steps back from the one left than the
    /// new emitter.
    fn counted(&mut self, before: &Node, after: &Node, passed: Option<u8>) -> bool {
        if before.emitter == after.emitter || passed.is_none() {
            return before.emitter == after.emitter && passed.is_none();
        }
        let nodes = usize::from(self.search.nodes);
        let place = |node: u8| self.search.order.iter().position(|other| *other == node).unwrap_or(usize::from(node));
        let back = |node: u8| (place(before.emitter) + nodes - place(node)) % nodes;
        let is_passed = |node: &u8| ring::listed(after.dead_list, *node) && back(*node) < back(after.emitter);
        let count = (0..self.search.nodes).filter(is_passed).count();
        self.passed[count] += 1;
        let told = match self.search.rules {
            Rules::LeftNotCounted => passed.map(|passed| passed - 1),
            Rules::AllCounted => Some(after.dead_list.count_ones() as u8),
            _ => passed,
        };
        told.map(usize::from) == Some(count)
    }

    /// Puts the messages from `place` on in flight, with every delay.
    fn send(&mut self, state: State, sender: u8, sends: &Sends, place: usize) -> Option<Finding> {
        if place == sends.as_slice().len() {
            return self.go_on(state);
        }
        let Search { least_delay, delay, .. } = *self.search;
        let shorter = (least_delay..delay).find_map(|due| self.send_one(state.clone(), sender, sends, place, due));
        shorter.or_else(|| self.send_one(state, sender, sends, place, delay))
    }

    /// The same with this delay of the first of them.
    fn send_one(&mut self, mut state: State, sender: u8, sends: &Sends, place: usize, due: u32) -> Option<Finding> {
        let Sent { receiver, content } = sends.as_slice()[place];
        state.put(Flight { due, sender, receiver, content });
        self.chosen.delays.push(due as u8);
        let finding = self.send(state, sender, sends, place + 1);
        if finding.is_none() {
            self.chosen.delays.pop();
        }
        finding
    }

    fn end_tick(&mut self, mut state: State) -> Option<Finding> {
        state.idle &= !1;
        let finding = self.unsettled(&state);
        if finding.is_some() {
            return finding;
        }
        let id = self.meet(state.next_tick(self.search, &self.settings));
        self.leads.push(id);
        (self.sought == Sought::State(id)).then_some(Finding::Unjoined)
    }

    /// What demand 3 claims after each event. Whether it parts survivors is kept for request 106, which may not claim anything yet.
    fn after_event(&mut self, state: &State) -> Option<Finding> {
        self.events += 1;
        if !settle::no_live_node_listed(&state.nodes) {
            return Some(Finding::LiveNodeListed);
        }
        if self.intact && self.chosen.crashed.is_empty() && !self.joined(state) {
            self.parting = true;
            if self.sought == Sought::Parting {
                return Some(Finding::Unjoined);
            }
        }
        self.unsettled(state)
    }

    /// "from S ticks after a crash until the next", where crashes are spaced. The crashes to come are those
    /// that the search has yet to choose, so that a run without them is among those that go on from here.
    fn unsettled(&self, state: &State) -> Option<Finding> {
        let Crashes::Spaced(since) = state.crashes else { return None };
        let time = self.search.settling_time(&state.nodes);
        let passed = state.earliest_due().is_none_or(|due| since + due >= time);
        (passed && !settle::settled(&self.settings.ring, &state.nodes)).then_some(Finding::Unsettled)
    }

    /// The choices that first led to a state, from the first tick on.
    fn choices(&self, id: usize) -> Vec<Choice> {
        let mut choices = Vec::new();
        let mut at = id;
        while at != 0 {
            let (from, choice) = &self.led_by[at];
            choices.push(choice.clone());
            at = *from;
        }
        choices.reverse();
        choices
    }

    /// What was found in going on from state `id`.
    fn found(&self, finding: Finding, id: usize, tick: u32) -> Found {
        let mut choices = self.choices(id);
        choices.push(self.chosen.clone());
        Found { finding, tick, plan: self.search.plan(&choices) }
    }

    /// What the search comes to so far.
    fn outcome(&self) -> Outcome {
        Outcome {
            states: self.states.len(),
            events: self.events,
            moves_by_report: self.moves_by_report,
            passed: self.passed,
            runs: 0.0,
            closed: None,
            strange: self.strange,
            late: [None; 17],
            late_lists: [None; 17],
            found: None,
        }
    }

    /// How many runs there are up to the end tick.
    fn runs(&self) -> f64 {
        let mut counts = vec![0.0; self.states.len()];
        counts[0] = 1.0;
        for _ in 0..=self.search.end {
            let mut next = vec![0.0; counts.len()];
            for (id, leads) in self.ways.iter().enumerate().filter(|(id, _)| counts[*id] > 0.0) {
                leads.iter().for_each(|(to, ways)| next[*to] += counts[id] * f64::from(*ways));
            }
            counts = next;
        }
        counts.iter().sum()
    }
}

/// Requests 106 and 107, asked of the states met, each with the most ticks that can have passed since the last crash.
impl Tree<'_> {
    fn graph(&self) -> Graph<'_> {
        Graph::new(self.states.iter().map(|state| state.crashes_done() as u8).collect(), &self.ways)
    }

    /// The states after a crash in which what is claimed does not hold.
    fn failing(&self, claim: Claim) -> impl Iterator<Item = (usize, &State)> {
        let fails = move |state: &State| state.crashes_done() > 0 && !claim.holds(&self.settings.ring, &state.nodes);
        self.states.iter().enumerate().filter(move |(_, state)| fails(state))
    }

    /// A state stands as it does at the end of the tick before.
    fn late(&self, claim: Claim, ages: &[u32]) -> Late {
        let mut late = [None; 17];
        for (id, state) in self.failing(claim) {
            let most = &mut late[state.crashes_done()];
            *most = (*most).max(Some(ages[id] - 1));
        }
        late
    }

    /// The first state that breaks a claim. The crashes to come are those that the search has yet to choose, so that a run without
    /// them is among those that go on from a state.
    ///
    /// - What is claimed does not hold at the start of a tick: where nothing is left that is due up to the bound.
    /// - Survivors are parted by an event of the tick: where the tick is beyond the bound. Before that it is owed only where the event is
    ///   the last of the tick, and then of the next state. Full lists stay so until the next crash, as lists only grow and hold no live node.
    fn breach(&self, ages: &[u32]) -> Option<Breach> {
        let failing = |claim| {
            self.failing(claim).map(move |(id, state)| {
                let bound = self.search.time(claim, state.crashes_done());
                let age = state.earliest_due().map_or(1, |due| (bound + 1).saturating_sub(due).max(1));
                Breach { claim, id, age, parting: false }
            })
        };
        let parted = (0..self.parted.len()).filter(|id| self.parted[*id]).map(|id| {
            let age = self.search.joining_time(self.states[id].crashes_done()) + 1;
            Breach { claim: Claim::Joined, id, age, parting: true }
        });
        failing(Claim::Joined).chain(parted).chain(failing(Claim::Listed)).find(|breach| ages[breach.id] >= breach.age)
    }

    /// Choices that lead to a state so many ticks or more after the last crash: to one that comes as many ticks before it, which is one
    /// tick after a crash or more, then without a crash.
    fn choices_at(&mut self, ages: &[u32], id: usize, age: u32) -> Vec<Choice> {
        let path = self.graph().path(ages, id, age);
        let mut choices = self.choices(path[0]);
        for pair in path.windows(2) {
            choices.push(self.choice(pair[0], Sought::State(pair[1])));
        }
        choices
    }

    fn found_breach(&mut self, ages: &[u32], breach: Breach) -> Found {
        let mut choices = self.choices_at(ages, breach.id, breach.age);
        if breach.parting {
            choices.push(self.choice(breach.id, Sought::Parting));
        }
        let tick = choices.len() as u32 - 1;
        let plan = Plan { end: self.search.end.max(tick), ..self.search.plan(&choices) };
        let finding = match breach.claim {
            Claim::Joined => Finding::Unjoined,
            Claim::Listed => Finding::Unlisted,
        };
        Found { finding, tick, plan }
    }

    /// A choice that leads from the state to what is sought.
    fn choice(&mut self, id: usize, sought: Sought) -> Choice {
        self.sought = sought;
        let finding = self.go_on_from(id);
        assert_eq!(finding, Some(Finding::Unjoined), "what is sought was met before");
        self.sought = Sought::Nothing;
        std::mem::take(&mut self.chosen)
    }
}

impl Search {
    /// The plan of a run: a choice for each tick.
    fn plan(&self, choices: &[Choice]) -> Plan {
        let crashes = choices
            .iter()
            .zip(0..)
            .flat_map(|(choice, tick)| choice.crashed.iter().map(move |node| Crash { tick, node: *node }));
        let delays = choices.iter().flat_map(|choice| &choice.delays).zip(0..);
        Plan {
            nodes: self.nodes,
            period: self.period,
            timeout: self.timeout,
            delay: self.delay,
            end: self.end,
            order: self.order.clone(),
            crashes: crashes.collect(),
            delays: delays.map(|(delay, number)| Delay { number, delay: u32::from(*delay) }).collect(),
        }
    }
}

#[cfg(test)]
mod tests {
    use super::super::falsely::{self, Falsely};
    use super::super::log::Line;
    use super::super::plan;
    use super::super::platform::{self, Platform, Step};
    use super::super::queue::Message;
    use super::*;

    const SMALL: Search = Search {
        nodes: 3,
        order: Vec::new(),
        period: 1,
        timeout: 3,
        delay: 2,
        least_delay: 1,
        mortal: u64::MAX,
        end: 40,
        rules: Rules::Paper,
    };

    /// What a state and a platform have in common at the start of a tick: the live nodes, with their timers counted from that tick, and
    /// the messages that matter, by due tick, as far as they do.
    fn common(platform: &Platform, tick: u32) -> (Vec<Node>, Vec<Flight>) {
        let mut state =
            State { nodes: platform.nodes().to_vec(), flights: Vec::new(), idle: 0, crashes: Crashes::None };
        for (due, Message { sender, receiver, content, .. }) in platform.messages() {
            state.put(Flight { due: due - tick, sender, receiver, content });
        }
        state.mark_settled();
        let count = |timer: Option<u32>| timer.map(|due| due - tick);
        let live = state.nodes.iter().filter(|node| node.alive);
        let nodes =
            live.map(|node| Node { watch: count(node.watch), heartbeat: count(node.heartbeat), ..*node });
        (nodes.collect(), state.flights)
    }

    /// Four nodes, each of which has one neighbour that is none in number order.
    fn shuffled() -> Search {
        Search { nodes: 4, order: vec![0, 2, 1, 3], ..SMALL }
    }

    /// Nine nodes of which four in a row may crash, every message being three ticks in flight: a report moves node 5.
    fn reported() -> Search {
        Search { nodes: 9, timeout: 4, delay: 3, least_delay: 3, mortal: 0b11110, end: 100, ..SMALL }
    }

    /// Nine nodes of which four may crash: 0 and the nodes one, two and four ahead of 1, to which 1 reports 0.
    fn dying() -> Search {
        Search { nodes: 9, period: 4, timeout: 5, delay: 1, mortal: 0b101101, end: 100, ..SMALL }
    }

    /// Where the relays of a report die, heartbeats name its subject, from node to node.
    #[test]
    fn the_platform_comes_to_the_same_states_by_heartbeats() {
        compare_states(&dying(), 3_000);
        let found = |rules| Search { rules, ..dying() }.explore().found.map(|found| found.finding);
        assert_eq!([Rules::Paper, Rules::NoList].map(found), [None, Some(Finding::Unlisted)]);
    }

    #[test]
    fn the_platform_comes_to_the_same_states() {
        compare_states(&SMALL, 2_000);
        compare_states(&shuffled(), 2_000);
    }

    #[test]
    fn the_platform_comes_to_the_same_states_by_reports() {
        assert!(compare_states(&reported(), usize::MAX) > 2);
    }

    /// The platform comes to each of the first states of the search by the plan of the choices that led to it. The answer
    /// says to how many of them by a report that moves a node.
    fn compare_states(search: &Search, most: usize) -> usize {
        let mut tree = Tree::new(search);
        let (mut id, mut reported) = (0, 0);
        while id < tree.states.len().min(most) {
            assert_eq!(tree.expand(id), None);
            let choices = tree.choices(id);
            let tick = choices.len() as u32;
            if let Some(end) = tick.checked_sub(1) {
                let mut platform = Platform::open(Plan { end, ..search.plan(&choices) });
                platform.run(u64::MAX);
                let state = &tree.states[id];
                let live: Vec<Node> = state.nodes.iter().filter(|node| node.alive).copied().collect();
                assert_eq!((live, state.flights.clone()), common(&platform, tick), "{choices:?}");
                reported += usize::from(platform.moves_by_report() > 0);
            }
            id += 1;
        }
        assert!(id > 1_000);
        reported
    }

    /// Each node crashes at one of the ticks or not at all, and with D = 1 no delay is left to choose.
    #[test]
    fn runs_are_counted() {
        let outcome = Search { nodes: 2, period: 2, delay: 1, end: 20, ..SMALL }.explore();
        assert_eq!((outcome.runs, outcome.found), (22.0 * 22.0, None));
    }

    /// At tick 2 each node that has not crashed by then sends, with a delay of 1, 2 or 3.
    #[test]
    fn delays_are_chosen() {
        let search = Search { nodes: 2, period: 2, timeout: 5, delay: 3, end: 2, ..SMALL };
        let both_live = 3.0 * 3.0;
        let one_crashed = 2.0 * 3.0 * 3.0;
        let both_crashed = 3.0 * 3.0;
        assert_eq!(search.explore().runs, both_live + one_crashed + both_crashed);
    }

    #[test]
    fn nothing_is_found_by_the_rules() {
        let outcome = SMALL.explore();
        assert_eq!(outcome.found, None);
        assert!(outcome.closed.is_some() && outcome.states > 4_000);
        assert_eq!(outcome.strange, 0);
        let [none, one, two, more @ ..] = outcome.passed;
        assert!(none == 0 && one > 400 && two > 20 && more == [0; 14], "moves by the number passed: {:?}", outcome.passed);
    }

    /// Neither is where a report moves a node, in number order and in another, but where the watch is then W.
    #[test]
    fn nothing_is_found_where_a_report_moves_a_node() {
        let shuffled = Search { order: vec![0, 2, 4, 6, 8, 1, 3, 5, 7], mortal: 0b1_0101_0100, ..reported() };
        for search in [reported(), shuffled] {
            let outcome = search.explore();
            assert_eq!(outcome.found, None);
            assert!(outcome.closed.is_some() && outcome.moves_by_report > 0);
            let found = Search { rules: Rules::ShortReported, ..search }.explore().found;
            assert_eq!(found.map(|found| found.finding), Some(Finding::LiveNodeListed));
        }
    }

    /// With D = 1 no delay is left to choose: the ring's order and the order of numbers within a tick decide.
    #[test]
    fn nothing_is_found_in_another_order() {
        let outcome = Search { delay: 1, timeout: 2, ..shuffled() }.explore();
        assert_eq!(outcome.found, None);
        assert!(outcome.closed.is_some() && outcome.states > 300);
    }

    /// The run that is found, written as a run file whose L lines give its delays, is accepted. By the platform's events it lists a live node
    /// at that tick and not before, its log has that line and ends in F.
    #[test]
    fn a_time_out_one_tick_short_lists_a_live_node() {
        for search in [SMALL, shuffled(), Search { period: 3, timeout: 5, delay: 3, ..SMALL }] {
            let timeout = search.period + search.delay - 1;
            let found = Search { timeout, ..search }.explore().found.expect("a live node is listed");
            assert_eq!((found.finding, found.tick), (Finding::LiveNodeListed, timeout));
            let file = found.plan.bytes();
            assert!(file.windows(3).any(|part| part == b"\nL,"), "{}", String::from_utf8_lossy(&file));
            let (plan, mut log) = (plan::read(&file).expect("the file is accepted"), Vec::new());
            assert_eq!(plan, found.plan);
            platform::rehearse(plan.clone(), &mut log).expect("a vector takes every byte");
            let mut platform = Platform::open(plan);
            let line = loop {
                let Step::Event(event) = platform.step() else { panic!("no live node is listed") };
                if !settle::no_live_node_listed(platform.nodes()) {
                    break event.line;
                }
            };
            assert_eq!((line.letter, line.tick), (b'W', u64::from(found.tick)));
            assert!(line.list & !platform.crashed() != 0);
            let lines: Vec<Line> = log.split_inclusive(|byte| *byte == b'\n').map(|line| Line::read(line).expect("it is a line")).collect();
            assert_eq!(lines.iter().filter(|other| **other == line).count(), 1);
            assert_eq!(lines.last().map(|line| (line.letter, line.tick)), Some((b'F', u64::from(search.end))));
            assert_eq!(falsely::of_lines(lines).first, Some(u64::from(found.tick)));
        }
    }

    /// With W = H + D the same delays list nobody, and the run ends in E.
    #[test]
    fn a_time_out_of_h_and_d_lists_no_live_node() {
        for search in [SMALL, shuffled()] {
            let enough = search.period + search.delay;
            let found = Search { timeout: enough - 1, ..search }.explore().found.expect("a live node is listed");
            let (plan, mut log) = (Plan { timeout: enough, ..found.plan }, Vec::new());
            platform::rehearse(plan.clone(), &mut log).expect("a vector takes every byte");
            assert_eq!(falsely::of_log(&log), Ok(Falsely::NONE));
            assert!(log.windows(3).any(|part| part == b"\nE,") && !log.windows(3).any(|part| part == b"\nF,"));
        }
    }

    #[test]
    fn wrong_rules_are_found() {
        let finding = |rules, search| Search { rules, ..search }.explore().found.map(|found| found.finding);
        assert_eq!(finding(Rules::ShortWatch, SMALL), Some(Finding::LiveNodeListed));
        assert_eq!(finding(Rules::TimersFirst, SMALL), Some(Finding::LiveNodeListed));
        assert_eq!(finding(Rules::ShortSettling, SMALL), Some(Finding::Unsettled));
        assert_eq!(finding(Rules::TimersFirst, shuffled()), Some(Finding::LiveNodeListed));
        assert_eq!(finding(Rules::ShortSettling, shuffled()), Some(Finding::Unsettled));
        assert_eq!(finding(Rules::LeftNotCounted, SMALL), Some(Finding::Miscounted));
        assert_eq!(finding(Rules::AllCounted, SMALL), Some(Finding::Miscounted));
        assert_eq!(finding(Rules::LeftNotCounted, shuffled()), Some(Finding::Miscounted));
        assert_eq!(finding(Rules::LateWatch, SMALL), Some(Finding::Unjoined));
        assert_eq!(finding(Rules::LongWatch, Search { delay: 1, timeout: 2, ..shuffled() }), Some(Finding::Unjoined));
        for search in [SMALL, shuffled()] {
            assert_eq!(finding(Rules::NamedNotRelayed, search.clone()), Some(Finding::Misreported));
            assert_eq!(finding(Rules::LeftNotMarked, search), Some(Finding::Misreported));
        }
    }

    /// Five nodes, D = 1: 0 and 2 survive, and no report of 1 comes to 0, as in the plan of five nodes of the papers. Where heartbeats carry
    /// no list, it never lists 1. With fewer nodes every report comes to somebody who passes it on.
    #[test]
    fn lists_stay_short_where_heartbeats_carry_none() {
        let found = |nodes, rules| Search { nodes, delay: 1, timeout: 2, rules, ..SMALL }.explore().found.map(|found| found.finding);
        assert_eq!([3, 4, 5].map(|nodes| found(nodes, Rules::NoList)), [None, None, Some(Finding::Unlisted)]);
        assert_eq!(found(5, Rules::Paper), None);
    }

    /// The tree with all states of a search.
    fn grown(search: &Search) -> Tree<'_> {
        let mut tree = Tree::new(search);
        let mut id = 0;
        while id < tree.states.len() {
            assert_eq!(tree.expand(id), None);
            id += 1;
        }
        tree
    }

    /// The ages are those of a walk that tells states apart by the ticks since the last crash, up to 30.
    #[test]
    fn ages_are_those_of_a_plain_walk() {
        for search in [SMALL, Search { delay: 1, timeout: 2, ..shuffled() }] {
            let tree = grown(&search);
            let (ages, most) = (tree.graph().ages(), 30);
            let mut seen = vec![[false; 31]; tree.states.len()];
            let mut walk = vec![(0, 0)];
            while let Some((id, age)) = walk.pop() {
                if std::mem::replace(&mut seen[id][age], true) {
                    continue;
                }
                let crashes = tree.states[id].crashes_done();
                let older = if age == 0 { 0 } else { most.min(age + 1) };
                walk.extend(tree.ways[id].iter().map(|(to, _)| (*to, if tree.states[*to].crashes_done() > crashes { 1 } else { older })));
            }
            for (id, seen) in seen.iter().enumerate() {
                assert_eq!(seen.iter().rposition(|seen| *seen), Some(most.min(ages[id] as usize)), "state {id}");
            }
            let endless = ages.iter().filter(|age| **age > 1_000).count();
            assert!(endless > 5 && endless * 2 < ages.len(), "{endless} of {} states can be any age", ages.len());
        }
    }

    #[test]
    fn the_platform_comes_to_the_ages() {
        compare_ages(&SMALL, 60);
        compare_ages(&Search { delay: 1, timeout: 2, ..shuffled() }, 1);
    }

    /// The platform comes to one state in so many by a run in which the last crash is the most ticks ago, or 20; and what requests 106 and 107
    /// ask of the state is what they ask of the platform.
    fn compare_ages(search: &Search, one_in: usize) {
        let mut tree = grown(search);
        let ages = tree.graph().ages();
        for id in (0..tree.states.len()).step_by(one_in).filter(|id| ages[*id] > 0) {
            let age = ages[id].min(20);
            let choices = tree.choices_at(&ages, id, age);
            let tick = choices.len() as u32;
            let mut platform = Platform::open(Plan { end: tick - 1, ..search.plan(&choices) });
            platform.run(u64::MAX);
            let state = &tree.states[id];
            let live: Vec<Node> = state.nodes.iter().filter(|node| node.alive).copied().collect();
            assert_eq!((live, state.flights.clone()), common(&platform, tick), "{choices:?}");
            let since = tick - settle::last_crash(&platform).expect("a crash is done");
            assert!(since == ages[id] || since >= age && ages[id] > age, "{since} ticks, not {age}");
            assert_eq!(state.earliest_due(), platform.earliest_due().map(|due| due - tick));
            assert_eq!(tree.joined(state), settle::joined(platform.ring(), platform.nodes()));
            assert_eq!(settle::lists_full(&state.nodes), settle::lists_full(platform.nodes()));
        }
    }

    /// The last heartbeat of a node that crashes at tick c is sent at c − 1 and arrives at c − 1 + D at the latest. So the node after it
    /// expires by c − 1 + D + W and comes to each dead node before that 2 × W later, to a survivor at c − 1 + D + W + 2 × W × (f − 1). Its
    /// O takes D ticks more: at the end of the tick before that arrives survivors are not joined. A lone survivor sends no O.
    #[test]
    fn survivors_are_as_late_as_worked_by_hand() {
        for (search, most) in [(SMALL, 2), (reported(), 4)] {
            let Search { timeout, delay, nodes, .. } = search;
            let late = search.explore().late;
            for crashes in 1..=most {
                let alone = crashes == usize::from(nodes) - 1;
                let expired = delay + timeout + 2 * timeout * (crashes as u32 - 1) - 1;
                assert_eq!(late[crashes], Some(expired + if alone { 0 } else { delay } - 1), "{crashes} crashes");
            }
            assert_eq!((late[0], late[most + 1]), (None, None));
        }
    }

    /// The node after the dead expires on the last of them as above, and by then lists all. Its reports take D ticks to each of the survivors a
    /// power of two ahead, and as much for each relay: of eight survivors the seventh ahead is reached by three, of seven, six or five one
    /// by two, of two the other by one. At the end of the tick before, a list is not full.
    #[test]
    fn lists_are_as_late_as_worked_by_hand() {
        for (search, relays) in [(SMALL, &[1, 0][..]), (reported(), &[3, 2, 2, 2])] {
            let Search { timeout, delay, .. } = search;
            let late = search.explore().late_lists;
            for (relays, crashes) in relays.iter().zip(1..) {
                let expired = delay + timeout + 2 * timeout * (crashes - 1) - 1;
                assert_eq!(late[crashes as usize], Some(expired + relays * delay - 1), "{crashes} crashes");
            }
            assert_eq!((late[0], late[relays.len() + 1]), (None, None));
        }
    }

    /// Each run that breaks a shorter claim, done by the platform's events up to the end of that tick, leaves survivors unjoined, and
    /// nothing due by the tick that is claimed.
    #[test]
    fn shorter_claims_are_broken_by_the_platform() {
        for rules in [Rules::ShortJoining, Rules::SingleJoining] {
            for search in [SMALL, Search { delay: 1, timeout: 2, ..shuffled() }, reported()] {
                let search = Search { rules, ..search };
                let found = search.explore().found.expect("survivors are not joined");
                assert_eq!(found.finding, Finding::Unjoined);
                let mut platform = Platform::open(Plan { end: found.tick, ..found.plan });
                platform.run(u64::MAX);
                let claimed = settle::last_crash(&platform).expect("a crash is done") + search.joining_time(platform.crashes_done());
                assert!(platform.earliest_due().is_none_or(|due| due > claimed));
                assert!(!settle::joined(platform.ring(), platform.nodes()) && settle::request_106(&mut platform));
            }
        }
    }

    /// The same of claims shorter than request 107's.
    #[test]
    fn shorter_claims_of_lists_are_broken_by_the_platform() {
        let shuffled = || Search { delay: 1, timeout: 2, ..shuffled() };
        let small = [Rules::ShortListing, Rules::SingleListing].into_iter().flat_map(|rules| [(rules, SMALL), (rules, shuffled())]);
        for (rules, search) in small.chain([(Rules::NoSpreading, reported())]) {
            let search = Search { rules, ..search };
            let found = search.explore().found.expect("a list is not full");
            assert_eq!(found.finding, Finding::Unlisted);
            let mut platform = Platform::open(Plan { end: found.tick, ..found.plan });
            platform.run(u64::MAX);
            let claimed = settle::last_crash(&platform).expect("a crash is done") + search.listing_time(platform.crashes_done());
            assert!(platform.earliest_due().is_none_or(|due| due > claimed));
            assert!(!settle::lists_full(platform.nodes()) && settle::request_107(&mut platform));
        }
    }

    /// Of a message that is put in flight what can no longer matter is left out: to a dead node all, a report of a marked node or of the
    /// receiver, and of a heartbeat's list the nodes that the receiver lists, itself and the sender.
    #[test]
    fn messages_are_kept_as_far_as_they_matter() {
        let mut state = State::open(&Search { nodes: 6, ..SMALL }.settings());
        state.nodes[1] = Node { dead_list: 0b1100, mark: 0b0100, ..state.nodes[1] };
        state.nodes[2].alive = false;
        let kept = |receiver, content| state.essence(Flight { due: 1, sender: 0, receiver, content }).map(|flight| flight.content);
        let heartbeat = |list| Content::Heartbeat { list };
        assert_eq!(kept(1, heartbeat(0b101111)), Some(heartbeat(0b100000)));
        assert_eq!(kept(1, heartbeat(0b000111)), Some(heartbeat(0)));
        assert_eq!(kept(1, Content::NewObserver), Some(Content::NewObserver));
        for (subject, matters) in [(1, false), (2, false), (3, true), (4, true)] {
            let report = Content::Report { subject };
            assert_eq!(kept(1, report), matters.then_some(report));
        }
        for content in [heartbeat(0b1000), Content::NewObserver, Content::Report { subject: 4 }] {
            assert_eq!(kept(2, content), None);
        }
    }

    /// Node 1 of five observes 0 and has marked 3. After an event it may not list 0, nor mark what it does not list, nor report 3 once more;
    /// and what it reports, 2 here, it has to mark.
    #[test]
    fn lists_and_marks_are_asked_of_each_event() {
        let search = Search { nodes: 5, ..SMALL };
        let mut tree = Tree::new(&search);
        let before = Node { dead_list: 0b01000, mark: 0b01000, ..tree.states[0].nodes[1] };
        let report_of = |subject| Node { mark: 0, ..before }.deliver(&search.settings(), 0, 4, Content::Report { subject });
        let mut asked = |after: Node, effect: Effect| tree.asked(&before, &after, effect).err();
        let reported = Node { dead_list: 0b01100, mark: 0b01100, ..before };
        assert_eq!([asked(before, Effect::none()), asked(reported, report_of(2))], [None, None]);
        assert_eq!(asked(Node { dead_list: 0b01001, ..before }, Effect::none()), Some(Finding::OutOfRange));
        assert_eq!(asked(Node { mark: 0b01100, ..before }, Effect::none()), Some(Finding::OutOfRange));
        assert_eq!(asked(before, report_of(3)), Some(Finding::Misreported));
        assert_eq!(asked(Node { mark: 0b01000, ..reported }, report_of(2)), Some(Finding::Misreported));
    }

    /// Nodes 3 and 4 of five are dead. All list 3, and no report of it is in flight: it is marked by all. Of 4 one is still on its way, and 1
    /// does not list 2.
    #[test]
    fn marks_are_set_where_they_no_longer_matter() {
        let mut state = State::open(&Search { nodes: 5, ..SMALL }.settings());
        for (node, dead_list, mark) in [(0, 0b11100, 0b10000), (1, 0b11000, 0b01000), (2, 0b11000, 0)] {
            state.nodes[node] = Node { dead_list, mark, ..state.nodes[node] };
        }
        state.nodes[3].alive = false;
        state.nodes[4].alive = false;
        state.put(Flight { due: 1, sender: 0, receiver: 2, content: Content::Report { subject: 4 } });
        state.mark_settled();
        assert_eq!([0, 1, 2, 3].map(|node: usize| state.nodes[node].mark), [0b11000, 0b01000, 0b01000, 0]);
        state.flights.clear();
        state.mark_settled();
        assert_eq!([0, 1, 2, 3].map(|node: usize| state.nodes[node].mark), [0b11000, 0b11000, 0b11000, 0]);
    }

    /// A claim of D ticks after the first crash is owed before these have passed where nothing is due in them: a crash at tick 0 is followed by
    /// the heartbeats of tick 3, so that with D = 2 it is owed, and false, at the end of tick 0. With D = 3 it is not before the end of tick 3.
    #[test]
    fn what_is_left_decides_when_a_claim_is_owed() {
        let tick = |delay| {
            let search = Search { period: 3, timeout: 3 + delay, delay, mortal: 0b100, rules: Rules::ShortJoining, end: 6, ..SMALL };
            search.explore().found.map(|found| found.tick)
        };
        assert_eq!([2, 3].map(tick), [Some(0), Some(3)]);
    }

    /// A state that no run leads to: node 3 of four is dead, and two O are due that make node 2 send to 1 and then, as before, to 0. The
    /// first parts the survivors, so that the claim is broken in a tick beyond the bound, 5 ticks after the crash, and not before.
    #[test]
    fn survivors_parted_within_a_tick_are_found() {
        let search = Search { nodes: 4, timeout: 2, delay: 1, mortal: 0, ..SMALL };
        let mut tree = Tree::new(&search);
        let node = |number: u8| Node { emitter: (number + 2) % 3, observer: (number + 1) % 3, dead_list: 0b1000, ..tree.states[0].nodes[0] };
        let mut nodes: Vec<Node> = (0..3).map(|number| Node { number, ..node(number) }).collect();
        nodes.push(Node { alive: false, ..tree.states[0].nodes[3] });
        let new_observer = |sender| Flight { due: 0, sender, receiver: 2, content: Content::NewObserver };
        let flights = vec![new_observer(1), new_observer(0)];
        tree.states[0] = State { nodes, flights, idle: 0, crashes: Crashes::Close };
        assert!(tree.joined(&tree.states[0]));
        assert_eq!(tree.expand(0), None);
        assert!(tree.parted == [true] && tree.states.iter().all(|state| tree.joined(state)));
        let breach = |age| tree.breach(&vec![age; tree.states.len()]);
        assert_eq!((breach(5), breach(6)), (None, Some(Breach { claim: Claim::Joined, id: 0, age: 6, parting: true })));
        assert!(tree.choice(0, Sought::Parting).delays.is_empty());
        tree.states[0].flights.remove(0);
        assert!(tree.go_on_from(0).is_none() && !tree.parting);
    }
}
