//! The rules of one node, in 01's order and words, R as request 102 amends it, H and R as request 107 does. A rule that moves the emitter
//! also answers how many listed nodes were passed, as request 103 asks.

use super::limits::MAX_SENDS;
use super::ring::{self, Back, Ring};

/// The settings that a node's rules use: the ring, H and W.
#[derive(Clone, Copy, PartialEq, Eq, Debug)]
pub struct Settings {
    pub ring: Ring,
    pub period: u32,
    pub timeout: u32,
}

/// What a message says.
#[derive(Clone, Copy, PartialEq, Eq, PartialOrd, Ord, Debug)]
pub enum Content {
    /// H, with its sender's list as it is when sent.
    Heartbeat { list: u64 },
    /// O.
    NewObserver,
    /// R.
    Report { subject: u8 },
}

/// The two timers of a node, "watch before heartbeat".
#[derive(Clone, Copy, PartialEq, Eq, PartialOrd, Ord, Debug)]
pub enum Timer {
    Watch,
    Heartbeat,
}

/// A message that a rule sends.
#[derive(Clone, Copy, PartialEq, Eq, Debug)]
pub struct Sent {
    pub receiver: u8,
    pub content: Content,
}

/// The messages that one rule sends, in the order of sending.
#[derive(Clone, Copy, Debug)]
pub struct Sends {
    places: [Sent; MAX_SENDS],
    count: usize,
}

impl Sends {
    pub fn none() -> Sends {
        Sends { places: [Sent { receiver: 0, content: Content::NewObserver }; MAX_SENDS], count: 0 }
    }

    fn add(&mut self, receiver: u8, content: Content) {
        self.places[self.count] = Sent { receiver, content };
        self.count += 1;
    }

    pub fn as_slice(&self) -> &[Sent] {
        &self.places[..self.count]
    }
}

/// What a rule does beside the node's own fields.
#[derive(Clone, Copy, Debug)]
pub struct Effect {
    pub sends: Sends,
    /// How many listed nodes were passed, the one just left included, where the rule moves the emitter.
    pub passed: Option<u8>,
}

impl Effect {
    /// Nothing.
    pub fn none() -> Effect {
        Effect::of(Sends::none())
    }

    /// Messages, and the emitter stays.
    fn of(sends: Sends) -> Effect {
        Effect { sends, passed: None }
    }
}

/// What a node holds.
#[derive(Clone, Copy, PartialEq, Eq, Debug)]
pub struct Node {
    /// The node's own number.
    pub number: u8,
    pub alive: bool,
    /// Whom it observes.
    pub emitter: u8,
    /// To whom it sends.
    pub observer: u8,
    /// Watch due tick, or off.
    pub watch: Option<u32>,
    /// Heartbeat due tick, or off.
    pub heartbeat: Option<u32>,
    /// Bit i stands for node i.
    pub dead_list: u64,
    /// Of the listed nodes those that this node has reported. A node that a heartbeat named is listed without it.
    pub mark: u64,
}

impl Node {
    /// "Opening, tick 0: emitter is the node before, observer the node after, watch due W,
    /// heartbeat due H, list empty. With N = 1 the node is alone."
    pub fn open(settings: &Settings, number: u8) -> Node {
        let mut node = Node {
            number,
            alive: true,
            emitter: settings.ring.before(number),
            observer: settings.ring.after(number),
            watch: Some(settings.timeout),
            heartbeat: Some(settings.period),
            dead_list: 0,
            mark: 0,
        };
        if settings.ring.nodes() == 1 {
            node.become_alone();
        }
        node
    }

    /// "emitter and observer itself, both timers off".
    fn become_alone(&mut self) {
        self.emitter = self.number;
        self.observer = self.number;
        self.watch = None;
        self.heartbeat = None;
    }

    /// The due tick of a timer; off for a crashed node, whose timers cause no event.
    pub fn due(&self, timer: Timer) -> Option<u32> {
        match timer {
            _ if !self.alive => None,
            Timer::Watch => self.watch,
            Timer::Heartbeat => self.heartbeat,
        }
    }

    /// A message is delivered to this live node.
    pub fn deliver(&mut self, settings: &Settings, tick: u32, sender: u8, content: Content) -> Effect {
        match content {
            Content::Heartbeat { list } => self.take_heartbeat(settings, tick, sender, list),
            Content::NewObserver => self.take_new_observer(tick, sender),
            Content::Report { subject } => return self.take_report(settings, tick, subject),
        }
        Effect::none()
    }

    /// "Message H: from the emitter, watch due becomes this tick + W; from any other node, nothing." "A receiver whose emitter sent
    /// it adds those nodes, never itself or the sender. Nodes learnt this way aren't relayed from there".
    fn take_heartbeat(&mut self, settings: &Settings, tick: u32, sender: u8, list: u64) {
        if sender == self.emitter {
            self.watch = Some(tick + settings.timeout);
            self.dead_list |= ring::without(ring::without(list, self.number), sender);
        }
    }

    /// "Message O: observer becomes the sender, heartbeat due becomes this tick."
    fn take_new_observer(&mut self, tick: u32, sender: u8) {
        self.observer = sender;
        self.heartbeat = Some(tick);
    }

    /// "Message R of a subject": the node itself, nothing; "a node relays the first R of each subject it gets, also where a heartbeat
    /// named it earlier, and each node holds a second 64-bit mark for that". So a marked subject is nothing too. Any other "is listed
    /// and R of the same subject goes to the forward targets." The emitter "is left straight away": "such a report makes the node
    /// move in the same event".
    fn take_report(&mut self, settings: &Settings, tick: u32, subject: u8) -> Effect {
        if subject == self.number || ring::listed(self.mark, subject) {
            return Effect::none();
        }
        if subject == self.emitter {
            return self.leave_emitter(settings, tick);
        }
        let mut sends = Sends::none();
        self.list_and_mark(subject);
        self.report(settings, subject, &mut sends);
        Effect::of(sends)
    }

    /// Lists a node that this event reports, where it is not listed yet, and marks it.
    fn list_and_mark(&mut self, subject: u8) {
        self.dead_list = ring::with(self.dead_list, subject);
        self.mark = ring::with(self.mark, subject);
    }

    /// R of the subject to the forward targets. "The list is the one after the change."
    fn report(&self, settings: &Settings, subject: u8, sends: &mut Sends) {
        let targets = settings.ring.forward_targets(self.dead_list, self.number);
        for target in targets.as_slice() {
            sends.add(*target, Content::Report { subject });
        }
    }

    /// "Heartbeat due: send H to the observer; due becomes this tick + H." "Each H message carries its sender's list."
    pub fn send_heartbeat(&mut self, settings: &Settings, tick: u32) -> Effect {
        let mut sends = Sends::none();
        sends.add(self.observer, Content::Heartbeat { list: self.dead_list });
        self.heartbeat = Some(tick + settings.period);
        Effect::of(sends)
    }

    /// The watch is due.
    pub fn expire_watch(&mut self, settings: &Settings, tick: u32) -> Effect {
        self.leave_emitter(settings, tick)
    }

    /// What an expired watch and a report of the emitter both do: "list the emitter; the new emitter is
    /// the first unlisted node going back from it. If that is the node itself, it is alone. Otherwise
    /// watch due becomes this tick + 2 × W; send O to the new emitter, then R of the old one to the
    /// forward targets". "Listing an expired emitter sets the mark too."
    fn leave_emitter(&mut self, settings: &Settings, tick: u32) -> Effect {
        let mut sends = Sends::none();
        let left = self.emitter;
        self.list_and_mark(left);
        let Back { node, passed } = settings.ring.first_unlisted_back(self.dead_list, left);
        if node == self.number {
            self.become_alone();
        } else {
            self.emitter = node;
            self.watch = Some(tick + 2 * settings.timeout);
            sends.add(node, Content::NewObserver);
            self.report(settings, left, &mut sends);
        }
        Effect { sends, passed: Some(passed) }
    }
}

/// The crashed nodes as a list.
pub fn crashed(nodes: &[Node]) -> u64 {
    nodes.iter().filter(|node| !node.alive).fold(0, |list, node| ring::with(list, node.number))
}

#[cfg(test)]
mod tests {
    use super::*;

    const EIGHT: Settings = Settings { ring: Ring::of(8), period: 2, timeout: 10 };

    fn reports(subject: u8, targets: &[u8]) -> Vec<Sent> {
        targets
            .iter()
            .map(|receiver| Sent { receiver: *receiver, content: Content::Report { subject } })
            .collect()
    }

    #[test]
    fn opening() {
        let node = Node::open(&EIGHT, 0);
        assert_eq!((node.emitter, node.observer, node.watch, node.heartbeat), (7, 1, Some(10), Some(2)));
        assert_eq!((node.alive, node.dead_list, node.mark), (true, 0, 0));
        let last = Node::open(&EIGHT, 7);
        assert_eq!((last.emitter, last.observer), (6, 0));
        let alone = Node::open(&Settings { ring: Ring::of(1), ..EIGHT }, 0);
        assert_eq!((alone.emitter, alone.observer, alone.watch, alone.heartbeat), (0, 0, None, None));
    }

    /// 2 → 0 → 3 → 1 → 2. Node 3 observes 0 and sends to 1. When its watch expires, it goes back to 2 and reports to the
    /// nodes one and two ahead, 1 and 2; when it expires again, it goes back to 1 and reports to 1, the only other left.
    #[test]
    fn a_node_goes_by_the_order_of_its_ring() {
        let settings = Settings { ring: Ring::in_order(&[2, 0, 3, 1]), ..EIGHT };
        let mut node = Node::open(&settings, 3);
        assert_eq!((node.emitter, node.observer, node.watch, node.heartbeat), (0, 1, Some(10), Some(2)));
        let effect = node.expire_watch(&settings, 10);
        assert_eq!((node.emitter, node.dead_list, node.watch, effect.passed), (2, 0b0001, Some(30), Some(1)));
        let observer = |receiver| vec![Sent { receiver, content: Content::NewObserver }];
        assert_eq!(effect.sends.as_slice(), [observer(2), reports(0, &[1, 2])].concat());
        let effect = node.expire_watch(&settings, 30);
        assert_eq!((node.emitter, node.dead_list, node.watch, effect.passed), (1, 0b0101, Some(50), Some(1)));
        assert_eq!(effect.sends.as_slice(), [observer(1), reports(2, &[1])].concat());
        let effect = node.expire_watch(&settings, 50);
        assert_eq!((effect.sends.as_slice(), effect.passed), (&[][..], Some(1)));
        assert_eq!((node.emitter, node.observer, node.watch, node.heartbeat), (3, 3, None, None));
        let mut other = Node::open(&settings, 2);
        let effect = other.deliver(&settings, 4, 1, Content::Report { subject: 0 });
        assert_eq!(effect.sends.as_slice(), reports(0, &[3, 1]));
        let alone = Node::open(&Settings { ring: Ring::in_order(&[0]), ..EIGHT }, 0);
        assert_eq!((alone.emitter, alone.observer, alone.watch, alone.heartbeat), (0, 0, None, None));
    }

    /// In the same ring, 2 → 0 → 3 → 1 → 2, by reports: node 3 goes back from 0 over 2, which it lists, to 1, and then is alone.
    #[test]
    fn a_reported_emitter_is_left_in_the_order_of_the_ring() {
        let settings = Settings { ring: Ring::in_order(&[2, 0, 3, 1]), ..EIGHT };
        let mut node = Node::open(&settings, 3);
        assert_eq!(node.deliver(&settings, 3, 1, Content::Report { subject: 2 }).sends.as_slice(), reports(2, &[1, 0]));
        assert_eq!((node.emitter, node.watch), (0, Some(10)));
        let effect = node.deliver(&settings, 4, 1, Content::Report { subject: 0 });
        assert_eq!((node.emitter, node.dead_list, node.watch, effect.passed), (1, 0b0101, Some(24), Some(2)));
        let observer = vec![Sent { receiver: 1, content: Content::NewObserver }];
        assert_eq!(effect.sends.as_slice(), [observer, reports(0, &[1])].concat());
        let effect = node.deliver(&settings, 5, 2, Content::Report { subject: 1 });
        assert_eq!((effect.sends.as_slice(), effect.passed), (&[][..], Some(1)));
        assert_eq!((node.emitter, node.observer, node.watch, node.heartbeat), (3, 3, None, None));
    }

    #[test]
    fn only_the_emitter_renews_the_watch() {
        let before = Node::open(&EIGHT, 1);
        let mut node = before;
        for sender in [2, 3, 7] {
            assert!(node.deliver(&EIGHT, 5, sender, Content::Heartbeat { list: 0 }).sends.as_slice().is_empty());
            assert_eq!(node, before);
        }
        let effect = node.deliver(&EIGHT, 5, 0, Content::Heartbeat { list: 0 });
        assert!(effect.sends.as_slice().is_empty() && effect.passed.is_none());
        assert_eq!(node, Node { watch: Some(15), ..before });
    }

    #[test]
    fn a_heartbeat_after_a_move_brings_the_watch_forward() {
        let mut node = Node::open(&EIGHT, 1);
        node.expire_watch(&EIGHT, 10);
        assert_eq!(node.watch, Some(30));
        node.deliver(&EIGHT, 12, 7, Content::Heartbeat { list: 0 });
        assert_eq!(node.watch, Some(22));
    }

    #[test]
    fn a_new_observer_gets_a_heartbeat_at_this_tick() {
        let before = Node::open(&EIGHT, 1);
        let mut node = before;
        let effect = node.deliver(&EIGHT, 1, 5, Content::NewObserver);
        assert!(effect.sends.as_slice().is_empty() && effect.passed.is_none());
        assert_eq!(node, Node { observer: 5, heartbeat: Some(1), ..before });
    }

    #[test]
    fn a_node_alone_takes_a_new_observer() {
        let two = Settings { ring: Ring::of(2), ..EIGHT };
        let mut node = Node::open(&two, 0);
        node.expire_watch(&two, 10);
        node.deliver(&two, 11, 1, Content::NewObserver);
        assert_eq!((node.emitter, node.observer, node.watch, node.heartbeat), (0, 1, None, Some(11)));
    }

    #[test]
    fn a_first_report_is_listed_and_passed_on() {
        let before = Node::open(&EIGHT, 1);
        let mut node = Node { dead_list: 1 << 2, ..before };
        let effect = node.deliver(&EIGHT, 4, 6, Content::Report { subject: 3 });
        assert_eq!(node, Node { dead_list: 1 << 2 | 1 << 3, mark: 1 << 3, ..before });
        assert_eq!(effect.sends.as_slice(), reports(3, &[4, 5, 7]));
    }

    /// Node 1 observes 0, whose heartbeat names 3 and 6, and it lists 5: nothing is sent and nothing marked. Then the first report of 3
    /// goes to the nodes that are one, two and four ahead of those unlisted, 2, 4 and 0; a second one does nothing, nor does it where another
    /// heartbeat named 3 in between. The first report of 6 goes there too.
    #[test]
    fn the_first_report_of_a_named_node_is_passed_on() {
        let before = Node { dead_list: 1 << 5, mark: 1 << 5, ..Node::open(&EIGHT, 1) };
        let named = Content::Heartbeat { list: 1 << 3 | 1 << 6 };
        let mut node = before;
        let effect = node.deliver(&EIGHT, 4, 0, named);
        assert!(effect.sends.as_slice().is_empty() && effect.passed.is_none());
        let after = Node { watch: Some(14), dead_list: 1 << 3 | 1 << 5 | 1 << 6, ..before };
        assert_eq!(node, after);
        assert_eq!(node.deliver(&EIGHT, 5, 6, Content::Report { subject: 3 }).sends.as_slice(), reports(3, &[2, 4, 0]));
        assert_eq!(node, Node { mark: 1 << 3 | 1 << 5, ..after });
        node.deliver(&EIGHT, 6, 0, named);
        let marked = node;
        for subject in [3, 5] {
            assert!(node.deliver(&EIGHT, 7, 4, Content::Report { subject }).sends.as_slice().is_empty());
            assert_eq!(node, marked);
        }
        assert_eq!(node.deliver(&EIGHT, 8, 4, Content::Report { subject: 6 }).sends.as_slice(), reports(6, &[2, 4, 0]));
        assert_eq!(node, Node { mark: after.dead_list, ..marked });
    }

    /// Whatever it carries, a heartbeat of another node than the emitter does nothing: of a listed node, of the observer, of one that is neither.
    #[test]
    fn only_the_emitter_names_nodes() {
        let before = Node { dead_list: 1 << 7, mark: 1 << 7, ..Node::open(&EIGHT, 1) };
        for sender in [2, 4, 7] {
            for list in [1 << 3, 0b1111_1111, 1] {
                let mut node = before;
                let effect = node.deliver(&EIGHT, 4, sender, Content::Heartbeat { list });
                assert!(effect.sends.as_slice().is_empty() && effect.passed.is_none());
                assert_eq!(node, before);
            }
        }
        let alone = Node { emitter: 1, observer: 1, watch: None, heartbeat: None, ..before };
        let mut node = alone;
        node.deliver(&EIGHT, 4, 0, Content::Heartbeat { list: 1 << 3 });
        assert_eq!(node, alone);
    }

    /// A lent record or store may hold a heartbeat that names its receiver or its sender: these two are not added, all others are.
    #[test]
    fn neither_the_receiver_nor_the_sender_is_named() {
        let before = Node::open(&EIGHT, 1);
        for (list, added) in [(0b11, 0), (0b01, 0), (0b10, 0), (0b1010_0011, 0b1010_0000), (0b1111_1111, 0b1111_1100)] {
            let mut node = before;
            node.deliver(&EIGHT, 4, 0, Content::Heartbeat { list });
            assert_eq!(node, Node { watch: Some(14), dead_list: added, ..before });
        }
    }

    /// Node 1 expires on 0 or hears of its death, and marks it. A report of 0 that comes later does nothing, and one of 7, which a
    /// heartbeat of the new emitter 6 names, is passed on.
    #[test]
    fn the_emitter_left_is_marked() {
        for by_report in [false, true] {
            let mut node = Node { dead_list: 1 << 7, ..Node::open(&EIGHT, 1) };
            if by_report {
                node.deliver(&EIGHT, 10, 5, Content::Report { subject: 0 });
            } else {
                node.expire_watch(&EIGHT, 10);
            }
            assert_eq!((node.emitter, node.dead_list, node.mark), (6, 1 << 7 | 1, 1));
            let after = node;
            assert!(node.deliver(&EIGHT, 11, 3, Content::Report { subject: 0 }).sends.as_slice().is_empty());
            assert_eq!(node, after);
            assert_eq!(node.deliver(&EIGHT, 11, 3, Content::Report { subject: 7 }).sends.as_slice(), reports(7, &[2, 3, 5]));
            assert_eq!(node, Node { mark: 1 << 7 | 1, ..after });
        }
        let mut alone = Node { dead_list: 0b1111_1100, ..Node::open(&EIGHT, 1) };
        alone.expire_watch(&EIGHT, 10);
        assert_eq!((alone.dead_list, alone.mark), (0b1111_1101, 1));
    }

    #[test]
    fn a_known_report_or_one_of_itself_is_nothing() {
        let before = Node { dead_list: 1 << 3, mark: 1 << 3, ..Node::open(&EIGHT, 1) };
        for subject in [1, 3] {
            let mut node = before;
            let effect = node.deliver(&EIGHT, 4, 6, Content::Report { subject });
            assert!(effect.sends.as_slice().is_empty() && effect.passed.is_none());
            assert_eq!(node, before);
        }
    }

    /// Node 1 lists 7 and gets a report of 0: it goes back from 0 over 7 to 6, as an expired watch would at that tick.
    #[test]
    fn a_report_of_the_emitter_moves_as_an_expired_watch_does() {
        let before = Node { dead_list: 1 << 7, ..Node::open(&EIGHT, 1) };
        let (mut reported, mut expired) = (before, before);
        let effect = reported.deliver(&EIGHT, 4, 5, Content::Report { subject: 0 });
        assert_eq!(reported, Node { emitter: 6, watch: Some(4 + 20), dead_list: 1 << 7 | 1, mark: 1, ..before });
        let observer = Sent { receiver: 6, content: Content::NewObserver };
        assert_eq!(effect.sends.as_slice(), [vec![observer], reports(0, &[2, 3, 5])].concat());
        let expiry = expired.expire_watch(&EIGHT, 4);
        assert_eq!((effect.sends.as_slice(), effect.passed), (expiry.sends.as_slice(), expiry.passed));
        assert_eq!((reported, effect.passed), (expired, Some(2)));
    }

    /// Once it has moved, the same report is of a marked node, and one of the new emitter moves it again.
    #[test]
    fn reports_of_one_emitter_after_another() {
        let mut node = Node::open(&EIGHT, 1);
        let report = |node: &mut Node, tick, subject| node.deliver(&EIGHT, tick, 5, Content::Report { subject });
        report(&mut node, 4, 0);
        let moved = node;
        assert!(report(&mut node, 5, 0).sends.as_slice().is_empty());
        assert_eq!(node, moved);
        let effect = report(&mut node, 6, 7);
        assert_eq!(node, Node { emitter: 6, watch: Some(26), dead_list: 1 << 7 | 1, mark: 1 << 7 | 1, ..moved });
        assert_eq!(effect.sends.as_slice()[1..], reports(7, &[2, 3, 5]));
    }

    /// Where all others are listed but the emitter, a report of it leaves the node alone: both timers off, nothing sent.
    #[test]
    fn a_node_is_alone_by_report() {
        let before = Node { dead_list: 0b1111_1100, ..Node::open(&EIGHT, 1) };
        let mut node = before;
        let effect = node.deliver(&EIGHT, 4, 5, Content::Report { subject: 0 });
        assert_eq!((effect.sends.as_slice(), effect.passed), (&[][..], Some(7)));
        let alone = Node { emitter: 1, observer: 1, watch: None, heartbeat: None, dead_list: 0b1111_1101, mark: 1, ..before };
        assert_eq!(node, alone);
    }

    /// A lent node may have its watch off beside another emitter. A move sets it.
    #[test]
    fn a_report_of_the_emitter_sets_a_watch_that_is_off() {
        let before = Node { watch: None, ..Node::open(&EIGHT, 1) };
        let mut node = before;
        node.deliver(&EIGHT, 4, 5, Content::Report { subject: 0 });
        assert_eq!(node, Node { emitter: 7, watch: Some(24), dead_list: 1, mark: 1, ..before });
    }

    /// Of the eight nodes, a report of each but the emitter leaves emitter and watch.
    #[test]
    fn other_reports_leave_emitter_and_watch() {
        let before = Node::open(&EIGHT, 1);
        for subject in 2..8 {
            let mut node = before;
            let effect = node.deliver(&EIGHT, 4, 5, Content::Report { subject });
            assert_eq!((node, effect.passed), (Node { dead_list: 1 << subject, mark: 1 << subject, ..before }, None));
            let targets = EIGHT.ring.forward_targets(1 << subject, 1);
            assert_eq!(effect.sends.as_slice(), reports(subject, targets.as_slice()));
        }
    }

    /// A node that is alone is its own emitter, and a report of itself is nothing, whatever it lists.
    #[test]
    fn a_report_at_a_node_that_is_alone() {
        let mut alone = Node { dead_list: 0b1111_1100, ..Node::open(&EIGHT, 1) };
        alone.expire_watch(&EIGHT, 10);
        let before = Node { dead_list: 1, mark: 1, ..alone };
        let mut node = before;
        let effect = node.deliver(&EIGHT, 11, 5, Content::Report { subject: 1 });
        assert!(effect.sends.as_slice().is_empty() && effect.passed.is_none());
        assert_eq!(node, before);
        assert_eq!(node.deliver(&EIGHT, 11, 5, Content::Report { subject: 4 }).sends.as_slice(), reports(4, &[2, 3, 6]));
        assert_eq!(node, Node { dead_list: 1 << 4 | 1, mark: 1 << 4 | 1, ..before });
    }

    #[test]
    fn a_heartbeat_goes_to_the_observer_with_the_list() {
        let before = Node { dead_list: 1 << 3 | 1 << 7, mark: 1 << 3, ..Node::open(&EIGHT, 1) };
        let mut node = before;
        let effect = node.send_heartbeat(&EIGHT, 7);
        assert_eq!(effect.passed, None);
        assert_eq!(effect.sends.as_slice(), [Sent { receiver: 2, content: Content::Heartbeat { list: 1 << 3 | 1 << 7 } }]);
        assert_eq!(node, Node { heartbeat: Some(9), ..before });
    }

    #[test]
    fn an_expired_watch_moves_to_the_next_emitter_for_twice_the_timeout() {
        let before = Node { dead_list: 1 << 7, ..Node::open(&EIGHT, 1) };
        let mut node = before;
        let effect = node.expire_watch(&EIGHT, 10);
        assert_eq!(node, Node { emitter: 6, watch: Some(30), dead_list: 1 << 7 | 1, mark: 1, ..before });
        let mut expected = vec![Sent { receiver: 6, content: Content::NewObserver }];
        expected.extend(reports(0, &[2, 3, 5]));
        assert_eq!(effect.sends.as_slice(), expected);
    }

    #[test]
    fn the_last_unlisted_node_is_alone() {
        let mut node = Node { dead_list: 0b1111_1100, ..Node::open(&EIGHT, 1) };
        let effect = node.expire_watch(&EIGHT, 10);
        assert_eq!((effect.sends.as_slice(), effect.passed), (&[][..], Some(7)));
        assert_eq!((node.emitter, node.observer, node.watch, node.heartbeat), (1, 1, None, None));
        assert_eq!(node.dead_list, 0b1111_1101);
    }

    #[test]
    fn a_full_ring_sends_seven_messages() {
        let mut node = Node::open(&Settings { ring: Ring::of(64), ..EIGHT }, 0);
        let effect = node.expire_watch(&Settings { ring: Ring::of(64), ..EIGHT }, 10);
        assert_eq!(effect.sends.as_slice().len(), 1 + 5 + 1);
    }

    #[test]
    fn the_timers_of_a_crashed_node_are_off() {
        let node = Node { alive: false, ..Node::open(&EIGHT, 1) };
        assert_eq!((node.due(Timer::Watch), node.due(Timer::Heartbeat)), (None, None));
        assert_eq!((node.watch, node.heartbeat), (Some(10), Some(2)));
    }
}
