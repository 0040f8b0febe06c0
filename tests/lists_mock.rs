//! What mock.rs does wrong about marks and about the lists that heartbeats carry: a rule of a node, a range, a list that is lost on its way.

use super::super::calls::{answer, Answer};
use super::{is_made, Mistake, Mistake::*, MISTAKES};
use simulator::layout::*;
use simulator::limits::*;
use simulator::node::{Content, Node, Timer};
use simulator::platform::{Ending, Platform};
use simulator::queue::{Cause, Message, Pending};
use simulator::ring::listed;
use simulator::store::Held;

/// The mistakes of a node's rules, which stand in a row.
pub fn rules() -> &'static [Mistake] {
    &MISTAKES[SenderLearnt as usize - 1..LowHalfCarried as usize]
}

// ---- the rules

/// What stood before an event: its cause and tick, the nodes and the next message number.
pub struct Before {
    pending: Option<Pending>,
    nodes: Vec<Node>,
    next_number: u64,
}

impl Before {
    pub fn of(platform: &mut Platform) -> Before {
        Before { pending: platform.next_event(), nodes: platform.nodes().to_vec(), next_number: platform.next_number() }
    }
}

/// An event that was done by the rules, and what stands after it. The messages are the platform's where they are not given.
struct Done<'a> {
    before: &'a Before,
    after: &'a Platform,
    nodes: Vec<Node>,
    messages: Option<Vec<(u32, Message)>>,
    next_number: u64,
}

impl Done<'_> {
    /// The node as it was before the event.
    fn own(&self, number: u8) -> Node {
        self.before.nodes[usize::from(number)]
    }

    fn node(&mut self, number: u8) -> &mut Node {
        &mut self.nodes[usize::from(number)]
    }

    fn messages(&mut self) -> &mut Vec<(u32, Message)> {
        self.messages.get_or_insert_with(|| self.after.messages())
    }

    /// Takes back what the event sent.
    fn unsend(&mut self) {
        let first = self.before.next_number;
        self.next_number = first;
        self.messages().retain(|(_, message)| message.number < first);
    }

    /// R of the subject to the forward targets.
    fn relay(&mut self, sender: u8, subject: u8) {
        let targets = self.after.ring().forward_targets(self.nodes[usize::from(sender)].dead_list, sender);
        let (plan, tick) = (self.after.plan(), self.after.last_tick());
        for receiver in targets.as_slice() {
            let number = self.next_number;
            let delay = plan.delays.iter().find(|row| row.number == number).map_or(plan.delay, |row| row.delay);
            let message = Message { number, sender, receiver: *receiver, content: Content::Report { subject } };
            self.messages().push((tick + delay, message));
            self.next_number += 1;
        }
    }

    fn heartbeat(&mut self, receiver: u8, sender: u8, list: u64) {
        let (own, now) = (self.own(receiver), self.own(sender).dead_list);
        let (itself, from) = (1u64 << receiver, 1u64 << sender);
        let old = own.dead_list;
        let others = |list: u64| list & !itself & !from;
        let learnt = others(list) & !old;
        let node = self.node(receiver);
        if sender != own.emitter {
            node.dead_list |= if is_made(LearntFromAnyone) { learnt } else { 0 };
            return;
        }
        node.dead_list = match () {
            () if is_made(SenderLearnt) => old | list & !itself,
            () if is_made(ReceiverLearnt) => old | list & !from,
            () if is_made(LearntAsAtDelivery) => old | others(now),
            () if is_made(NothingLearnt) => old,
            () if is_made(FirstLearntAlone) => old | learnt & learnt.wrapping_neg(),
            () if is_made(ListReplaced) => others(list),
            () => node.dead_list,
        };
        node.mark |= if is_made(LearntMarked) { learnt } else { 0 };
        if is_made(LearntRelayed) {
            (0..64).filter(|subject| listed(learnt, *subject)).for_each(|subject| self.relay(receiver, subject));
        }
    }

    fn report(&mut self, receiver: u8, subject: u8) {
        let own = self.own(receiver);
        let marked = listed(own.mark, subject);
        let named = listed(own.dead_list, subject) && !marked && subject != receiver;
        if named && is_made(NamedReportIgnored) {
            *self.node(receiver) = own;
        }
        if named && (is_made(NamedReportIgnored) || is_made(NamedNotRelayed)) {
            self.unsend();
        }
        let left = subject == own.emitter;
        if is_made(ReportNotMarked) || named && is_made(NamedNotMarked) || left && is_made(ReportedEmitterNotMarked) {
            self.node(receiver).mark = own.mark;
        }
        if left && is_made(MarkClearedAtMove) {
            self.node(receiver).mark = 1 << subject;
        }
        if marked && is_made(MarkedRelayed) {
            self.relay(receiver, subject);
        }
    }

    fn watch(&mut self, number: u8) {
        let own = self.own(number);
        if is_made(ExpiredNotMarked) {
            self.node(number).mark = own.mark;
        }
        if is_made(MarkClearedAtMove) {
            self.node(number).mark = 1 << own.emitter;
        }
    }

    /// Changes what the heartbeat carries that was sent.
    fn sent(&mut self, number: u8) {
        let (own, first) = (self.own(number), self.before.next_number);
        let carried = match own.dead_list {
            _ if is_made(NothingCarried) => 0,
            _ if is_made(MarkCarried) => own.mark,
            list if is_made(LowHalfCarried) => list & u64::from(u32::MAX),
            list => list,
        };
        if carried != own.dead_list {
            let sent = self.messages().iter_mut().find(|(_, message)| message.number == first);
            sent.expect("the heartbeat is in flight").1.content = Content::Heartbeat { list: carried };
        }
    }

    fn event(&mut self, cause: Cause) {
        match cause {
            Cause::Crash { node } if is_made(MarkedAtCrash) => self.node(node).mark = self.own(node).dead_list,
            Cause::Crash { .. } => {}
            Cause::Message(Message { receiver, .. }) if !self.own(receiver).alive => {}
            Cause::Message(Message { sender, receiver, content, .. }) => match content {
                Content::Heartbeat { list } => self.heartbeat(receiver, sender, list),
                Content::Report { subject } => self.report(receiver, subject),
                Content::NewObserver => {}
            },
            Cause::Timer { node, timer: Timer::Watch } => self.watch(node),
            Cause::Timer { node, timer: Timer::Heartbeat } => self.sent(node),
        }
    }
}

/// Changes what stands after an event that was done by the rules to what the mistake makes of it.
pub fn misdo(before: &Before, platform: &mut Platform) {
    let Some(Pending { cause, .. }) = before.pending else { return };
    let (nodes, next_number) = (platform.nodes().to_vec(), platform.next_number());
    let mut done = Done { before, after: platform, nodes, messages: Option::None, next_number };
    done.event(cause);
    let Done { nodes, messages, next_number, .. } = done;
    if messages.is_some() || nodes != platform.nodes() {
        let messages = messages.unwrap_or_else(|| platform.messages());
        let (plan, crashes, tick) = (platform.plan().clone(), platform.crashes_done(), platform.last_tick());
        *platform = Platform::resume(plan, nodes, messages, next_number, crashes, tick);
    }
}

/// A run with a mistake of a rule in each of its events.
pub fn misrun(held: &mut Held, budget: u64) -> Answer {
    let mut events = 0;
    while events < budget && held.platform.next_event().is_some() {
        let before = Before::of(&mut held.platform);
        if held.platform.run(1).ending == Ending::Refused {
            return answer(REFUSED_EVENT, &[events]);
        }
        misdo(&before, &mut held.platform);
        events += 1;
    }
    answer(0, &[events, u64::from(held.platform.next_event().is_some())])
}

// ---- the ranges

/// The nodes below N as a list.
fn below(nodes: u64) -> u64 {
    if nodes < 64 { (1 << nodes) - 1 } else { u64::MAX }
}

/// Takes out of the store's marks and lists what the call does not look at.
pub fn overlook(store: &mut [u8]) {
    let all = below(get(store, NODES, 0));
    let crashed: Vec<u64> = (0..get(store, CRASHES_DONE, 0).min(64)).map(|row| get(store, CRASH_NODE, row as usize)).collect();
    for place in 0..64 {
        let (mark, list, alive) = (get(store, MARK, place), get(store, DEAD_LIST, place), !crashed.contains(&(place as u64)));
        let seen = match () {
            () if is_made(MarkNotLookedAt) && alive => mark & list,
            () if is_made(MarkOfCrashedNotLookedAt) && !alive => mark & list,
            () if is_made(MarkBeyondNotLookedAt) => mark & all,
            () if is_made(HighMarkNotLookedAt) => mark & (list | u64::from(u32::MAX)),
            () => mark,
        };
        put(store, MARK, place, seen);
    }
    for place in 0..(get(store, MESSAGES, 0) as usize).min(MAX_IN_FLIGHT) {
        let (kind, list) = (get(store, MESSAGE_KIND, place) as u8, get(store, MESSAGE_LIST, place));
        let seen = match kind {
            b'H' if is_made(CarriedBeyondNotLookedAt) => list & all,
            b'O' if is_made(ListOfNewObserverNotLookedAt) => 0,
            b'R' if is_made(ListOfReportNotLookedAt) => 0,
            b'O' | b'R' if is_made(ListInRangeNotLookedAt) && list & !all == 0 => 0,
            _ => list,
        };
        put(store, MESSAGE_LIST, place, seen);
    }
}

// ---- lists on their way

/// Changes the lists of a store's messages from the number `first` on, by kind, list and place.
fn relist(store: &mut [u8], first: u64, list: impl Fn(&[u8], u8, u64, usize) -> u64) {
    for place in (0..get(store, MESSAGES, 0) as usize).filter(|place| get(store, MESSAGE_NUMBER, *place) >= first).collect::<Vec<_>>() {
        let now = list(store, get(store, MESSAGE_KIND, place) as u8, get(store, MESSAGE_LIST, place), place);
        put(store, MESSAGE_LIST, place, now);
    }
}

/// What an event or a run leaves wrong in the column of lists.
pub fn mislay(before: &[u8], store: &mut [u8], long_run: bool) {
    let first = get(before, NEXT_NUMBER, 0);
    let of_sender = |store: &[u8], place: usize| get(store, DEAD_LIST, get(store, MESSAGE_SENDER, place) as usize);
    match () {
        () if is_made(ListOnReport) => relist(store, first, |store, kind, list, place| if kind == b'R' { of_sender(store, place) } else { list }),
        () if is_made(ListOnNewObserver) => {
            relist(store, first, |store, kind, list, place| if kind == b'O' { of_sender(store, place) } else { list });
        }
        () if is_made(ListsStayInPlace) => relist(store, 0, |store, kind, list, place| match get(store, MESSAGE_NUMBER, place) {
            number if kind == b'H' && number < first => get(before, MESSAGE_LIST, place),
            _ => list,
        }),
        () if is_made(ListLeftBehind) => {
            let count = get(store, MESSAGES, 0) as usize;
            if count > 0 && count < get(before, MESSAGES, 0) as usize {
                put(store, MESSAGE_LIST, count, get(before, MESSAGE_LIST, count));
            }
        }
        () if is_made(ListsOfRunLost) && long_run => relist(store, first, |_, _, _, _| 0),
        () if is_made(ListsLostInRun) && long_run => {
            relist(store, 0, |store, _, list, place| if get(store, MESSAGE_NUMBER, place) < first { 0 } else { list });
        }
        () if is_made(HalfOfListInRun) && long_run => relist(store, 0, |_, _, list, _| list & u64::from(u32::MAX)),
        () => {}
    }
}

/// What a run takes the messages in flight to carry as it begins.
pub fn emptied(platform: &Platform) -> Platform {
    let empty = |(due, message): (u32, Message)| match message.content {
        Content::Heartbeat { .. } => (due, Message { content: Content::Heartbeat { list: 0 }, ..message }),
        _ => (due, message),
    };
    let messages = platform.messages().into_iter().map(empty).collect();
    let (next, crashes, tick) = (platform.next_number(), platform.crashes_done(), platform.last_tick());
    Platform::resume(platform.plan().clone(), platform.nodes().to_vec(), messages, next, crashes, tick)
}

/// Puts the lists that a store's messages had before the run back to those of them that are still in flight.
pub fn refill(before: &[u8], store: &mut [u8]) {
    let lists: Vec<(u64, u64)> =
        (0..get(before, MESSAGES, 0) as usize).map(|place| (get(before, MESSAGE_NUMBER, place), get(before, MESSAGE_LIST, place))).collect();
    relist(store, 0, |store, _, list, place| {
        let number = get(store, MESSAGE_NUMBER, place);
        lists.iter().find(|(other, _)| *other == number).map_or(list, |(_, list)| *list)
    });
}
