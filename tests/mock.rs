//! The platform's four calls over the simulator and its store, with one mistake at a time: what tests/platform.rs has to find. With none, they
//! are the other calls beside tests/dispatch_mock.rs. Mistakes about marks and lists are made by lists_mock.rs.
#![allow(dead_code)]

#[path = "lists_mock.rs"]
mod lists;

use super::calls::{is_end, last_letter, opening, refused, simulated, Answer, Call};
pub use lists::rules;
use simulator::layout::*;
use simulator::limits::*;
use simulator::log::{self, Line};
use simulator::node::Timer;
use simulator::plan::{self, Plan, Refusal};
use simulator::platform::Platform;
use simulator::queue::{Cause, Pending};
use simulator::ring::Ring;
use simulator::store::{self, Held};
use std::slice::{from_raw_parts, from_raw_parts_mut};
use std::sync::atomic::{AtomicBool, AtomicUsize, Ordering};

/// The mistakes, each named once.
macro_rules! mistakes {
    ($($name:ident,)*) => {
        #[derive(Clone, Copy, PartialEq, Eq, Debug)]
        pub enum Mistake {
            None,
            $($name,)*
        }

        pub const MISTAKES: [Mistake; 117] = [$($name,)*];
    };
}

mistakes! {
    EveryFileRefused,
    LineNotCounted,
    LineBeforeNumber,
    OpensAnyLength,
    OldBytesLeft,
    StepLeavesStore,
    StepWritesAllOfLog,
    StepTakesShortLog,
    LetterOfRefusedStep,
    SizeOfRefusedStep,
    DoneMovesTheTick,
    RenewedByAnyone,
    RunDoesOneEvent,
    CountsOneMore,
    DoneForSpent,
    SpentForDone,
    RefusedRunTakenBack,
    EventsOfRefusedStore,
    EventsBeforeNotTold,
    SpentOfRefusedEvent,
    FewerInFlight,
    UnusedNotLookedAt,
    PastNotLookedAt,
    WriterClearsTheRest,
    WriterTakesShortPart,
    SizeOfRefusedFile,
    ElevenForTwelve,
    LeftByDueTick,
    ThirteenBeforeThree,
    OrderNotKept,
    NumberOrderNotKept,
    OpensByNumber,
    GoesByNumber,
    OrderNotWritten,
    TwiceNotLookedAt,
    CountNotLookedAt,
    BeyondCountNotLookedAt,
    ReportedEmitterKept,
    ShortAfterReport,
    ListedEmitterNotLookedAt,
    ListedEmitterOfCrashedNotLookedAt,
    LeftNotCounted,
    AllListedCounted,
    PassedByNumber,
    AloneCountedToTheEnd,
    PassedBeforeOwnLine,
    PassedWhereEmitterStays,
    PassedMissing,
    PassedMissingByReport,
    PassedMissingAlone,
    ListBeforeTheEvent,
    SizeOfOwnLine,
    NumbersOfPassed,
    PassedCountedAsEvent,
    DoneTakesShortLog,
    OwnLineOfRefusedMove,
    // Marks and the lists of heartbeats: a node's rules.
    SenderLearnt,
    ReceiverLearnt,
    LearntFromAnyone,
    LearntAsAtDelivery,
    NothingLearnt,
    FirstLearntAlone,
    ListReplaced,
    LearntMarked,
    LearntRelayed,
    NamedReportIgnored,
    NamedNotRelayed,
    NamedNotMarked,
    ReportNotMarked,
    ReportedEmitterNotMarked,
    MarkedRelayed,
    ExpiredNotMarked,
    MarkedAtCrash,
    MarkClearedAtMove,
    NothingCarried,
    MarkCarried,
    LowHalfCarried,
    // Their ranges.
    MarkNotLookedAt,
    MarkOfCrashedNotLookedAt,
    MarkBeyondNotLookedAt,
    HighMarkNotLookedAt,
    CarriedBeyondNotLookedAt,
    ListOfNewObserverNotLookedAt,
    ListOfReportNotLookedAt,
    ListInRangeNotLookedAt,
    // Lists on their way.
    ListOnReport,
    ListOnNewObserver,
    ListsStayInPlace,
    ListLeftBehind,
    ListsOfRunLost,
    ListsLostInRun,
    HalfOfListInRun,
    EmptyAsRunBegins,
    // W below H + D: how a file with it is taken.
    FourForShort,
    FourBelowPeriod,
    ThreeForShort,
    RaisedAtOpening,
    RaisedInFile,
    // The letter of the last line.
    AlwaysE,
    AlwaysF,
    FAtEnough,
    EOneShort,
    FWhereLiveListed,
    FWhereLiveListLive,
    FWhereCrashed,
    FBelowPeriod,
    FByDelayRows,
    OwnNumbersOfE,
    // Its range in a store, whose lists may hold live nodes.
    SevenForShort,
    SevenBelowPeriod,
    SevenOfShortStep,
    SevenOfShortRun,
    SevenOfShortFile,
    SevenWhereLiveListed,
    ZeroTaken,
    // The rules, which are the same.
    LiveNotListed,
    LongWatchAfterMove,
}

use Mistake::*;

static MADE: AtomicUsize = AtomicUsize::new(0);
static IN_RUNS_ALONE: AtomicBool = AtomicBool::new(false);

/// The calls make this mistake from now on.
pub fn make(mistake: Mistake) {
    MADE.store(mistake as usize, Ordering::Relaxed);
    IN_RUNS_ALONE.store(false, Ordering::Relaxed);
}

/// Runs make this mistake of a rule from now on; a step does not.
pub fn make_in_runs(mistake: Mistake) {
    make(mistake);
    IN_RUNS_ALONE.store(true, Ordering::Relaxed);
}

fn is_made(mistake: Mistake) -> bool {
    MADE.load(Ordering::Relaxed) == mistake as usize
}

/// Whether the second line is a Q line with a field twice.
fn names_twice(file: &[u8]) -> bool {
    let line = file.split(|byte| *byte == b'\n').nth(1).unwrap_or(&[]);
    let fields: Vec<&[u8]> = line.split(|byte| *byte == b',').collect();
    fields[0] == b"Q" && fields.iter().any(|field| fields.iter().filter(|other| *other == field).count() > 1)
}

/// Puts the order of one store into another.
fn copy_order(from: &[u8], to: &mut [u8]) {
    for place in std::iter::once(28).chain(64..128) {
        to[place] = from[place];
    }
}

fn forget_order(bytes: &mut [u8]) {
    copy_order(&[0; STORE_BYTES], bytes);
}

/// The number by which a plan with W below H + D is refused.
fn refuses(plan: &Plan) -> Option<u8> {
    match () {
        () if !plan.short_timeout() => Option::None,
        () if is_made(FourForShort) || is_made(FourBelowPeriod) && plan.timeout < plan.period => Some(4),
        () if is_made(ThreeForShort) => Some(REFUSED_RANGE),
        () => Option::None,
    }
}

/// The store of a plan as opened.
fn opened(mut plan: Plan) -> Vec<u8> {
    if is_made(RaisedAtOpening) {
        plan.timeout = plan.timeout.max(plan.period + plan.delay);
    }
    let in_numbers = plan.order.is_sorted();
    let by_number = store::encode(&Platform::open(Plan { order: Vec::new(), ..plan.clone() }));
    let mut bytes = store::encode(&Platform::open(plan));
    if is_made(OrderNotKept) || is_made(NumberOrderNotKept) && in_numbers {
        forget_order(&mut bytes);
    }
    if is_made(OpensByNumber) {
        let ordered = std::mem::replace(&mut bytes, by_number);
        copy_order(&ordered, &mut bytes);
    }
    bytes
}

fn open(file: &[u8], store: &mut [u8]) -> u64 {
    let plan = match plan::read(file) {
        Err(Refusal { number: REFUSED_RANGE, line: 2 }) if is_made(ThirteenBeforeThree) && names_twice(file) => return opening(REFUSED_RING, 2),
        Err(refusal) if is_made(LineBeforeNumber) => return refusal.line as u64 + 256 * u64::from(refusal.number),
        Err(refusal) => return opening(refusal.number, if is_made(LineNotCounted) { 1 } else { refusal.line as u64 }),
        Ok(_) if is_made(EveryFileRefused) => return opening(REFUSED_FORM, 0),
        Ok(plan) => match refuses(&plan) {
            Some(number) => return opening(number, 1),
            Option::None => plan,
        },
    };
    let bytes = opened(plan);
    if store.len() != STORE_BYTES {
        if is_made(OpensAnyLength) {
            let length = store.len().min(STORE_BYTES);
            store[..length].copy_from_slice(&bytes[..length]);
        }
        return opening(REFUSED_STORE, 0);
    }
    let kept = if is_made(OldBytesLeft) { STORE_BYTES - 1 } else { STORE_BYTES };
    store[..kept].copy_from_slice(&bytes[..kept]);
    0
}

/// Takes the emitters out of the lists, of the crashed nodes or of all.
fn unlist_emitters(store: &mut [u8], all: bool) {
    let crashed: Vec<u64> = (0..get(store, CRASHES_DONE, 0).min(64)).map(|row| get(store, CRASH_NODE, row as usize)).collect();
    for place in (0..64).filter(|place| all || crashed.contains(&(*place as u64))) {
        let list = get(store, DEAD_LIST, place) & !(1 << (get(store, EMITTER, place) % 64));
        put(store, DEAD_LIST, place, list);
    }
}

/// Whether the call refuses a store by 7 whose W is below H + D, or in which a live node is listed.
fn seven(call: Call, store: &[u8]) -> bool {
    let by_call = match call {
        Call::Step => is_made(SevenOfShortStep),
        Call::Run { .. } => is_made(SevenOfShortRun),
        Call::Write => is_made(SevenOfShortFile),
    };
    let below_period = get(store, TIMEOUT, 0) < get(store, PERIOD, 0);
    last_letter(store) == b'F' && (by_call || is_made(SevenForShort) || is_made(SevenBelowPeriod) && below_period)
        || is_made(SevenWhereLiveListed) && live_listed(store, false)
}

/// Whether a live node is listed, by any node or by a live one.
fn live_listed(store: &[u8], by_live: bool) -> bool {
    let crashed = (0..get(store, CRASHES_DONE, 0).min(64)).fold(0, |list, row| list | 1u64 << (get(store, CRASH_NODE, row as usize) % 64));
    (0..64).any(|node| get(store, DEAD_LIST, node) & !crashed != 0 && !(by_live && crashed >> node & 1 == 1))
}

/// What the call takes the store to hold, in number order where it forgets the order.
fn hold(call: Call, store: &[u8]) -> Option<Held> {
    if store.len() != STORE_BYTES {
        return store::decode(store);
    }
    if seven(call, store) {
        return Option::None;
    }
    let forgets = if call == Call::Write { is_made(OrderNotWritten) } else { is_made(GoesByNumber) };
    let mut seen = store.to_vec();
    if is_made(ZeroTaken) && get(&seen, TIMEOUT, 0) == 0 {
        put(&mut seen, TIMEOUT, 0, 1);
    }
    if is_made(RaisedInFile) && call == Call::Write && store::check(&seen) {
        let enough = get(&seen, PERIOD, 0) + get(&seen, LONGEST_DELAY, 0);
        let timeout = get(&seen, TIMEOUT, 0).max(enough);
        put(&mut seen, TIMEOUT, 0, timeout);
    }
    if is_made(UnusedNotLookedAt) {
        seen[61_504..].fill(0);
    }
    if is_made(PastNotLookedAt) && get(&seen, MESSAGES, 0) > 0 {
        let due = get(&seen, MESSAGE_DUE, 0).max(get(&seen, LAST_TICK, 0));
        put(&mut seen, MESSAGE_DUE, 0, due);
    }
    if is_made(ListedEmitterNotLookedAt) || is_made(ListedEmitterOfCrashedNotLookedAt) {
        unlist_emitters(&mut seen, is_made(ListedEmitterNotLookedAt));
    }
    lists::overlook(&mut seen);
    let [nodes, count] = [NODES, ORDERED].map(|field| get(&seen, field, 0));
    let used: Vec<u64> = (0..count.min(64)).map(|place| get(&seen, ORDER, place as usize)).collect();
    let twice = count == nodes && used.iter().all(|node| *node < nodes) && (0..nodes).any(|node| !used.contains(&node));
    if twice && is_made(TwiceNotLookedAt) || count != 0 && count != nodes && is_made(CountNotLookedAt) {
        forget_order(&mut seen);
    }
    if is_made(BeyondCountNotLookedAt) {
        (used.len()..64).for_each(|place| put(&mut seen, ORDER, place, 0));
    }
    if forgets && store::check(&seen) {
        forget_order(&mut seen);
    }
    store::decode(&seen)
}

/// The number passed by a wrong count, where the line's node left the other.
fn miscounted(own: &Line, passed: u64, nodes: u8, alone: bool) -> u64 {
    match () {
        () if is_made(LeftNotCounted) => passed - 1,
        () if is_made(AllListedCounted) => u64::from(own.list.count_ones()),
        () if is_made(PassedByNumber) => u64::from(Ring::of(nodes).first_unlisted_back(own.list, own.other as u8).passed),
        () if is_made(AloneCountedToTheEnd) && alone => u64::from(nodes) - 1,
        () => passed,
    }
}

/// Spoils the lines that a step writes, `before` and `after` being the store's bytes.
fn mislead(lines: &mut Vec<Line>, before: &[u8], after: &[u8]) {
    let own = lines[0];
    let [left, emitter, old_list] = [(before, EMITTER), (after, EMITTER), (before, DEAD_LIST)].map(|(bytes, field)| get(bytes, field, own.node as usize % 64));
    let alone = emitter == own.node;
    if let Some(moved) = lines.get_mut(1) {
        moved.other = miscounted(&own, moved.other, get(before, NODES, 0) as u8, alone);
        moved.list = if is_made(ListBeforeTheEvent) { old_list } else { moved.list };
        let missing = is_made(PassedMissing) || is_made(PassedMissingByReport) && own.letter == b'R' || is_made(PassedMissingAlone) && alone;
        if missing {
            lines.pop();
        }
    } else if is_made(PassedWhereEmitterStays) && own.letter == b'R' && left == emitter {
        lines.push(Line { letter: b'K', other: 0, ..own });
    }
    if is_made(PassedBeforeOwnLine) {
        lines.reverse();
    }
}

/// The letter of the last line by a wrong rule.
fn mistaken_letter(store: &[u8]) -> u8 {
    let [period, timeout, delay, rows] = [PERIOD, TIMEOUT, LONGEST_DELAY, DELAYS].map(|field| get(store, field, 0));
    let enough = period + delay;
    let most_of_rows = (0..rows as usize).map(|row| get(store, DELAY_TICKS, row)).max().unwrap_or(delay);
    let short = match () {
        () if is_made(AlwaysE) => false,
        () if is_made(AlwaysF) => true,
        () if is_made(FAtEnough) => timeout <= enough,
        () if is_made(EOneShort) => timeout < enough - 1,
        () if is_made(FWhereLiveListed) => live_listed(store, false),
        () if is_made(FWhereLiveListLive) => live_listed(store, true),
        () if is_made(FWhereCrashed) => timeout < enough && get(store, CRASHES_DONE, 0) > 0,
        () if is_made(FBelowPeriod) => timeout < period,
        () if is_made(FByDelayRows) => timeout < period + most_of_rows,
        () => timeout < enough,
    };
    if short { b'F' } else { b'E' }
}

/// Writes the lines of an accepted step anew, with a mistake, into the part as it was lent.
fn write_misled(answer: &mut Answer, before: &[u8], after: &[u8], lent: &[u8], part: &mut [u8]) {
    let text = part[..answer[5] as usize].to_vec();
    let mut lines: Vec<Line> = text.split_inclusive(|byte| *byte == b'\n').map(|line| Line::read(line).expect("a line")).collect();
    mislead(&mut lines, before, after);
    if is_end(answer[1]) {
        lines[0].letter = mistaken_letter(before);
        answer[1] = u64::from(if is_made(OwnNumbersOfE) { b'E' } else { lines[0].letter });
    }
    part.copy_from_slice(lent);
    let mut rest = &mut part[..];
    log::put(lines.iter().copied(), &mut rest).expect("the part is long enough");
    let size = lent.len() - rest.len();
    answer[5] = size as u64;
    if is_made(SizeOfOwnLine) && lines.len() == 2 {
        answer[5] = text.iter().position(|byte| *byte == b'\n').map_or(0, |place| place as u64 + 1);
    }
    if is_made(NumbersOfPassed) && lines.len() == 2 {
        (answer[1], answer[4]) = (u64::from(b'K'), lines[1].other);
    }
}

/// How many of the next events, so many, move an emitter.
fn moves_in(held: &Held, events: u64) -> u64 {
    let mut platform = held.platform.clone();
    (0..events).map(|_| platform.step().lines().count() as u64 - 1).sum()
}

/// Whether the next event is an expired watch.
fn is_watch_next(held: &mut Held) -> bool {
    matches!(held.platform.next_event(), Some(Pending { cause: Cause::Timer { timer: Timer::Watch, .. }, .. }))
}

/// The call on what a store holds, with a mistake that goes by what it holds.
fn answer_of(call: Call, held: &mut Option<Held>, part: &mut [u8]) -> Answer {
    let is_done = held.as_mut().is_some_and(|held| held.platform.next_event().is_none());
    let shorter = match call {
        Call::Step => part.len() == LOG_BYTES - 1 && (is_made(StepTakesShortLog) || is_made(DoneTakesShortLog) && is_done),
        Call::Run { .. } => false,
        Call::Write => part.len() == FILE_BYTES - 1 && is_made(WriterTakesShortPart),
    };
    if shorter {
        let mut longer = [&part[..], &[0]].concat();
        let answer = simulated(call, held.as_mut(), &mut longer);
        part.copy_from_slice(&longer[..longer.len() - 1]);
        return answer;
    }
    let by_rules = !rules().iter().copied().any(is_made);
    match (call, held) {
        (Call::Run { budget }, Some(held)) if !by_rules => lists::misrun(held, budget),
        (Call::Step, Some(held)) if !by_rules && !IN_RUNS_ALONE.load(Ordering::Relaxed) => {
            let before = lists::Before::of(&mut held.platform);
            let answer = simulated(call, Some(held), part);
            if answer[0] == 0 {
                lists::misdo(&before, &mut held.platform);
            }
            answer
        }
        (Call::Run { budget: 12.. }, Some(held)) if is_made(EmptyAsRunBegins) => {
            held.platform = lists::emptied(&held.platform);
            simulated(call, Some(held), part)
        }
        (_, held) => simulated(call, held.as_mut(), part),
    }
}

/// Puts what is held after a call into the store, with a mistake that goes by its bytes.
fn keep(call: Call, held: &Held, before: &[u8], store: &mut [u8]) {
    let long_run = matches!(call, Call::Run { budget: 12.. });
    store.copy_from_slice(&held.encode());
    copy_order(before, store);
    put(store, TIMEOUT, 0, get(before, TIMEOUT, 0));
    lists::mislay(before, store, long_run);
    if is_made(EmptyAsRunBegins) && long_run {
        lists::refill(before, store);
    }
}

fn call(call: Call, store: &mut [u8], part: &mut [u8]) -> Answer {
    let mut held = hold(call, store);
    let (before, lent, opened) = (store.to_vec(), part.to_vec(), held.clone());
    let (call, rest) = match call {
        Call::Run { budget } if is_made(RunDoesOneEvent) && budget > 1 => (Call::Run { budget: 1 }, budget - 1),
        Call::Run { budget: 12 } if is_made(ElevenForTwelve) => (Call::Run { budget: 11 }, 1),
        _ => (call, 0),
    };
    let mut answer = answer_of(call, &mut held, part);
    if let Some(held) = &held {
        keep(call, held, &before, store);
    }
    answer[1] += if answer[0] == 0 && answer[2] == 1 { rest } else { 0 };
    if let Some(opened) = opened.as_ref().filter(|_| is_made(PassedCountedAsEvent) && matches!(call, Call::Run { .. }) && answer[0] == 0) {
        answer[1] += moves_in(opened, answer[1]);
    }
    if call == Call::Step && answer[0] == 0 {
        write_misled(&mut answer, &before, store, &lent, part);
    }
    if call == Call::Step && answer[0] == 8 && is_made(OwnLineOfRefusedMove) && held.as_mut().is_some_and(is_watch_next) {
        part[..2].copy_from_slice(b"W,");
    }
    spoil(call, &mut answer, &before, store, part);
    answer
}

/// Puts the first two messages in the order of their due ticks, as far as numbers and ticks go.
fn swap_by_due(store: &mut [u8]) {
    if get(store, MESSAGE_DUE, 0) > get(store, MESSAGE_DUE, 1) && get(store, MESSAGE_DUE, 1) > 0 {
        for field in [MESSAGE_NUMBER, MESSAGE_DUE] {
            let [first, second] = [0, 1].map(|place| get(store, field, place));
            put(store, field, 0, second);
            put(store, field, 1, first);
        }
    }
}

fn is_crashed(store: &[u8], node: u64) -> bool {
    (0..get(store, CRASHES_DONE, 0)).any(|row| get(store, CRASH_NODE, row as usize) == node)
}

/// What is wrong after the call.
fn spoil(call: Call, answer: &mut Answer, before: &[u8], store: &mut [u8], part: &mut [u8]) {
    match (call, answer[0]) {
        (Call::Step, 0) if is_made(StepLeavesStore) => store.copy_from_slice(before),
        (Call::Step, 0) if is_made(StepWritesAllOfLog) => part[answer[5] as usize..].fill(b' '),
        (Call::Step, 8) if is_made(LetterOfRefusedStep) => answer[1] = u64::from(b'S'),
        (Call::Step, 7 | 9) if is_made(SizeOfRefusedStep) => answer[5] = 0,
        (Call::Step, 0) if is_made(DoneMovesTheTick) && is_end(answer[1]) => {
            put(store, LAST_TICK, 0, get(before, END, 0));
        }
        (Call::Step, 0) if is_made(RenewedByAnyone) && answer[1] == u64::from(b'H') => {
            put(store, WATCH, answer[3] as usize, answer[2] + get(store, TIMEOUT, 0) + 1);
        }
        (Call::Step, 0) if is_made(ReportedEmitterKept) && answer[1] == u64::from(b'R') => {
            put(store, EMITTER, answer[3] as usize, get(before, EMITTER, answer[3] as usize));
        }
        (Call::Step, 0) if is_made(ShortAfterReport) && answer[1] == u64::from(b'R') => {
            let [node, tick] = [answer[3], answer[2]];
            if get(before, EMITTER, node as usize) != get(store, EMITTER, node as usize) {
                put(store, WATCH, node as usize, tick + get(store, TIMEOUT, 0) + 1);
            }
        }
        (Call::Step, 0) if is_made(LiveNotListed) && answer[1] == u64::from(b'W') && !is_crashed(before, answer[4]) => {
            store.copy_from_slice(before);
            put(store, WATCH, answer[3] as usize, answer[2] + get(store, TIMEOUT, 0) + 1);
        }
        (Call::Step, 0) if is_made(LongWatchAfterMove) && answer[1] == u64::from(b'W') && get(store, WATCH, answer[3] as usize) > 0 => {
            let enough = get(store, PERIOD, 0) + get(store, LONGEST_DELAY, 0);
            put(store, WATCH, answer[3] as usize, answer[2] + 2 * get(store, TIMEOUT, 0).max(enough) + 1);
        }
        (Call::Step, 0) if is_made(FewerInFlight) && get(store, MESSAGES, 0) == MAX_IN_FLIGHT as u64 && before != &*store => {
            store.copy_from_slice(before);
            *answer = refused(REFUSED_EVENT);
        }
        (Call::Run { .. }, 0) if is_made(CountsOneMore) => answer[1] += 1,
        (Call::Run { .. }, 0) if is_made(DoneForSpent) => answer[2] = 0,
        (Call::Run { budget }, 0) if is_made(SpentForDone) && answer[1] == budget => answer[2] = 1,
        (Call::Run { .. }, 8) if is_made(RefusedRunTakenBack) => store.copy_from_slice(before),
        (Call::Run { .. }, 7) if is_made(EventsOfRefusedStore) => answer[1] = 0,
        (Call::Run { .. }, 8) if is_made(EventsBeforeNotTold) => *answer = refused(REFUSED_EVENT),
        (Call::Run { .. }, 8) if is_made(SpentOfRefusedEvent) => answer[2] = 0,
        (Call::Run { budget }, 0) if is_made(LeftByDueTick) && budget >= 12 => swap_by_due(store),
        (Call::Write, 0) if is_made(WriterClearsTheRest) => part[answer[1] as usize..].fill(0),
        (Call::Write, 7 | 9) if is_made(SizeOfRefusedFile) => answer[1] = 0,
        _ => {}
    }
}

/// Puts the numbers behind their pointers, those that the call leaves as they were, and answers the first.
unsafe fn answered(answer: Answer, pointers: &[*mut u64]) -> u64 {
    for (place, pointer) in pointers.iter().enumerate() {
        **pointer = answer[place + 1];
    }
    answer[0]
}

#[no_mangle]
unsafe extern "C" fn kelbraut_open(file: *const u8, size: usize, store: *mut u8, room: usize) -> u64 {
    open(from_raw_parts(file, size), from_raw_parts_mut(store, room))
}

#[no_mangle]
unsafe extern "C" fn kelbraut_step(
    store: *mut u8,
    size: usize,
    log: *mut u8,
    room: usize,
    letter: *mut u64,
    tick: *mut u64,
    node: *mut u64,
    other: *mut u64,
    length: *mut u64,
) -> u64 {
    let answer = call(Call::Step, from_raw_parts_mut(store, size), from_raw_parts_mut(log, room));
    answered(answer, &[letter, tick, node, other, length])
}

#[no_mangle]
unsafe extern "C" fn kelbraut_run(store: *mut u8, size: usize, budget: u64, events: *mut u64, spent: *mut u64) -> u64 {
    answered(call(Call::Run { budget }, from_raw_parts_mut(store, size), &mut []), &[events, spent])
}

#[no_mangle]
unsafe extern "C" fn kelbraut_write(store: *mut u8, size: usize, out: *mut u8, room: usize, length: *mut u64) -> u64 {
    answered(call(Call::Write, from_raw_parts_mut(store, size), from_raw_parts_mut(out, room)), &[length])
}
