//! The dispatcher's call over the simulator and its store, with one mistake at a time: what tests/dispatch.rs has to find.

use super::calls::dispatcher::{Answer, BEFORE};
use super::calls::last_letter;
use super::place_of;
use simulator::layout;
use simulator::limits::*;
use simulator::platform::{Ending, Run};
use simulator::store::{self, Held};
use std::slice::from_raw_parts_mut;
use std::sync::atomic::{AtomicU64, Ordering::Relaxed};

/// The mistakes, each named once.
macro_rules! mistakes {
    ($($name:ident,)*) => {
        #[derive(Clone, Copy, PartialEq, Eq, Debug)]
        pub enum Mistake {
            Nothing,
            $($name,)*
        }

        pub const MISTAKES: [Mistake; 93] = [$($name,)*];
    };
}

mistakes! {
    // The refusals, and their order.
    FifteenBeforeFourteen,
    FourteenAndFifteenSwapped,
    SevenBeforeFifteen,
    SevenBeforeFourteen,
    EmptyGetsSeven,
    EmptyAccepted,
    SevenStoresAtMost,
    NineStoresAtMost,
    LongPartGetsSeven,
    OddPartGetsFourteen,
    ShortPartGetsFourteen,
    EndOfPartNotLookedAt,
    ThousandRefused,
    ThousandAndOneTaken,
    ZeroTaken,
    LengthOfSixteenBits,
    LengthOfThirtyTwoBits,
    TurnsOfThirtyTwoBits,
    NotTestedWithoutTurns,
    FirstTestedAlone,
    LastNotTested,
    DoneNotTested,
    TestedAtItsTurn,
    TestedAtEachTurn,
    TestedAfterTheCall,
    DamagedSkipped,
    MarksNotTested,
    CarriedNotTested,
    // What a refused call leaves.
    GivenOfRefusedCall,
    EventsOfRefusedCall,
    StoppedOfRefusedCall,
    StoresBeforeDamagedRun,
    // To whom the turns go.
    RoundGoesOnFromLastCall,
    StartsAtLastStore,
    StartsAtOneAgain,
    GoesBackwards,
    FirstAbleAgain,
    SameStoreToItsEnd,
    SkipsOneMore,
    SkipsOneMoreAfterDone,
    SkipsOneMoreAfterRefusal,
    OneRoundAlone,
    LastTurnNotGiven,
    OneTurnMore,
    TurnsForEachStore,
    EndsAtDone,
    EndsWhereOneIsLeft,
    EndsAtRefusal,
    EndsWhereStoreCannotGoOn,
    DoneUsesTurn,
    DoneUsesOneTurn,
    FinishedUsesOneTurn,
    StoppedGoesOn,
    StoppedRemembered,
    RefusingSkipped,
    PassedBoundSkipped,
    // What a turn does.
    LongerTurn,
    ShorterTurn,
    ElevenForTwelve,
    TurnIsShared,
    RestGoesToNext,
    RefusedTurnTakenBack,
    RefusedCallTakenBack,
    RefusedNotCounted,
    RefusedWithoutEventsNotCounted,
    FinishedMovesTheTick,
    LastStoreNotKept,
    MarksNotKept,
    CarriedNotKept,
    // What is answered.
    GivenAsAsked,
    EventsOfNextStore,
    EventsNotSummed,
    EventsOfRefusedTurnLost,
    EventsOfRefusedStoreLost,
    EventsOfAllCalls,
    EventsOfOtherPlacesLeft,
    NinthWritten,
    StoppedOfNextStore,
    StoppedFromTheLast,
    StoppedWithoutEventsNotMarked,
    StoppedLeftWhereNone,
    DoneMarked,
    MarkedBeforeItIsTried,
    // Stores with W below H + D.
    FourForShort,
    SevenForShort,
    SevenForBoth,
    ZeroTimeoutNotTested,
    ShortSkipped,
    ShortSkippedBesideOthers,
    ShortMarked,
    ShortTurn,
    TimeoutRaised,
    TimeoutOfFirstStore,
}

use Mistake::*;

/// More turns than any call here gives; mistakes that would go on for ever end there.
const ENDLESS: u64 = 100_000;

static MADE: AtomicU64 = AtomicU64::new(0);
/// What wrong dispatchers keep from call to call: where the round was, who was stopped, and all events.
static NEXT: AtomicU64 = AtomicU64::new(0);
static STOPPED: AtomicU64 = AtomicU64::new(0);
static EVENTS: AtomicU64 = AtomicU64::new(0);

/// The call makes this mistake from now on.
pub fn make(mistake: Mistake) {
    [&NEXT, &STOPPED, &EVENTS].into_iter().for_each(|kept| kept.store(0, Relaxed));
    MADE.store(mistake as u64, Relaxed);
}

fn is_made(mistake: Mistake) -> bool {
    MADE.load(Relaxed) == mistake as u64
}

// ---- the refusals

fn bad_part(part: &[u8]) -> bool {
    let most = match MAX_STORES {
        most if is_made(SevenStoresAtMost) => most - 1,
        most if is_made(NineStoresAtMost) => most + 1,
        most => most,
    };
    let above = part.len() > most * STORE_BYTES && !(is_made(LongPartGetsSeven) && part.len() / STORE_BYTES == most);
    part.is_empty() && !is_made(EmptyGetsSeven) && !is_made(EmptyAccepted)
        || above
        || is_made(OddPartGetsFourteen) && part.len() % STORE_BYTES > 0
        || is_made(ShortPartGetsFourteen) && part.len() < STORE_BYTES
}

fn bad_length(length: u64) -> bool {
    let seen = match length {
        length if is_made(LengthOfSixteenBits) => length % (1 << 16),
        length if is_made(LengthOfThirtyTwoBits) => length % (1 << 32),
        length => length,
    };
    match seen {
        0 => !is_made(ZeroTaken),
        MAX_TURN => is_made(ThousandRefused),
        1_001 => !is_made(ThousandAndOneTaken),
        _ => seen > MAX_TURN,
    }
}

/// Whether a store is out of range, as far as the call looks at it.
fn out_of_range(bytes: &[u8]) -> bool {
    let mut seen = bytes.to_vec();
    if is_made(MarksNotTested) {
        forget(&mut seen, layout::MARK, 64);
    }
    if is_made(CarriedNotTested) {
        forget(&mut seen, layout::MESSAGE_LIST, (layout::get(bytes, layout::MESSAGES, 0) as usize).min(MAX_IN_FLIGHT));
    }
    if is_made(ZeroTimeoutNotTested) && layout::get(bytes, layout::TIMEOUT, 0) == 0 {
        layout::put(&mut seen, layout::TIMEOUT, 0, 3);
    }
    !store::check(&seen) || is_made(SevenForShort) && is_short(bytes)
}

/// Whether W is below H + D.
fn is_short(bytes: &[u8]) -> bool {
    last_letter(bytes) == b'F'
}

/// Whether some stores of the part have W below H + D and others have not.
fn has_both(part: &[u8]) -> bool {
    let short = part.chunks_exact(STORE_BYTES).filter(|bytes| is_short(bytes)).count();
    0 < short && short < part.len() / STORE_BYTES
}

/// Puts the first places of a field to zero.
fn forget(bytes: &mut [u8], field: layout::Field, places: usize) {
    (0..places).for_each(|place| layout::put(bytes, field, place, 0));
}

/// Whether number 7 is given before any turn.
fn bad_store(part: &[u8], turns: u64) -> bool {
    let stores = part.len() / STORE_BYTES;
    let tested = |index: usize, bytes: &[u8]| {
        let done = index < stores && layout::get(bytes, layout::NODES, 0) == 1 && layout::get(bytes, layout::CRASHES, 0) == 0;
        !(is_made(NotTestedWithoutTurns) && turns == 0
            || is_made(FirstTestedAlone) && index > 0
            || is_made(LastNotTested) && index + 1 == stores
            || is_made(DoneNotTested) && done
            || is_made(TestedAtItsTurn)
            || is_made(DamagedSkipped))
    };
    let odd = part.len() % STORE_BYTES > 0 && !is_made(EndOfPartNotLookedAt) || part.is_empty() && is_made(EmptyGetsSeven);
    let mixed = is_made(SevenForBoth) && has_both(part);
    odd || mixed || part.chunks_exact(STORE_BYTES).enumerate().any(|(index, bytes)| tested(index, bytes) && out_of_range(bytes))
}

/// The number of the refusal before any turn, 0 where there is none.
fn number(part: &[u8], length: u64, turns: u64) -> u8 {
    let mut tried =
        [(REFUSED_STORES, bad_part(part)), (REFUSED_TURN, bad_length(length)), (REFUSED_STORE, bad_store(part, turns))];
    if is_made(FifteenBeforeFourteen) {
        tried.swap(0, 1);
    }
    if is_made(SevenBeforeFifteen) {
        tried.swap(1, 2);
    }
    if is_made(SevenBeforeFourteen) {
        tried.rotate_right(1);
    }
    match tried.into_iter().find(|(_, bad)| *bad).map_or(0, |(number, _)| number) {
        REFUSED_STORES if is_made(FourteenAndFifteenSwapped) => REFUSED_TURN,
        REFUSED_TURN if is_made(FourteenAndFifteenSwapped) => REFUSED_STORES,
        0 if is_made(FourForShort) && part.chunks_exact(STORE_BYTES).any(is_short) => 4,
        number => number,
    }
}

/// What a refused call leaves behind its pointers.
fn refused(number: u8) -> Answer {
    let mut answer = Answer { number: u64::from(number), ..BEFORE };
    if is_made(GivenOfRefusedCall) {
        answer.given = 0;
    }
    if is_made(EventsOfRefusedCall) {
        answer.events = [0; MAX_STORES];
    }
    if is_made(StoppedOfRefusedCall) {
        answer.stopped = 0;
    }
    answer
}

// ---- the turns

/// A call in the midst of its turns. A store that is out of range, and was not looked at, is none.
struct Turns {
    stores: Vec<Option<Held>>,
    opened: Vec<Option<Held>>,
    length: u64,
    /// The index at which the search for the next store begins.
    next: usize,
    given: u64,
    events: [u64; MAX_STORES],
    stopped: u64,
    /// The stores that got a turn though they were done.
    tried: u64,
    /// Events that the last turn left undone.
    rest: u64,
}

impl Turns {
    fn event_left(&mut self, index: usize) -> bool {
        self.stores[index].as_mut().is_some_and(|held| held.platform.next_event().is_some())
    }

    fn is_stopped(&self, index: usize) -> bool {
        self.stopped >> index & 1 == 1
    }

    fn can_go_on(&mut self, index: usize) -> bool {
        let left = self.event_left(index);
        let untried = !left && self.tried >> index & 1 == 0;
        let held = self.stores[index].as_ref();
        let short = held.is_some_and(|held| held.platform.plan().short_timeout());
        let beside = self.stores.iter().flatten().any(|held| !held.platform.plan().short_timeout());
        let skipped = is_made(ShortSkipped) && short
            || is_made(ShortSkippedBesideOthers) && short && beside
            || is_made(RefusingSkipped) && held.is_some_and(|held| held.platform.clone().run(1).ending == Ending::Refused)
            || is_made(PassedBoundSkipped) && held.is_some_and(|held| !held.platform.next_number_in_range());
        left && !skipped && (!self.is_stopped(index) || is_made(StoppedGoesOn))
            || untried && (is_made(DoneUsesOneTurn) || is_made(FinishedUsesOneTurn) && self.events[index] > 0)
            || !left && is_made(DoneUsesTurn)
            || is_made(TestedAtItsTurn) && self.stores[index].is_none()
    }

    /// The store that gets the next turn.
    fn find(&mut self) -> Option<usize> {
        let count = self.stores.len();
        let from = if is_made(FirstAbleAgain) { 0 } else { self.next };
        let at = |step: usize| if is_made(GoesBackwards) { (from + count - step) % count } else { (from + step) % count };
        let able: Vec<usize> = (0..count).map(at).filter(|index| self.can_go_on(*index)).collect();
        let first = self.next < count && !self.event_left(self.next);
        if is_made(EndsAtDone) && first && !self.is_stopped(self.next) || is_made(EndsWhereStoreCannotGoOn) && first {
            return None;
        }
        if is_made(EndsWhereOneIsLeft) && able.len() == 1 && count > 1 || is_made(OneRoundAlone) && self.given == count as u64 {
            return None;
        }
        able.first().copied()
    }

    fn budget(&self, able: u64) -> u64 {
        match self.length {
            _ if is_made(SameStoreToItsEnd) => u64::MAX,
            length if is_made(LongerTurn) => length + 1,
            length if is_made(ShorterTurn) && length > 1 => length - 1,
            12 if is_made(ElevenForTwelve) => 11,
            length if is_made(TurnIsShared) => (length / able).max(1),
            length if is_made(RestGoesToNext) => length + self.rest,
            length => length,
        }
    }

    /// The turn of a store; number 7 where a mistaken call refuses it only now.
    fn turn(&mut self, index: usize) -> Result<(), u8> {
        let able = (0..self.stores.len()).filter(|index| self.can_go_on(*index)).count() as u64;
        let budget = self.budget(able);
        let Some(held) = &mut self.stores[index] else { return Err(REFUSED_STORE) };
        if is_made(TestedAtEachTurn) && !store::check(&held.encode()) {
            return Err(REFUSED_STORE);
        }
        let short = held.platform.plan().short_timeout();
        let budget = if is_made(ShortTurn) && short && budget > 1 { budget - 1 } else { budget };
        let before = is_made(RefusedTurnTakenBack).then(|| held.clone());
        let Run { ending, events } = held.platform.run(budget);
        let next_refuses = is_made(MarkedBeforeItIsTried) && held.platform.clone().run(1).ending == Ending::Refused;
        let refuses = ending == Ending::Refused;
        self.tried |= u64::from(ending == Ending::Done && events == 0) << index;
        self.rest = budget - events;
        let was_next = std::mem::replace(&mut self.next, index + 1);
        self.next += usize::from(
            is_made(SkipsOneMore) || is_made(SkipsOneMoreAfterDone) && was_next != index || is_made(SkipsOneMoreAfterRefusal) && refuses,
        );
        self.next %= self.stores.len();
        if is_made(StartsAtOneAgain) && index + 1 == self.stores.len() {
            self.next = 1 % self.stores.len();
        }
        self.given += u64::from(!(refuses && (is_made(RefusedNotCounted) || is_made(RefusedWithoutEventsNotCounted) && events == 0)));
        self.events[index] = match self.events[index] {
            _ if refuses && is_made(EventsOfRefusedStoreLost) => 0,
            sum if refuses && is_made(EventsOfRefusedTurnLost) => sum,
            _ if is_made(EventsNotSummed) => events,
            sum => sum + events,
        };
        let marked = refuses && !(is_made(StoppedWithoutEventsNotMarked) && events == 0)
            || (is_made(DoneMarked) || is_made(ShortMarked) && short) && ending == Ending::Done
            || next_refuses;
        self.stopped |= u64::from(marked) << index;
        if refuses && before.is_some() {
            self.stores[index] = before;
        } else if refuses && is_made(RefusedCallTakenBack) {
            self.stores[index] = self.opened[index].clone();
        }
        Ok(())
    }

    fn give(&mut self, turns: u64) -> Result<(), u8> {
        let turns = match turns {
            turns if is_made(LastTurnNotGiven) => turns.saturating_sub(1),
            turns if is_made(OneTurnMore) => turns.saturating_add(u64::from(turns > 0)),
            turns if is_made(TurnsForEachStore) => turns.saturating_mul(self.stores.len() as u64),
            turns if is_made(TurnsOfThirtyTwoBits) => turns & u64::from(u32::MAX),
            turns => turns,
        };
        let mut tried = 0;
        while self.given < turns && tried < ENDLESS {
            let Some(index) = self.find() else { break };
            self.turn(index)?;
            tried += 1;
            if is_made(EndsAtRefusal) && self.stopped > 0 {
                break;
            }
        }
        Ok(())
    }

    /// The eight numbers as they stand behind their pointer after the call.
    fn events(&self) -> [u64; MAX_STORES] {
        let (mut events, stores) = (self.events, self.stores.len());
        if is_made(EventsOfNextStore) {
            events[..stores].rotate_right(1);
        }
        if is_made(EventsOfAllCalls) {
            events[0] += EVENTS.fetch_add(self.events[0], Relaxed);
        }
        if is_made(EventsOfOtherPlacesLeft) {
            events[stores..].copy_from_slice(&BEFORE.events[stores..]);
        }
        events
    }

    fn answer(&self, turns: u64) -> Answer {
        let last = self.stores.len().max(1) - 1;
        let stopped = match self.stopped {
            0 if is_made(StoppedLeftWhereNone) => BEFORE.stopped,
            bits if is_made(StoppedOfNextStore) => bits << 1,
            bits if is_made(StoppedFromTheLast) => (0..=last).fold(0, |all, index| all | (bits >> index & 1) << (last - index)),
            bits => bits,
        };
        let given = if is_made(GivenAsAsked) { turns } else { self.given };
        let around = if is_made(NinthWritten) { [BEFORE.around[0], 0] } else { BEFORE.around };
        Answer { number: 0, given, events: self.events(), stopped, around }
    }
}

fn dispatch(part: &mut [u8], length: u64, turns: u64) -> Answer {
    let number = number(part, length, turns);
    let stores: Vec<Option<Held>> = part.chunks_exact(STORE_BYTES).map(store::decode).collect();
    let runs_first = number == REFUSED_STORE && is_made(StoresBeforeDamagedRun) && turns > 0;
    if let (true, Some(Some(held))) = (runs_first, stores.first()) {
        let mut held = held.clone();
        held.platform.run(length);
        part[place_of(0)].copy_from_slice(&held.encode());
    }
    if number != 0 {
        return refused(number);
    }
    let next = match stores.len().max(1) {
        count if is_made(RoundGoesOnFromLastCall) => NEXT.load(Relaxed) as usize % count,
        count if is_made(StartsAtLastStore) => count - 1,
        _ => 0,
    };
    let stopped = if is_made(StoppedRemembered) { STOPPED.load(Relaxed) } else { 0 };
    let opened = stores.clone();
    let mut call = Turns { stores, opened, length, next, given: 0, events: [0; MAX_STORES], stopped, tried: 0, rest: 0 };
    if let Err(number) = call.give(if length == 0 { 0 } else { turns }) {
        return refused(number);
    }
    NEXT.store(call.next as u64, Relaxed);
    STOPPED.store(call.stopped, Relaxed);
    if is_made(TestedAfterTheCall) && call.stores.iter().flatten().any(|held| !store::check(&held.encode())) {
        return refused(REFUSED_STORE);
    }
    keep(part, &mut call);
    call.answer(turns)
}

/// Puts what the stores hold into the part.
fn keep(part: &mut [u8], call: &mut Turns) {
    let kept = call.stores.len() - usize::from(is_made(LastStoreNotKept) && call.stores.len() > 1);
    for index in 0..kept {
        let Some(held) = &call.stores[index] else { continue };
        let bytes = &mut part[place_of(index)];
        bytes.copy_from_slice(&held.encode());
        if is_made(FinishedMovesTheTick) && call.events[index] > 0 && !call.event_left(index) {
            layout::put(bytes, layout::LAST_TICK, 0, layout::get(bytes, layout::END, 0));
        }
        if is_made(MarksNotKept) {
            forget(bytes, layout::MARK, 64);
        }
        if is_made(CarriedNotKept) {
            forget(bytes, layout::MESSAGE_LIST, MAX_IN_FLIGHT);
        }
        if is_made(TimeoutRaised) && is_short(bytes) {
            layout::put(bytes, layout::TIMEOUT, 0, layout::get(bytes, layout::PERIOD, 0) + layout::get(bytes, layout::LONGEST_DELAY, 0));
        }
        if is_made(TimeoutOfFirstStore) && index > 0 {
            let first = layout::get(&part[place_of(0)], layout::TIMEOUT, 0);
            layout::put(&mut part[place_of(index)], layout::TIMEOUT, 0, first);
        }
    }
}

#[no_mangle]
unsafe extern "C" fn kelbraut_dispatch(
    stores: *mut u8,
    size: usize,
    length: u64,
    turns: u64,
    given: *mut u64,
    events: *mut u64,
    stopped: *mut u64,
) -> u64 {
    let answer = dispatch(from_raw_parts_mut(stores, size), length, turns);
    *given = answer.given;
    from_raw_parts_mut(events, MAX_STORES).copy_from_slice(&answer.events);
    if answer.around != BEFORE.around {
        *events.add(MAX_STORES) = answer.around[1];
    }
    *stopped = answer.stopped;
    answer.number
}
