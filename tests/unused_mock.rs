//! The calls over the simulator and its store, with one mistake at a time about unused bytes: what tests/unused.rs has to find.

use super::calls::{dispatcher, last_letter, simulated, Answer, Call};
use simulator::dispatch::dispatch;
use simulator::layout::Counts;
use simulator::limits::*;
use simulator::store;
use std::borrow::Cow;
use std::cell::Cell;
use std::ops::Range;
use std::slice::from_raw_parts_mut;

/// Who makes a call.
#[derive(Clone, Copy, PartialEq, Eq, Debug)]
pub enum Caller {
    Step,
    Run,
    Write,
    Dispatch,
}

const CALLERS: [Caller; 4] = [Caller::Step, Caller::Run, Caller::Write, Caller::Dispatch];

/// A part is what is unused of one column, or spare bytes side by side. Its rounds are its eights from the start, its rest the bytes after
/// them.
#[derive(Clone, Copy, PartialEq, Eq, Debug)]
pub enum Mistake {
    Nothing,
    // Not looked at: one of the eight of every round, one of the rest.
    OfRound(usize),
    OfRest(usize),
    // The first and the last round, the whole rest, the first and the last byte, of every part.
    FirstRound,
    LastRound,
    Rest,
    FirstByte,
    LastByte,
    // A part, by its place in the layout; a byte of the store.
    Part(usize),
    Byte(usize),
    // A value, taken for zero.
    Value(u8),
    // Any byte, in one of the calls.
    NotBy(Caller),
    // The last round goes on after the part's end.
    PastTheEnd,
    // One of the calls answers 7, and puts the byte to zero, or writes to its part, or a number behind its last pointer.
    PutToZero(Caller),
    PartWritten(Caller),
    NumberWritten(Caller),
    // Any byte, in stores whose last line has this letter; one of the calls answers 4 for 7; a store with W below H + D is refused as it is.
    OfLetter(u8),
    Four(Caller),
    ShortRefused,
}

use Mistake::*;

/// The parts of the layout that are unused in some store: all but those of the head's twelve numbers.
const PARTS: Range<usize> = 12..32;

static ZEROS: [u8; STORE_BYTES] = [0; STORE_BYTES];

pub fn mistakes() -> Vec<Mistake> {
    let alone = [FirstRound, LastRound, Rest, FirstByte, LastByte, Byte(29), Byte(STORE_BYTES - 1), Value(1), Value(255), PastTheEnd];
    let by_place = (0..8).map(OfRound).chain((0..7).map(OfRest)).chain(PARTS.map(Part));
    let by_caller = CALLERS.into_iter().flat_map(|caller| [NotBy(caller), PutToZero(caller), NumberWritten(caller), Four(caller)]);
    let others = [PartWritten(Caller::Step), PartWritten(Caller::Write), OfLetter(b'E'), OfLetter(b'F'), ShortRefused];
    alone.into_iter().chain(by_place).chain(by_caller).chain(others).collect()
}

thread_local!(static MADE: Cell<Mistake> = const { Cell::new(Nothing) });

/// The calls make this mistake from now on.
pub fn make(mistake: Mistake) {
    MADE.set(mistake);
}

/// Whether a call passes over a byte of a store with this last letter: the byte `at` of so many of a part.
fn is_missed(caller: Caller, letter: u8, part: usize, size: usize, at: usize, place: usize, value: u8) -> bool {
    let rounds = size / 8 * 8;
    match MADE.get() {
        OfRound(byte) => at < rounds && at % 8 == byte,
        OfRest(byte) => at == rounds + byte,
        FirstRound => at < rounds.min(8),
        LastRound => at < rounds && at + 8 >= rounds,
        Rest => at >= rounds,
        FirstByte => at == 0,
        LastByte => at + 1 == size,
        Part(missed) => part == missed,
        Byte(missed) => place == missed,
        Value(missed) => value == missed,
        NotBy(missing) => caller == missing,
        OfLetter(missed) => letter == missed,
        _ => false,
    }
}

/// The store as a call sees it: what it passes over is zero. Nothing where it looks too far.
fn seen(caller: Caller, bytes: &[u8]) -> Option<Cow<'_, [u8]>> {
    let mut seen = Cow::Borrowed(bytes);
    let letter = last_letter(bytes);
    if MADE.get() == ShortRefused && letter == b'F' {
        return None;
    }
    for (part, range) in Counts::read(bytes)?.unused().enumerate() {
        let (start, size) = (range.start, range.len());
        let past = range.end..(start + size.next_multiple_of(8)).min(STORE_BYTES);
        if MADE.get() == PastTheEnd && bytes[past].iter().any(|byte| *byte != 0) {
            return None;
        }
        if bytes[range.clone()] != ZEROS[range.clone()] {
            for place in range.filter(|place| bytes[*place] != 0 && is_missed(caller, letter, part, size, place - start, *place, bytes[*place])) {
                seen.to_mut()[place] = 0;
            }
        }
    }
    Some(seen)
}

/// What a call does wrong beside its refusal by 7: `number` is that of the refusal, `last` what stands behind its last pointer.
fn spoil(caller: Caller, store: &mut [u8], part: &mut [u8], number: &mut u64, last: &mut u64) {
    match MADE.get() {
        Four(by) if by == caller => *number = 4,
        PutToZero(by) if by == caller => {
            let places: Vec<usize> = Counts::read(store).into_iter().flat_map(|counts| counts.unused()).flatten().collect();
            places.into_iter().for_each(|place| store[place] = 0);
        }
        PartWritten(by) if by == caller => part[part.len() - 1] = 0,
        NumberWritten(by) if by == caller => *last = 0,
        _ => {}
    }
}

fn call(caller: Caller, call: Call, store: &mut [u8], part: &mut [u8], pointers: usize) -> Answer {
    let mut held = seen(caller, store).and_then(|seen| store::decode(&seen));
    let mut answer = simulated(call, held.as_mut(), part);
    match held {
        Some(held) if call != Call::Write => store.copy_from_slice(&held.encode()),
        Some(_) => {}
        None => {
            let (number, last) = answer.split_at_mut(1);
            spoil(caller, store, part, &mut number[0], &mut last[pointers - 1]);
        }
    }
    answer
}

fn turns(part: &mut [u8], length: u64, turns: u64) -> dispatcher::Answer {
    let in_range = seen(Caller::Dispatch, part).filter(|seen| store::check(seen)).map(Cow::into_owned);
    if let Some(mut seen) = in_range {
        let given = dispatch(&mut seen, length, turns);
        part.copy_from_slice(&seen);
        return dispatcher::answer_of(&given);
    }
    let mut answer = dispatcher::refused(REFUSED_STORE);
    spoil(Caller::Dispatch, part, &mut [], &mut answer.number, &mut answer.stopped);
    answer
}

/// Puts the numbers behind their pointers, and answers the first.
unsafe fn answered(answer: Answer, pointers: &[*mut u64]) -> u64 {
    for (place, pointer) in pointers.iter().enumerate() {
        **pointer = answer[place + 1];
    }
    answer[0]
}

#[no_mangle]
unsafe extern "C" fn kelbraut_step(
    store: *mut u8,
    size: usize,
    log: *mut u8,
    room: usize,
    letter: *mut u64,
    tick: *mut u64,
    node: *mut u64,
    other: *mut u64,
    length: *mut u64,
) -> u64 {
    let answer = call(Caller::Step, Call::Step, from_raw_parts_mut(store, size), from_raw_parts_mut(log, room), 5);
    answered(answer, &[letter, tick, node, other, length])
}

#[no_mangle]
unsafe extern "C" fn kelbraut_run(store: *mut u8, size: usize, budget: u64, events: *mut u64, spent: *mut u64) -> u64 {
    answered(call(Caller::Run, Call::Run { budget }, from_raw_parts_mut(store, size), &mut [], 2), &[events, spent])
}

#[no_mangle]
unsafe extern "C" fn kelbraut_write(store: *mut u8, size: usize, out: *mut u8, room: usize, length: *mut u64) -> u64 {
    answered(call(Caller::Write, Call::Write, from_raw_parts_mut(store, size), from_raw_parts_mut(out, room), 1), &[length])
}

#[no_mangle]
unsafe extern "C" fn kelbraut_dispatch(
    stores: *mut u8,
    size: usize,
    length: u64,
    count: u64,
    given: *mut u64,
    events: *mut u64,
    stopped: *mut u64,
) -> u64 {
    let answer = turns(from_raw_parts_mut(stores, size), length, count);
    (*given, *stopped) = (answer.given, answer.stopped);
    from_raw_parts_mut(events, MAX_STORES).copy_from_slice(&answer.events);
    answer.number
}
