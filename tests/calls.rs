//! The platform's calls, each in two ways: through the static library, and by the simulator on what a store holds; and the dispatcher's
//! call, with what it answers.
#![allow(dead_code)]

use simulator::layout;
use simulator::limits::*;
use simulator::log;
use simulator::platform::{Ending, Run};
use simulator::store::Held;

/// A call on an opened store.
#[derive(Clone, Copy, PartialEq, Eq, Debug)]
pub enum Call {
    Step,
    Run { budget: u64 },
    Write,
}

/// The number of the refusal, 0 where accepted; then what stands behind the pointers after the call. A call that has fewer pointers, or
/// that is refused, leaves what stood before.
pub type Answer = [u64; 6];

/// What stands behind the pointers before a call, all different.
const BEFORE: [u64; 5] = [
    9_000_000_000_000_000_001,
    9_000_000_000_000_000_002,
    9_000_000_000_000_000_003,
    9_000_000_000_000_000_004,
    9_000_000_000_000_000_005,
];

/// A number, the first numbers behind the pointers, and the others as before.
pub fn answer(number: u8, put: &[u64]) -> Answer {
    let [a, b, c, d, e] = BEFORE;
    let mut answer = [u64::from(number), a, b, c, d, e];
    answer[1..=put.len()].copy_from_slice(put);
    answer
}

pub fn refused(number: u8) -> Answer {
    answer(number, &[])
}

/// What opening answers: the number of the refusal and its line.
pub fn opening(number: u8, line: u64) -> u64 {
    u64::from(number) + 256 * line
}

/// Whether a step that answers this letter is done: E, or F where W is below H + D.
pub fn is_end(letter: u64) -> bool {
    letter == u64::from(b'E') || letter == u64::from(b'F')
}

/// The letter of a store's last line, which goes by its P line alone, whatever else it holds.
pub fn last_letter(store: &[u8]) -> u8 {
    let [period, timeout, delay] = [layout::PERIOD, layout::TIMEOUT, layout::LONGEST_DELAY].map(|field| layout::get(store, field, 0));
    if timeout < period + delay { b'F' } else { b'E' }
}

pub mod dispatcher {
    //! What the dispatcher's call answers.
    use simulator::dispatch::Given;
    use simulator::limits::MAX_STORES;

    /// The number of the refusal, 0 where accepted; then what stands behind the pointers after the call. A refused one leaves what stood
    /// before.
    #[derive(Clone, Copy, PartialEq, Eq, Debug)]
    pub struct Answer {
        pub number: u64,
        pub given: u64,
        pub events: [u64; MAX_STORES],
        /// Bit i stands for store i.
        pub stopped: u64,
        /// The numbers before and after the eight of the events, which no call may touch.
        pub around: [u64; 2],
    }

    /// What stands behind the pointers before a call, all different.
    pub const BEFORE: Answer = {
        const FIRST: u64 = 9_000_000_000_000_000_001;
        let events = [FIRST, FIRST + 1, FIRST + 2, FIRST + 3, FIRST + 4, FIRST + 5, FIRST + 6, FIRST + 7];
        Answer { number: 0, given: FIRST + 8, events, stopped: FIRST + 9, around: [FIRST + 10, FIRST + 11] }
    };

    pub fn refused(number: u8) -> Answer {
        Answer { number: u64::from(number), ..BEFORE }
    }

    pub fn accepted(given: u64, events: [u64; MAX_STORES], stopped: u64) -> Answer {
        Answer { number: 0, given, events, stopped, around: BEFORE.around }
    }

    /// The answer to which the simulator comes.
    pub fn answer_of(given: &Result<Given, u8>) -> Answer {
        let bits = |stopped: &[bool]| (0..stopped.len()).filter(|index| stopped[*index]).fold(0, |bits, index| bits | 1 << index);
        match given {
            Ok(given) => accepted(given.turns.len() as u64, given.events, bits(&given.stopped)),
            Err(number) => refused(*number),
        }
    }
}

pub mod proved {
    //! The calls of the static library. A slice goes over as its address and its length.
    use super::super::common::told;
    use super::{dispatcher, Answer, Call, BEFORE};
    use simulator::limits::MAX_STORES;

    #[cfg_attr(not(mock), link(name = "planner", kind = "static"))]
    extern "C" {
        fn kelbraut_open(file: *const u8, file_size: usize, store: *mut u8, store_size: usize) -> u64;
        fn kelbraut_step(
            store: *mut u8,
            store_size: usize,
            log: *mut u8,
            log_size: usize,
            letter: *mut u64,
            tick: *mut u64,
            node: *mut u64,
            other: *mut u64,
            size: *mut u64,
        ) -> u64;
        fn kelbraut_run(store: *mut u8, store_size: usize, budget: u64, events: *mut u64, spent: *mut u64) -> u64;
        fn kelbraut_write(store: *const u8, store_size: usize, out: *mut u8, out_size: usize, size: *mut u64) -> u64;
        fn kelbraut_dispatch(
            stores: *mut u8,
            stores_size: usize,
            length: u64,
            turns: u64,
            given: *mut u64,
            events: *mut u64,
            stopped: *mut u64,
        ) -> u64;
    }

    pub fn open(file: &[u8], store: &mut [u8]) -> u64 {
        let answer = unsafe { kelbraut_open(file.as_ptr(), file.len(), store.as_mut_ptr(), store.len()) };
        told(answer % 256) + answer / 256 * 256
    }

    pub fn call(call: Call, store: &mut [u8], part: &mut [u8]) -> Answer {
        let (s, s_size, p, p_size) = (store.as_mut_ptr(), store.len(), part.as_mut_ptr(), part.len());
        let [mut a, mut b, mut c, mut d, mut e] = BEFORE;
        let number = unsafe {
            match call {
                Call::Step => kelbraut_step(s, s_size, p, p_size, &mut a, &mut b, &mut c, &mut d, &mut e),
                Call::Run { budget } => kelbraut_run(s, s_size, budget, &mut a, &mut b),
                Call::Write => kelbraut_write(s, s_size, p, p_size, &mut a),
            }
        };
        [told(number), a, b, c, d, e]
    }

    pub fn dispatch(part: &mut [u8], length: u64, turns: u64) -> dispatcher::Answer {
        let dispatcher::Answer { mut given, mut stopped, events, around, .. } = dispatcher::BEFORE;
        let mut numbers = [0; MAX_STORES + 2];
        (numbers[0], numbers[MAX_STORES + 1]) = (around[0], around[1]);
        numbers[1..=MAX_STORES].copy_from_slice(&events);
        let number = unsafe {
            let events = numbers.as_mut_ptr().add(1);
            kelbraut_dispatch(part.as_mut_ptr(), part.len(), length, turns, &mut given, events, &mut stopped)
        };
        let events = std::array::from_fn(|index| numbers[index + 1]);
        dispatcher::Answer { number: told(number), given, events, stopped, around: [numbers[0], numbers[MAX_STORES + 1]] }
    }
}

fn step(held: &mut Held, part: &mut [u8]) -> Answer {
    if part.len() < LOG_BYTES {
        return refused(REFUSED_PART);
    }
    let step = held.platform.step();
    let Some(line) = step.lines().next() else { return refused(REFUSED_EVENT) };
    let size = log::write(step.lines(), part).expect("the part is long enough for the lines of any event");
    answer(0, &[u64::from(line.letter), line.tick, line.node, line.other, size as u64])
}

fn run(held: &mut Held, budget: u64) -> Answer {
    let Run { ending, events } = held.platform.run(budget);
    match ending {
        Ending::Refused => answer(REFUSED_EVENT, &[events]),
        _ => answer(0, &[events, u64::from(ending == Ending::Spent)]),
    }
}

fn write(held: &Held, out: &mut [u8]) -> Answer {
    match held.platform.plan().write(out) {
        Ok(size) => answer(0, &[size as u64]),
        Err(number) => refused(number),
    }
}

/// The call on what a store holds; nothing is held where the store is out of range.
pub fn simulated(call: Call, held: Option<&mut Held>, part: &mut [u8]) -> Answer {
    match (call, held) {
        (_, None) => refused(REFUSED_STORE),
        (Call::Step, Some(held)) => step(held, part),
        (Call::Run { budget }, Some(held)) => run(held, budget),
        (Call::Write, Some(held)) => write(held, part),
    }
}
