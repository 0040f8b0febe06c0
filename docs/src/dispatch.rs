//! The dispatcher of request 104: up to eight rehearsals, whose stores are lent one after another in one part, take turns.
//!
//! `dispatch` is the call on the bytes, with its refusals; `give` gives the turns to what the stores hold, and says to whom each went.

use super::limits::*;
use super::platform::{Ending, Run};
use super::store::{self, Held};
use std::ops::RangeInclusive;

/// Bytes of a part that holds something and not too much.
const PART_BYTES: RangeInclusive<usize> = 1..=MAX_STORES * STORE_BYTES;
/// Events of a turn.
const TURN_LENGTHS: RangeInclusive<u64> = 1..=MAX_TURN;

/// What a call gave.
#[derive(Clone, PartialEq, Eq, Debug)]
pub struct Given {
    /// The index of the store that got each turn, in the order of the turns.
    pub turns: Vec<usize>,
    /// Each store's events, 0 where there is no such store.
    pub events: [u64; MAX_STORES],
    /// Whether each store was stopped by a refusal.
    pub stopped: [bool; MAX_STORES],
}

impl Given {
    /// How many turns a store got.
    pub fn turns_of(&self, index: usize) -> u64 {
        self.turns.iter().filter(|turn| **turn == index).count() as u64
    }

    /// The most turns of others in a row that a store waited: before its first turn, between two of them and, where it can still go on
    /// after the call, after its last. A store that can go on does so until a turn of its own, so it waited in all of these.
    pub fn longest_wait(&self, index: usize, still: bool) -> usize {
        let mut waits: Vec<usize> = self.turns.split(|turn| *turn == index).map(<[usize]>::len).collect();
        if !still {
            waits.pop();
        }
        waits.into_iter().max().unwrap_or(0)
    }

    /// "a store that has an event left and is not stopped by a refusal"
    pub fn can_go_on(&self, stores: &mut [Held], index: usize) -> bool {
        !self.stopped[index] && stores[index].platform.next_event().is_some()
    }
}

/// "A call starts at index 0 and gives a stated number of turns, fewer once no store can go on. Stores go round by index, skipping
/// those that are done. .. A store that refuses by 8 has used its turn, is marked stopped in the answer and is skipped for the rest of
/// the call."
pub fn give(stores: &mut [Held], length: u64, turns: u64) -> Given {
    let mut given = Given { turns: Vec::new(), events: [0; MAX_STORES], stopped: [false; MAX_STORES] };
    for index in (0..stores.len()).cycle() {
        let none_can = !(0..stores.len()).any(|index| given.can_go_on(stores, index));
        if given.turns.len() as u64 == turns || none_can {
            break;
        }
        if given.can_go_on(stores, index) {
            let Run { ending, events } = stores[index].platform.run(length);
            given.turns.push(index);
            given.events[index] += events;
            given.stopped[index] = ending == Ending::Refused;
        }
    }
    given
}

/// The call on the stores of a part. "14, the part empty or above eight stores; 15, turn length outside its range; both before any store
/// is read. Then 7, for a part that isn't whole stores or for any store in it, refuses the whole call." A store is looked at once, at the
/// beginning, so that one whose next message number passes its bound goes on, as it does in a run.
pub fn dispatch(part: &mut [u8], length: u64, turns: u64) -> Result<Given, u8> {
    if !PART_BYTES.contains(&part.len()) {
        return Err(REFUSED_STORES);
    }
    if !TURN_LENGTHS.contains(&length) {
        return Err(REFUSED_TURN);
    }
    let mut stores: Vec<Held> = part.chunks(STORE_BYTES).map(store::decode).collect::<Option<_>>().ok_or(REFUSED_STORE)?;
    let given = give(&mut stores, length, turns);
    for (bytes, held) in part.chunks_mut(STORE_BYTES).zip(&stores) {
        bytes.copy_from_slice(&held.encode());
    }
    Ok(given)
}
