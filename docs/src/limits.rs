//! The figures of documents 01 and 02, each named once, and the numbers by which a call is turned down.

/// N is 1 to this.
pub const MAX_NODES: u64 = 64;
/// Longest accepted run file, in bytes; also the length of the part that a run file is written to.
pub const FILE_BYTES: usize = 65_536;
/// A store's length.
pub const STORE_BYTES: usize = 65_536;
/// Most messages in flight after an event.
pub const MAX_IN_FLIGHT: usize = 2_048;
/// Most L lines of a run file.
pub const MAX_DELAY_ROWS: usize = 2_048;
/// Heartbeat period H is 1 to this, in ticks.
pub const MAX_PERIOD: u64 = 1_000;
/// Time-out W is 1 to this, in ticks.
pub const MAX_TIMEOUT: u64 = 65_535;
/// Delay bound D is 1 to this, in ticks.
pub const MAX_DELAY: u64 = 255;
/// The end tick is 0 to this; a log line's tick as well.
pub const MAX_TICK: u64 = 1_000_000;
/// The number of an L line is 0 to this.
pub const MAX_DELAY_NUMBER: u64 = 999_999;
/// The next message number is at most this in a store.
pub const MAX_NEXT_NUMBER: u64 = 4_000_000_000_000;
/// Most stores of the dispatcher's part.
pub const MAX_STORES: usize = 8;
/// The dispatcher's turns have 1 to this many events.
pub const MAX_TURN: u64 = 1_000;
/// Shortest log part, in bytes: it takes the two lines of an event that moves the emitter.
pub const LOG_BYTES: usize = 80;
/// Shortest part that takes a node call's messages, in bytes: seven places of 16.
pub const MESSAGE_BYTES: usize = 112;
/// Columns of a log line.
pub const COLUMNS: usize = 5;
/// Hexadecimal digits of a list.
pub const LIST_DIGITS: usize = 16;
/// Most forward targets: the powers of two below 64.
pub const MAX_TARGETS: usize = 6;
/// Most messages that one rule sends: O, then R to each target.
pub const MAX_SENDS: usize = MAX_TARGETS + 1;
/// Stands in the forwarding table where there is no target.
pub const NO_TARGET: u8 = 255;

/// Run file of 0 bytes, or longer than `FILE_BYTES`.
pub const REFUSED_LENGTH: u8 = 1;
/// Letter, field count, digits, line feed or order of letters.
pub const REFUSED_FORM: u8 = 2;
/// A number outside its range, or a node not below N.
pub const REFUSED_RANGE: u8 = 3;
/// W below H + D. It is given no longer, for no file.
pub const REFUSED_TIMEOUT: u8 = 4;
/// C or L lines that do not rise, or a node twice.
pub const REFUSED_ORDER: u8 = 5;
/// One L line more than `MAX_DELAY_ROWS`.
pub const REFUSED_ROWS: u8 = 6;
/// A store of another length, with a field out of range, or with an unused byte that is not zero.
pub const REFUSED_STORE: u8 = 7;
/// An event that would leave more than `MAX_IN_FLIGHT` messages in flight.
pub const REFUSED_EVENT: u8 = 8;
/// A lent part that is too short.
pub const REFUSED_PART: u8 = 9;
/// A node call's message: unknown kind, or a sender, subject or list that it may not have.
pub const REFUSED_MESSAGE: u8 = 11;
/// A node call's tick before the record's last tick, or above `MAX_TICK`.
pub const REFUSED_TICK: u8 = 12;
/// A Q line that does not have each node once.
pub const REFUSED_RING: u8 = 13;
/// The dispatcher's part of 0 bytes, or longer than `MAX_STORES` stores.
pub const REFUSED_STORES: u8 = 14;
/// The dispatcher's turn length outside 1 to `MAX_TURN`.
pub const REFUSED_TURN: u8 = 15;
