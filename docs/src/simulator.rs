//! A simulator of document 01, with requests 101 to 104, 106, 107 and 109 of document 02: the ring failure detector, in any order of the
//! ring, and its rehearsal platform.
//!
//! It is a second opinion on the proved platform, written from the papers alone.
//!
//! - `limits`: the papers' figures and refusal numbers.
//! - `fields`: numbers and lists as digits, common to run files and logs.
//! - `plan`: the run file, read and written.
//! - `ring`: the dead list, the ring in any order, going back, forward targets, the forwarding table.
//! - `node`: the rules of one node.
//! - `record`: the node calls of a host.
//! - `queue`: what is pending, in the order of the events.
//! - `platform`: events, step and run.
//! - `settle`: demand 3's words about safety and settling, request 106's about joining and request 107's about lists.
//! - `layout`: where a store has its fields.
//! - `store`: the bytes of a platform, written, read and checked.
//! - `dispatch`: turns of several stores in one part.
//! - `exhaust`: all runs of a small ring.
//! - `ages`: how long ago the last crash can be in each state of that search.
//! - `log`: log lines, written, read and cut into columns.
//! - `recount`: the lines K of a log, counted once more from the log alone.
//! - `joining`: requests 106 and 107 over whole runs.
//! - `falsely`: how many live nodes get listed in a run, as a short time-out may do.
//! - `random`: seeded numbers.
//! - `generator`: run files of a seed, good and damaged.

pub mod ages;
pub mod dispatch;
pub mod exhaust;
pub mod falsely;
pub mod fields;
pub mod generator;
pub mod joining;
pub mod layout;
pub mod limits;
pub mod log;
pub mod node;
pub mod plan;
pub mod platform;
pub mod queue;
pub mod random;
pub mod record;
pub mod recount;
pub mod ring;
pub mod settle;
pub mod store;

#[cfg(test)]
mod tests;
