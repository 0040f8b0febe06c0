//! Compares the proved reader and writer of run files with the simulator's, on 01's edges and 02's of a Q line and of a W below H + D, on
//! generated files and on damaged ones: a store is opened from each file, and its run file is written again.
//!
//! Usage: files [SEED [COUNT]]. A difference prints its seed and index and the file, and the program fails.

#[allow(dead_code)]
mod calls;
mod common;

use calls::{answer, proved, refused, Call};
use common::{count, ended, same, seed, shown};
use simulator::generator::{self, USUAL};
use simulator::limits::*;
use simulator::plan;
use simulator::platform::Platform;
use simulator::random::Random;
use simulator::store;
use std::process::ExitCode;
use std::time::Instant;

/// How many files are generated where no count is given.
const COUNT: u64 = 600;
/// How many damaged copies are tried of each generated file.
const COPIES: u64 = 8;
/// What stands in a store and in a part before the call.
const UNTOUCHED: u8 = 0xa5;

/// Number and line of the refusal; 0 and 0 where the file is accepted.
type Opened = (u64, u64);

fn opened(file: &[u8], store: &mut [u8]) -> Opened {
    let answer = proved::open(file, store);
    (answer % 256, answer / 256)
}

fn simulated(file: &[u8]) -> Opened {
    plan::read(file).map_or_else(|refusal| (refusal.number.into(), refusal.line as u64), |_| (0, 0))
}

/// What is lent to the calls, one after another.
struct Lent {
    store: Vec<u8>,
    part: Vec<u8>,
}

fn is_untouched(bytes: &[u8]) -> bool {
    bytes.iter().all(|byte| *byte == UNTOUCHED)
}

impl Lent {
    fn new() -> Lent {
        Lent { store: vec![UNTOUCHED; STORE_BYTES], part: vec![UNTOUCHED; FILE_BYTES + 1] }
    }

    /// Opens the store. A refused file leaves it.
    fn open(&mut self, what: &str, file: &[u8]) -> Result<Opened, String> {
        self.store.fill(UNTOUCHED);
        let answer = opened(file, &mut self.store);
        if answer.0 != 0 && !is_untouched(&self.store) {
            return Err(format!("{what}: refused by {answer:?}, and the store is written"));
        }
        Ok(answer)
    }

    /// Writes the run file of the store that was just opened into a part of this room. An accepted file comes back, whole, and the rest
    /// of the part stays; a refused one left no store, and it and a short part leave the part and the number behind the pointer.
    fn writes(&mut self, what: &str, file: &[u8], room: usize) -> Result<(), String> {
        self.part.fill(UNTOUCHED);
        let (wanted, again) = match (simulated(file), room) {
            ((0, 0), FILE_BYTES..) => (answer(0, &[file.len() as u64]), file),
            ((0, 0), _) => (refused(REFUSED_PART), &[][..]),
            _ => (refused(REFUSED_STORE), &[][..]),
        };
        let answer = proved::call(Call::Write, &mut self.store, &mut self.part[..room]);
        same(&format!("{what}: the writer, lent {room} bytes,"), answer, wanted)?;
        if self.part[..again.len()] != *again || !is_untouched(&self.part[again.len()..]) {
            return Err(format!("{what}: a part of {room} bytes does not hold the file, {} bytes, and then what it held", again.len()));
        }
        Ok(())
    }
}

/// An accepted file comes back from the simulator's writer too, and from its store.
fn comes_back(what: &str, file: &[u8]) -> Result<(), String> {
    let Ok(plan) = plan::read(file) else { return Ok(()) };
    let held = store::decode(&store::encode(&Platform::open(plan.clone())));
    let read_again = held.map(|held| held.platform.plan().clone());
    if plan.bytes() != file || read_again != Some(plan) {
        return Err(format!("{what}: the simulator does not write again {}", shown(file)));
    }
    Ok(())
}

/// Both readers give this answer.
fn edge(lent: &mut Lent, what: &str, file: &[u8], expected: Opened) -> Result<(), String> {
    for (whose, answer) in [("proved", lent.open(what, file)?), ("simulator's", simulated(file))] {
        same(&format!("{what}: the {whose} reader"), answer, expected).map_err(|error| format!("{error} for {}", shown(file)))?;
    }
    comes_back(what, file)?;
    lent.writes(what, file, FILE_BYTES + 1)?;
    lent.writes(what, file, FILE_BYTES - 1)
}

/// Both readers give the same answer.
fn alike(lent: &mut Lent, what: &str, file: &[u8]) -> Result<(), String> {
    let answer = lent.open(what, file)?;
    same(&format!("{what}: the proved reader"), answer, simulated(file)).map_err(|error| format!("{error} for {}", shown(file)))?;
    comes_back(what, file)?;
    lent.writes(what, file, FILE_BYTES)
}

/// A file with `rows` L lines, rising, and `last` after them.
fn with_delays(rows: usize, last: &str) -> Vec<u8> {
    let mut file = String::from("P,2,2,7,5,6\n");
    (0..rows).for_each(|number| file += &format!("L,{number},5\n"));
    file += last;
    file.into_bytes()
}

/// A file of this length, whose lines are good up to the last, which has too many digits.
fn of_length(length: usize) -> Vec<u8> {
    let mut file = b"P,2,2,3,1,6\nC,".to_vec();
    file.resize(length - 3, b'9');
    file.extend_from_slice(b",1\n");
    file
}

/// 01's edges on run files, those with no star among them.
fn edges(lent: &mut Lent) -> Result<(), String> {
    let cases: [(&str, Opened); 42] = [
        ("", (1, 0)),
        ("P,2,2,3,1,6\nC,3,1\n", (0, 0)),
        ("P,1,1,2,1,5\n", (0, 0)),
        ("P,02,2,3,1,6\n", (2, 1)),
        ("P,2,2,3,1,06\n", (2, 1)),
        ("P,0,2,3,1,06\n", (2, 1)),
        ("P,2,2,3,1,\n", (2, 1)),
        ("P,2,2,3,1,6", (2, 1)),
        ("P,2,2,3,1,6\r\n", (2, 1)),
        ("P,2,2,3,1\n", (2, 1)),
        ("P,2,2,3,1,6,7\n", (2, 1)),
        ("P,2,2,+3,1,6\n", (2, 1)),
        ("P, 2,2,3,1,6\n", (2, 1)),
        ("p,2,2,3,1,6\n", (2, 1)),
        ("C,3,1\n", (2, 1)),
        ("L,0,1\n", (2, 1)),
        ("\n", (2, 1)),
        ("P,2,2,3,1,6\n\n", (2, 2)),
        ("P,2,2,3,1,6\nP,2,2,3,1,6\n", (2, 2)),
        ("P,2,2,3,1,6\nC,3,1", (2, 2)),
        ("P,2,2,3,1,6\nC,9,9", (2, 2)),
        ("P,2,2,3,1,6\nL,0,1\nC,3,1\n", (2, 3)),
        ("P,2,2,3,1,6\nL,0,1\nC,9,9\n", (2, 3)),
        ("P,0,2,3,1,6\n", (3, 1)),
        ("P,65,2,3,1,6\n", (3, 1)),
        ("P,64,1000,65535,255,1000000\n", (0, 0)),
        ("P,64,1001,65535,255,1000000\n", (3, 1)),
        ("P,64,1000,65536,255,1000000\n", (3, 1)),
        ("P,64,1000,65535,256,1000000\n", (3, 1)),
        ("P,64,1000,65535,255,1000001\n", (3, 1)),
        ("P,99999999999999999999,2,3,1,6\n", (3, 1)),
        ("P,2,2,3,1,6\nC,7,1\n", (3, 2)),
        ("P,2,2,3,1,6\nC,3,1\nC,2,9\n", (3, 3)),
        ("P,2,2,3,1,6\nC,3,1\nC,3,1\n", (5, 3)),
        ("P,2,2,3,1,6\nC,3,1\nC,3,0\n", (5, 3)),
        ("P,2,2,3,1,6\nC,3,1\nC,4,1\n", (5, 3)),
        ("P,2,2,7,5,6\nL,0,5\n", (0, 0)),
        ("P,2,2,7,5,6\nL,0,0\n", (3, 2)),
        ("P,2,2,7,5,6\nL,0,6\n", (3, 2)),
        ("P,2,2,7,5,6\nL,999999,5\n", (0, 0)),
        ("P,2,2,7,5,6\nL,1000000,5\n", (3, 2)),
        ("P,2,2,7,5,6\nL,7,5\nL,7,5\n", (5, 3)),
    ];
    for (file, expected) in cases {
        edge(lent, "edge", file.as_bytes(), expected)?;
    }
    let next = MAX_DELAY_ROWS as u64 + 2;
    edge(lent, "2,048 L lines", &with_delays(MAX_DELAY_ROWS, ""), (0, 0))?;
    edge(lent, "2,049 L lines", &with_delays(MAX_DELAY_ROWS, "L,2048,5\n"), (6, next))?;
    edge(lent, "2,049th of bad form", &with_delays(MAX_DELAY_ROWS, "L,2048,5"), (2, next))?;
    edge(lent, "2,049th out of range", &with_delays(MAX_DELAY_ROWS, "L,2048,6\n"), (3, next))?;
    edge(lent, "2,049th not rising", &with_delays(MAX_DELAY_ROWS, "L,2047,5\n"), (5, next))?;
    edge(lent, "65,536 bytes", &of_length(FILE_BYTES), (3, 2))?;
    edge(lent, "65,537 bytes", &of_length(FILE_BYTES + 1), (1, 0))
}

/// 02's edges on W: any from 1 to 65,535 passes, whatever H and D. What else is wrong of a file with W below H + D gets its own number.
fn timeout_edges(lent: &mut Lent) -> Result<(), String> {
    let cases: [(&str, Opened); 16] = [
        ("P,2,2,2,1,6\n", (0, 0)),
        ("P,2,2,1,1,6\nC,3,1\n", (0, 0)),
        ("P,2,2,2,1,6\nQ,1,0\nC,3,1\nL,0,1\n", (0, 0)),
        ("P,1,1,1,1,5\n", (0, 0)),
        ("P,2,2,2,1,6", (2, 1)),
        ("P,2,2,02,1,6\n", (2, 1)),
        ("P,2,2,,1,6\n", (2, 1)),
        ("P,2,2,-1,1,6\n", (2, 1)),
        ("P,2,2,2,1,1000001\n", (3, 1)),
        ("P,2,1001,2,1,6\n", (3, 1)),
        ("P,2,2,2,256,6\n", (3, 1)),
        ("P,2,2,2,1,6\nZ\n", (2, 2)),
        ("P,2,2,2,1,6\nC,7,1\n", (3, 2)),
        ("P,2,2,2,1,6\nL,0,2\n", (3, 2)),
        ("P,2,2,2,1,6\nC,3,1\nC,3,0\n", (5, 3)),
        ("P,2,2,2,1,6\nC,3,1\nC,4,1\n", (5, 3)),
    ];
    for (file, expected) in cases {
        edge(lent, "edge", file.as_bytes(), expected)?;
    }
    for (period, delay) in [(1, 1), (2, 1), (1, 2), (40, 60), (1_000, 1), (1, 255), (1_000, 255)] {
        let enough = period + delay;
        for timeout in [0, 1, 2, period, delay, enough - 1, enough, enough + 1, 256, 65_534, 65_535, 65_536, 65_537, 1 << 32] {
            let expected = if (1..=MAX_TIMEOUT).contains(&timeout) { (0, 0) } else { (3, 1) };
            edge(lent, "a time-out", format!("P,5,{period},{timeout},{delay},60\nC,5,3\n").as_bytes(), expected)?;
        }
    }
    let many = with_delays(MAX_DELAY_ROWS, "L,2048,5\n");
    let short = String::from_utf8_lossy(&many).replacen("P,2,2,7,", "P,2,2,6,", 1);
    edge(lent, "2,049 L lines with a short W", short.as_bytes(), (6, MAX_DELAY_ROWS as u64 + 2))
}

/// 02's edges on the Q line: its place, its form, then its range, then each node once.
fn order_edges(lent: &mut Lent) -> Result<(), String> {
    let three: [(&str, Opened); 46] = [
        ("Q,0,1,2\n", (0, 0)),
        ("Q,2,0,1\n", (0, 0)),
        ("Q,2,1,0\nC,3,1\nL,0,1\n", (0, 0)),
        ("Q,2,1,0\nL,0,1\n", (0, 0)),
        ("Q\n", (2, 2)),
        ("Q,\n", (2, 2)),
        ("Q,0\n", (2, 2)),
        ("Q,0,1\n", (2, 2)),
        ("Q,0,1,2,\n", (2, 2)),
        ("Q,0,1,2,0\n", (2, 2)),
        ("Q,0,1,2,3\n", (2, 2)),
        ("Q,,0,1,2\n", (2, 2)),
        ("Q,0,,2\n", (2, 2)),
        ("Q,0,1,\n", (2, 2)),
        ("Q,0,01,2\n", (2, 2)),
        ("Q,00,1,2\n", (2, 2)),
        ("Q,0,1, 2\n", (2, 2)),
        ("Q,0,1,2 \n", (2, 2)),
        ("Q,0,1,+2\n", (2, 2)),
        ("Q,0,1,-2\n", (2, 2)),
        ("Q,0,1,x\n", (2, 2)),
        ("Q,0,1,2\r\n", (2, 2)),
        ("Q,0,1,2", (2, 2)),
        ("q,0,1,2\n", (2, 2)),
        ("QQ,0,1,2\n", (2, 2)),
        ("Q,3,1\n", (2, 2)),
        ("Q,0,0\n", (2, 2)),
        ("Q,3,3,03\n", (2, 2)),
        ("Q,0,0,2", (2, 2)),
        ("Q,0,1,3\n", (3, 2)),
        ("Q,64,1,2\n", (3, 2)),
        ("Q,256,1,2\n", (3, 2)),
        ("Q,0,1,18446744073709551618\n", (3, 2)),
        ("Q,0,0,3\n", (3, 2)),
        ("Q,3,3,3\n", (3, 2)),
        ("Q,0,0,1\n", (13, 2)),
        ("Q,2,1,2\n", (13, 2)),
        ("Q,1,1,1\nZ\n", (13, 2)),
        ("Q,2,1,0\nQ,2,1,0\n", (2, 3)),
        ("Q,2,1,0\nQ,3,3,3\n", (2, 3)),
        ("Q,2,1,0\nP,3,2,3,1,6\n", (2, 3)),
        ("Q,2,1,0\nC,3,3\n", (3, 3)),
        ("C,3,1\nQ,2,1,0\n", (2, 3)),
        ("C,3,1\nQ,2,2,0\n", (2, 3)),
        ("L,0,1\nQ,2,1,0\n", (2, 3)),
        ("\nQ,2,1,0\n", (2, 2)),
    ];
    for (lines, expected) in three {
        edge(lent, "edge", format!("P,3,2,3,1,6\n{lines}").as_bytes(), expected)?;
    }
    let others: [(&str, Opened); 7] = [
        ("Q,0,1,2\nP,3,2,3,1,6\n", (2, 1)),
        ("P,3,2,2,1,6\nQ,1,1,1\n", (13, 2)),
        ("P,1,1,2,1,5\nQ,0\n", (0, 0)),
        ("P,1,1,2,1,5\nQ,0\nQ,0\n", (2, 3)),
        ("P,1,1,2,1,5\nQ,1\n", (3, 2)),
        ("P,1,1,2,1,5\nQ\n", (2, 2)),
        ("P,1,1,2,1,5\nQ,0,0\n", (2, 2)),
    ];
    for (file, expected) in others {
        edge(lent, "edge", file.as_bytes(), expected)?;
    }
    let numbers = |last: u64| (0..=last).rev().map(|node| format!(",{node}")).collect::<String>();
    for (nodes, last, expected) in [(64, 63, (0, 0)), (64, 62, (2, 2)), (64, 64, (2, 2)), (63, 63, (2, 2)), (63, 62, (0, 0)), (10, 9, (0, 0))] {
        let file = format!("P,{nodes},2,3,1,6\nQ{}\nC,3,1\n", numbers(last));
        edge(lent, &format!("{nodes} nodes and {} numbers", last + 1), file.as_bytes(), expected)?;
    }
    let twice = format!("P,64,2,3,1,6\nQ{}\n", numbers(63).replace(",40,", ",41,"));
    edge(lent, "64 numbers, one of them twice", twice.as_bytes(), (13, 2))
}

/// A copy with one to three bytes changed, put in or taken out, or with a line put in twice or taken out.
fn damaged(file: &[u8], random: &mut Random) -> Vec<u8> {
    let mut copy = file.to_vec();
    for _ in 0..random.range(1, 3) {
        if copy.is_empty() {
            return copy;
        }
        let at = random.range(0, copy.len() as u64 - 1) as usize;
        let byte = random.pick(b"0123456789,\nPCLQ\r -");
        let mut lines: Vec<Vec<u8>> = copy.split_inclusive(|b| *b == b'\n').map(<[u8]>::to_vec).collect();
        let (one, other) = (random.range(0, lines.len() as u64 - 1) as usize, random.range(0, lines.len() as u64 - 1) as usize);
        match random.range(0, 5) {
            0 => copy[at] = byte,
            1 => copy.insert(at, byte),
            2 => drop(copy.remove(at)),
            kind => {
                match kind {
                    3 => lines.swap(one, other),
                    4 => lines.insert(one, lines[other].clone()),
                    _ => drop(lines.remove(one)),
                }
                copy = lines.concat();
            }
        }
    }
    copy
}

/// Files that were accepted, and those of them with W below H + D.
#[derive(Default)]
struct Seen {
    accepted: u64,
    short: u64,
}

impl Seen {
    fn count(&mut self, file: &[u8]) {
        if let Ok(plan) = plan::read(file) {
            self.accepted += 1;
            self.short += u64::from(plan.timeout < plan.period + plan.delay);
        }
    }
}

/// Of all accepted files a fifth at least has W below H + D.
fn generated(lent: &mut Lent, seed: u64, count: u64) -> Result<Seen, String> {
    let mut seen = Seen::default();
    for index in 0..count {
        let file = generator::file(seed, index, USUAL);
        let mut random = Random::new(seed, index);
        let copies = (0..COPIES).map(|copy| (format!(" copy {copy}"), damaged(&file, &mut random)));
        for (which, file) in [(String::new(), file.clone())].into_iter().chain(copies) {
            alike(lent, &format!("seed {seed} index {index}{which}"), &file)?;
            seen.count(&file);
        }
    }
    if count >= COUNT && seen.short * 5 < seen.accepted {
        return Err(format!("{} of {} accepted files have a W below H + D", seen.short, seen.accepted));
    }
    Ok(seen)
}

/// How long opening takes for a file with as many lines as there can be: the fastest of some rounds.
fn speed(lent: &mut Lent) {
    let mut file = String::from("P,64,1000,65535,255,1000000\nQ");
    (0..64).for_each(|place| file += &format!(",{}", place * 27 % 64));
    file += "\n";
    (0..64).for_each(|node| file += &format!("C,1000000,{node}\n"));
    (0..MAX_DELAY_ROWS).for_each(|row| file += &format!("L,{},255\n", 900_000 + row));
    let fastest = (0..200).map(|_| {
        let began = Instant::now();
        assert_eq!(opened(file.as_bytes(), &mut lent.store), (0, 0));
        began.elapsed()
    });
    println!("files: a store is opened from {} bytes in {:?}", file.len(), fastest.min().expect("a round"));
}

fn main() -> ExitCode {
    let (seed, count) = (seed(), count(COUNT));
    println!("files: seed {seed}, {count} generated files");
    let mut lent = Lent::new();
    let edges = edges(&mut lent).and_then(|()| timeout_edges(&mut lent)).and_then(|()| order_edges(&mut lent));
    let compared = edges.and_then(|()| generated(&mut lent, seed, count));
    if let Ok(Seen { accepted, short }) = &compared {
        println!("files: {accepted} generated files and damaged copies are accepted, {short} of them with W below H + D");
        speed(&mut lent);
    }
    ended("files", compared.map(|_| "passed".to_string()))
}
