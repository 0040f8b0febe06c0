//! What the programs that compare have in common: their words, how two answers are held against each other, and how they end.
#![allow(dead_code)]

use std::fmt::Debug;
use std::process::ExitCode;
use std::sync::atomic::{AtomicU64, Ordering::Relaxed};

/// The seed where none is given.
const SEED: u64 = 20_261_115;

/// The first word of the program, or the usual seed.
pub fn seed() -> u64 {
    word(1).unwrap_or(SEED)
}

/// The second word of the program, or this count.
pub fn count(usual: u64) -> u64 {
    word(2).unwrap_or(usual)
}

fn word(place: usize) -> Option<u64> {
    std::env::args().nth(place).map(|word| word.parse().expect("SEED and COUNT are numbers"))
}

pub fn same<T: PartialEq + Debug>(what: &str, answer: T, wanted: T) -> Result<(), String> {
    if answer == wanted {
        return Ok(());
    }
    Err(format!("{what} answers {answer:?}, not {wanted:?}"))
}

/// The number that no call answers, whatever is lent to it.
const NEVER: u64 = 4;

/// How often a call has answered that number.
static GIVEN: AtomicU64 = AtomicU64::new(0);

/// The number that a call of the library answers. Every call that these programs make is told here, also one that is compared with nothing.
pub fn told(number: u64) -> u64 {
    GIVEN.fetch_add(u64::from(number == NEVER), Relaxed);
    number
}

/// No call has answered that number since this was asked last.
pub fn never_given() -> Result<(), String> {
    match GIVEN.swap(0, Relaxed) {
        0 => Ok(()),
        calls => Err(format!("{calls} calls answer {NEVER}, which no call does")),
    }
}

/// How a mistake that was planted is found: the first line of the difference, or that a call answers the number of none. Nothing where it is
/// not.
pub fn found<T>(compared: Result<T, String>) -> Option<String> {
    let given = never_given();
    let error = compared.err().or(given.err())?;
    Some(error.lines().next().unwrap_or("").to_string())
}

/// A run file's length and start.
pub fn shown(file: &[u8]) -> String {
    let start = String::from_utf8_lossy(&file[..file.len().min(400)]).into_owned();
    format!("the file, {} bytes:\n{}", file.len(), start.trim_end())
}

/// Ends a program: its last line says what agrees; where there is a difference it is told, and the program fails.
pub fn ended(name: &str, compared: Result<String, String>) -> ExitCode {
    match compared.and_then(|words| never_given().map(|()| words)) {
        Ok(words) => {
            println!("{name}: {words}");
            ExitCode::SUCCESS
        }
        Err(difference) => {
            eprintln!("{name}: {difference}");
            ExitCode::FAILURE
        }
    }
}
