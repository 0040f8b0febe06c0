//! Compares the proved log reader, columns and writer with the simulator's on seeded lines: good
//! ones, ones with a field at or beyond a bound, damaged ones and random bytes. F is also held against E: with the one letter in
//! place of the other all three answer the same but for that letter.
//!
//! Usage: `lines [SEED [COUNT]]`. Prints the seed; at a difference prints the case and exits by 1.
//!
//! Built with `--cfg mock`, it tests itself: the three calls are then those of lines_mock.rs, which make one mistake after another, and
//! each mistake has to be found.

mod common;
#[cfg(mock)]
mod lines_mock;

#[cfg(mock)]
use common::found;
use common::{count, ended, same, seed};
use simulator::log::{self, Line};
use simulator::random::Random;
use std::process::ExitCode;

mod proved {
    //! The calls of the static library. A slice goes over as its address and its length.
    use super::common::told;

    #[cfg_attr(not(mock), link(name = "lines", kind = "static"))]
    extern "C" {
        fn kelbraut_line_read(line: *const u8, length: usize, numbers: *mut u8, room: usize) -> u64;
        fn kelbraut_line_column(line: *const u8, length: usize, column: u64, out: *mut u8, room: usize) -> u64;
        fn kelbraut_line_write(
            letter: u64,
            tick: u64,
            node: u64,
            other: u64,
            list: u64,
            out: *mut u8,
            room: usize,
        ) -> u64;
    }

    pub fn read(line: &[u8], numbers: &mut [u8]) -> u64 {
        told(unsafe { kelbraut_line_read(line.as_ptr(), line.len(), numbers.as_mut_ptr(), numbers.len()) })
    }

    pub fn column(line: &[u8], column: u64, out: &mut [u8]) -> u64 {
        unsafe { kelbraut_line_column(line.as_ptr(), line.len(), column, out.as_mut_ptr(), out.len()) }
    }

    pub fn write(numbers: [u64; 5], out: &mut [u8]) -> u64 {
        let [letter, tick, node, other, list] = numbers;
        told(unsafe { kelbraut_line_write(letter, tick, node, other, list, out.as_mut_ptr(), out.len()) })
    }
}

/// How many lines are tried where no count is given.
const COUNT: u64 = 200_000;
const LETTERS: &[u8] = b"CHORXWSKEF";
/// The letters of a last line.
const LAST: &[u8] = b"EF";

/// A number near a bound of some column, or any.
fn number(random: &mut Random) -> u64 {
    match random.below(4) {
        0 => random.below(64),
        1 => random.pick(&[0, 1, 9, 10, 62, 63, 64, 65, 2_047, 2_048, 2_049, 999_999, 1_000_000, 1_000_001]),
        2 => random.pick(&[9_999_999, 10_000_000, 10_000_001, u32::MAX as u64, u64::MAX - 1, u64::MAX]),
        _ => random.draw() >> random.below(64),
    }
}

/// The numbers of a line: mostly within the ranges of its letter.
fn numbers(random: &mut Random) -> [u64; 5] {
    let letter = match random.below(8) {
        0 => random.below(256),
        1 => random.pick(&[256 + 67, 256 + 69, 256 + 70, 256 + 75, u64::MAX, 1 << 32 | 70, 1 << 32]),
        2 => u64::from(random.pick(LAST)),
        _ => u64::from(random.pick(LETTERS)),
    };
    let list = random.draw() << random.below(64);
    let mut columns = [random.below(1_000_001), random.below(64), random.below(64)];
    if LAST.iter().any(|last| u64::from(*last) == letter) {
        columns = [random.below(1_000_001), random.below(65), random.below(2_049)];
    }
    if random.below(3) == 0 {
        columns[random.below(3) as usize] = number(random);
    }
    [letter, columns[0], columns[1], columns[2], list]
}

/// A line's bytes, from its numbers, with no check.
fn text(numbers: [u64; 5]) -> Vec<u8> {
    let [letter, tick, node, other, list] = numbers;
    let mut bytes = vec![letter as u8];
    bytes.extend(format!(",{tick},{node},{other},{list:016x}\n").into_bytes());
    bytes
}

/// One change to a line: a byte altered, put in, taken out or moved, digits added, a column too
/// many or too few, the line feed missing, doubled or followed.
fn damage(random: &mut Random, line: &mut Vec<u8>) {
    let at = random.below(line.len() as u64) as usize;
    let next = (at + 1) % line.len();
    let byte = random.pick(b"0019afAFgGCEXKk,,\n\r +-.:/ \0\xff");
    match random.below(12) {
        0 => line[at] = byte,
        1 => line[at] = random.draw() as u8,
        2 => line.insert(at, byte),
        3 => drop(line.remove(at)),
        4 => line.truncate(at),
        5 => line.swap(at, next),
        6 => line.extend(b"\n"),
        7 => drop(line.pop()),
        8 => line.extend(text([67, 1, 1, 1, 1])),
        9 => drop(line.splice(at..at, std::iter::repeat_n(b'9', random.below(40) as usize))),
        10 => drop(line.splice(at..at, *b",0")),
        _ => drop(line.splice(line.len() - 1.., *b",0\n")),
    }
}

fn line(random: &mut Random) -> Vec<u8> {
    if random.below(10) == 0 {
        return (0..random.below(45)).map(|_| random.pick(b"CEFK0123456789abcdef,,,,\n")).collect();
    }
    let mut line = text(numbers(random));
    for _ in 0..random.pick(&[0, 0, 1, 1, 2, 3]) {
        if !line.is_empty() {
            damage(random, &mut line);
        }
    }
    line
}

/// Bytes for the five numbers of a line that is read, which are no log part.
const NUMBER_BYTES: usize = 40;

/// A lent part of about the shortest length, for the numbers of a line or for a line.
fn part(random: &mut Random) -> Vec<u8> {
    let length = random.pick(&[0, 1, 15, 16, 17, 34, 35, 38, 39, 40, 40, 41, 64, 66, 78, 79, 80, 80, 80, 80, 81, 120]);
    random.bytes(length)
}

fn little(line: &Line) -> Vec<u8> {
    [u64::from(line.letter), line.tick, line.node, line.other, line.list].iter().flat_map(|x| x.to_le_bytes()).collect()
}

fn read(line: &[u8], lent: &[u8]) -> Result<(), String> {
    let mut proved = lent.to_vec();
    let answer = proved::read(line, &mut proved);
    let mut simulated = lent.to_vec();
    let expected = match Line::read(line) {
        Err(number) => u64::from(number),
        Ok(_) if lent.len() < NUMBER_BYTES => 9,
        Ok(line) => {
            simulated[..NUMBER_BYTES].copy_from_slice(&little(&line));
            0
        }
    };
    same("read", (answer, proved), (expected, simulated))
}

fn column(line: &[u8], column: u64, lent: &[u8]) -> Result<(), String> {
    let mut proved = lent.to_vec();
    let answer = proved::column(line, column, &mut proved);
    let part = log::column(line, column as usize);
    let mut simulated = lent.to_vec();
    if part.len() <= lent.len() {
        simulated[..part.len()].copy_from_slice(part);
    }
    same(&format!("column {column}"), (answer, proved), (part.len() as u64, simulated))
}

/// Answers what the writer does.
fn write(numbers: [u64; 5], lent: &[u8]) -> Result<u64, String> {
    let mut proved = lent.to_vec();
    let answer = proved::write(numbers, &mut proved);
    let mut simulated = lent.to_vec();
    let [letter, tick, node, other, list] = numbers;
    let expected = match u8::try_from(letter) {
        Err(_) => 2,
        Ok(letter) => match (Line { letter, tick, node, other, list }).write(&mut simulated) {
            Ok(length) => length as u64,
            Err(number) => u64::from(number),
        },
    };
    same("write", (answer, proved), (expected, simulated)).map(|()| answer)
}

/// What the calls answered, for the summary: each kind of answer has to come up.
#[derive(Default)]
struct Seen {
    accepted: u64,
    form: u64,
    range: u64,
    /// Lines K that are read, and lines E and F; and lines that the writer refuses by 9 in a part of 40 bytes or more.
    passed: u64,
    last: [u64; 2],
    short: u64,
    /// Lines and numbers with the one of E and F that were also tried with the other: accepted, and refused.
    alike: [u64; 2],
}

fn case(random: &mut Random, seen: &mut Seen) -> Result<(), String> {
    let line = line(random);
    let lent = part(random);
    let numbers = numbers(random);
    match Line::read(&line) {
        Ok(line) => {
            seen.accepted += 1;
            seen.passed += u64::from(line.letter == b'K');
            (0..2).for_each(|place| seen.last[place] += u64::from(line.letter == LAST[place]));
        }
        Err(2) => seen.form += 1,
        Err(_) => seen.range += 1,
    }
    let told = |error: String| {
        format!("line {:?}\nnumbers {numbers:?}\npart of {} bytes\n{error}", String::from_utf8_lossy(&line), lent.len())
    };
    read(&line, &lent).map_err(told)?;
    for index in (0..6).chain([u64::from(u32::MAX), u64::MAX]) {
        column(&line, index, &lent).map_err(told)?;
    }
    let written = write(numbers, &lent).map_err(told)?;
    seen.short += u64::from(written == 9 && lent.len() >= NUMBER_BYTES);
    for answer in [as_other(&line, &lent).map_err(told)?, as_other_written(numbers, &lent).map_err(told)?].into_iter().flatten() {
        seen.alike[usize::from(answer != 0)] += 1;
    }
    Ok(())
}

// ---- F as E

/// E for F, and F for E; nothing for any other letter.
fn other_of(letter: u8) -> Option<u8> {
    LAST.iter().position(|last| *last == letter).map(|place| LAST[1 - place])
}

/// A line with E read as the same line with F, and the other way round: the same answer, the same numbers and the same columns, but for the
/// letter. The reader's answer; nothing where the line begins with another letter.
fn as_other(line: &[u8], lent: &[u8]) -> Result<Option<u64>, String> {
    let Some((letter, other)) = line.first().and_then(|letter| Some((*letter, other_of(*letter)?))) else { return Ok(None) };
    let with_other = [&[other], &line[1..]].concat();
    let lines = [(line, letter), (&with_other, other)];
    let [one, two] = lines.map(|(line, letter)| {
        let mut numbers = lent.to_vec();
        let answer = proved::read(line, &mut numbers);
        let is_own = answer == 0 && numbers[..8] == u64::from(letter).to_le_bytes();
        if is_own {
            numbers[..8].fill(0);
        }
        (answer, is_own, numbers)
    });
    same("reading E for F", &one, &two)?;
    same("the letter of a last line", one.1, one.0 == 0)?;
    for index in 0..6 {
        let [one, two] = lines.map(|(line, letter)| {
            let mut part = [b'.'; 40];
            let size = proved::column(line, index, &mut part);
            let is_own = index == 0 && size == 1 && part[0] == letter;
            part[0] = if is_own { 0 } else { part[0] };
            (size, is_own, part)
        });
        same(&format!("column {index} with E for F"), one, two)?;
    }
    Ok(Some(one.0))
}

/// The same for the writer. Its answer, 0 where it writes; nothing for another letter.
fn as_other_written(numbers: [u64; 5], lent: &[u8]) -> Result<Option<u64>, String> {
    let Some((letter, other)) = u8::try_from(numbers[0]).ok().and_then(|letter| Some((letter, other_of(letter)?))) else { return Ok(None) };
    let [one, two] = [letter, other].map(|letter| {
        let mut part = lent.to_vec();
        let [_, tick, node, other, list] = numbers;
        let answer = proved::write([u64::from(letter), tick, node, other, list], &mut part);
        let is_own = answer > 9 && part[0] == letter;
        if is_own {
            part[0] = 0;
        }
        (answer, is_own, part)
    });
    same("writing E for F", &one, &two)?;
    same("the letter that is written", one.1, one.0 > 9)?;
    Ok(Some(if one.0 > 9 { 0 } else { one.0 }))
}

/// A last line after its letter, and the reader's number.
const LAST_LINES: [(&str, u64); 31] = [
    (",0,0,0,0000000000000000\n", 0),
    (",6,1,0,0000000000000002\n", 0),
    (",1000000,64,2048,ffffffffffffffff\n", 0),
    (",1000000,63,2047,0123456789abcdef\n", 0),
    (",1000001,64,2048,0000000000000000\n", 3),
    (",1000000,65,2048,0000000000000000\n", 3),
    (",1000000,64,2049,0000000000000000\n", 3),
    (",18446744073709551616,0,0,0000000000000000\n", 3),
    (",0,18446744073709551616,0,0000000000000000\n", 3),
    (",0,0,18446744073709551616,0000000000000000\n", 3),
    (",6,1,0,000000000000002\n", 2),
    (",6,1,0,00000000000000002\n", 2),
    (",6,1,0,000000000000000F\n", 2),
    (",6,1,0,000000000000000g\n", 2),
    (",6,1,0,\n", 2),
    (",6,1,0\n", 2),
    (",6,1\n", 2),
    ("\n", 2),
    (",6,1,0,0000000000000002,\n", 2),
    (",6,1,0,0000000000000002,0\n", 2),
    (",6,1,0,0000000000000002", 2),
    (",6,1,0,0000000000000002\r\n", 2),
    (",6,1,0,0000000000000002\n\n", 2),
    (",06,1,0,0000000000000002\n", 2),
    (",6,01,0,0000000000000002\n", 2),
    (",6,1,00,0000000000000002\n", 2),
    (",+6,1,0,0000000000000002\n", 2),
    (",6, 1,0,0000000000000002\n", 2),
    (",6,,0,0000000000000002\n", 2),
    (",1000001,65,2049,000000000000000G\n", 2),
    ("E,6,1,0,0000000000000002\n", 2),
];

/// A last line that is read has its columns, and written again the same bytes, unless the part is too short.
fn last_line(text: &str) -> Result<(), String> {
    let (line, mut numbers) = (text.as_bytes(), [0; NUMBER_BYTES]);
    proved::read(line, &mut numbers);
    let columns = text.trim_end_matches('\n').split(',').chain([""]);
    for (index, column) in columns.enumerate() {
        let mut part = [b'.'; 16];
        same(&format!("column {index}"), proved::column(line, index as u64, &mut part), column.len() as u64)?;
        same(&format!("column {index}"), &part[..column.len()], column.as_bytes())?;
    }
    let five = std::array::from_fn(|place| u64::from_le_bytes(std::array::from_fn(|byte| numbers[8 * place + byte])));
    let mut part = [b'.'; 80];
    same("writing it", proved::write(five, &mut part), line.len() as u64)?;
    same("what is written", &part[..line.len()], line)?;
    same("writing it into 79 bytes", proved::write(five, &mut part[..79]), 9)
}

/// Every edge of a last line with both letters: each number behind its range, in parts of any length, gets 3. A lower-case letter is none.
fn last_lines() -> Result<(), String> {
    for letter in LAST {
        for (rest, wanted) in LAST_LINES {
            let text = format!("{}{rest}", *letter as char);
            let told = |error| format!("{text:?}: {error}");
            same("reading", proved::read(text.as_bytes(), &mut [0; NUMBER_BYTES]), wanted).map_err(told)?;
            read(text.as_bytes(), &[b'.'; NUMBER_BYTES]).map_err(told)?;
            (0..6).try_for_each(|index| column(text.as_bytes(), index, &[b'.'; 16])).map_err(told)?;
            if wanted == 0 {
                last_line(&text).map_err(told)?;
            }
        }
        let small = format!("{},6,1,0,0000000000000002\n", letter.to_ascii_lowercase() as char);
        same("reading a small letter", proved::read(small.as_bytes(), &mut [0; NUMBER_BYTES]), 2)?;
        for (tick, survivors, in_flight) in [(1_000_001, 64, 2_048), (1_000_000, 65, 2_048), (1_000_000, 64, 2_049)] {
            for room in [0, 79, 80] {
                let numbers = [u64::from(*letter), tick, survivors, in_flight, 0];
                same("writing out of range", proved::write(numbers, &mut [b'.'; 80][..room]), 3)?;
            }
        }
    }
    Ok(())
}

/// Every letter with each column at, just below and just above its bound.
fn bounds() -> Result<(), String> {
    for &letter in LETTERS {
        for tick in [0, 999_999, 1_000_000, 1_000_001] {
            for node in [0, 63, 64, 65] {
                for other in [0, 63, 64, 2_048, 2_049] {
                    let numbers = [u64::from(letter), tick, node, other, tick << 40 | node];
                    let line = text(numbers);
                    let told = |error: String| format!("numbers {numbers:?}\n{error}");
                    for length in [39, 40, 41, 66, 79, 80, 81] {
                        read(&line, &vec![b'.'; length]).map_err(told)?;
                        write(numbers, &vec![b'.'; length]).map_err(told)?;
                    }
                    for index in 0..6 {
                        column(&line, index, &[b'.'; 16]).map_err(told)?;
                    }
                }
            }
        }
    }
    Ok(())
}

/// The bounds, then seeded lines. Every kind of answer has to come up.
fn compared(seed: u64, count: u64) -> Result<String, String> {
    bounds()?;
    last_lines()?;
    let (mut random, mut seen) = (Random::seeded(seed), Seen::default());
    for index in 1..=count {
        case(&mut random, &mut seen).map_err(|error| format!("seed {seed}, case {index} differs\n{error}"))?;
    }
    let Seen { accepted, form, range, passed, last: [e, f], short, alike } = seen;
    let read = format!("{accepted} accepted, {passed} of them K, {e} E, {f} F; {form} refused by 2, {range} by 3");
    let words = format!("seed {seed}, {count} cases agree: {read}; {short} lines not written into 40 to 79 bytes; {alike:?} alike with E and F");
    let few = [e, f, alike[0], alike[1]].iter().any(|lines| *lines < count / 200);
    if count >= 1_000 && (few || [accepted, form, range, passed, short].contains(&0)) {
        return Err(format!("{words}; an answer hardly came up"));
    }
    Ok(words)
}

/// Each of the mock's mistakes is found.
#[cfg(mock)]
fn mistakes(seed: u64) -> Result<(), String> {
    for mistake in lines_mock::MISTAKES {
        lines_mock::make(mistake);
        let found = found(compared(seed, 2_000)).ok_or(format!("not found: {mistake:?}"))?;
        println!("lines: {mistake:?} is found: {found}");
    }
    lines_mock::make(lines_mock::Mistake::Nothing);
    Ok(())
}

#[cfg(not(mock))]
fn mistakes(_: u64) -> Result<(), String> {
    Ok(())
}

fn main() -> ExitCode {
    let (seed, count) = (seed(), count(COUNT));
    ended("lines", mistakes(seed).and_then(|()| compared(seed, count)))
}
