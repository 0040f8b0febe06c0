//! The log reader, columns and writer over the simulator's, with one mistake at a time about the last line's letters: what tests/lines.rs
//! has to find.

use simulator::limits::*;
use simulator::log::{self, Line};
use std::cell::Cell;
use std::slice::{from_raw_parts, from_raw_parts_mut};

#[derive(Clone, Copy, PartialEq, Eq, Debug)]
pub enum Mistake {
    Nothing,
    // The reader: F is no letter; is read as E; has the ranges of the other letters, in one column or in both; or wider ones; gets 4.
    ReadsNoF,
    ReadsFAsE,
    OtherRangesOfF,
    SurvivorsTo63,
    InFlightTo63,
    SurvivorsTo65,
    InFlightTo2049,
    TickTo1000001,
    FourForF,
    SmallLetterRead,
    // The columns of a line F: none, those of the line with E, one too many.
    NoColumnsOfF,
    LetterColumnOfE,
    SixthColumnOfF,
    // The writer: F is no letter; is written as E; has the ranges of the other letters or none; 40 bytes will do; 9 comes before 3.
    WritesNoF,
    WritesFAsE,
    OtherRangesWritten,
    WritesAnyNumbers,
    TakesShortPart,
    PartBeforeRange,
    LowByteOfLetter,
}

use Mistake::*;

pub const MISTAKES: [Mistake; 20] = [
    ReadsNoF,
    ReadsFAsE,
    OtherRangesOfF,
    SurvivorsTo63,
    InFlightTo63,
    SurvivorsTo65,
    InFlightTo2049,
    TickTo1000001,
    FourForF,
    SmallLetterRead,
    NoColumnsOfF,
    LetterColumnOfE,
    SixthColumnOfF,
    WritesNoF,
    WritesFAsE,
    OtherRangesWritten,
    WritesAnyNumbers,
    TakesShortPart,
    PartBeforeRange,
    LowByteOfLetter,
];

thread_local!(static MADE: Cell<Mistake> = const { Cell::new(Nothing) });

/// The calls make this mistake from now on.
pub fn make(mistake: Mistake) {
    MADE.set(mistake);
}

/// A line F with its numbers replaced by ones in range, where a mistake takes them.
fn taken(line: &[u8]) -> Option<Line> {
    let text = std::str::from_utf8(line).ok()?.strip_suffix('\n')?;
    let fields: Vec<&str> = text.split(',').collect();
    let &["F", tick, survivors, in_flight, list] = &fields[..] else { return None };
    let within = match MADE.get() {
        SurvivorsTo65 if survivors == "65" => format!("F,{tick},64,{in_flight},{list}\n"),
        InFlightTo2049 if in_flight == "2049" => format!("F,{tick},{survivors},2048,{list}\n"),
        TickTo1000001 if tick == "1000001" => format!("F,1000000,{survivors},{in_flight},{list}\n"),
        _ => return None,
    };
    let read = Line::read(within.as_bytes()).ok()?;
    let number = |field: &str| field.parse().ok();
    Some(Line { tick: number(tick)?, node: number(survivors)?, other: number(in_flight)?, ..read })
}

fn read_line(line: &[u8]) -> Result<Line, u64> {
    if let Some(line) = taken(line) {
        return Ok(line);
    }
    if MADE.get() == SmallLetterRead && line.first() == Some(&b'f') {
        return Line::read(&[b"F", &line[1..]].concat()).map_err(u64::from);
    }
    let read = Line::read(line).map_err(u64::from)?;
    let (survivors, in_flight) = (read.node > 63, read.other > 63);
    match (read.letter, MADE.get()) {
        (b'F', ReadsNoF) => Err(u64::from(REFUSED_FORM)),
        (b'F', ReadsFAsE) => Ok(Line { letter: b'E', ..read }),
        (b'F', OtherRangesOfF) if survivors || in_flight => Err(u64::from(REFUSED_RANGE)),
        (b'F', SurvivorsTo63) if survivors => Err(u64::from(REFUSED_RANGE)),
        (b'F', InFlightTo63) if in_flight => Err(u64::from(REFUSED_RANGE)),
        (b'F', FourForF) => Err(4),
        _ => Ok(read),
    }
}

fn read(line: &[u8], numbers: &mut [u8]) -> u64 {
    let line = match read_line(line) {
        Err(number) => return number,
        Ok(_) if numbers.len() < 40 => return u64::from(REFUSED_PART),
        Ok(line) => line,
    };
    let five = [u64::from(line.letter), line.tick, line.node, line.other, line.list];
    five.iter().zip(numbers.chunks_exact_mut(8)).for_each(|(number, bytes)| bytes.copy_from_slice(&number.to_le_bytes()));
    0
}

fn column(line: &[u8], column: u64, out: &mut [u8]) -> u64 {
    let part = match (line.first(), MADE.get()) {
        (Some(b'F'), NoColumnsOfF) => &[][..],
        (Some(b'F'), LetterColumnOfE) if column == 0 && Line::read(line).is_ok() => b"E",
        (Some(b'F'), SixthColumnOfF) if column == 5 && Line::read(line).is_ok() => b"0",
        _ => log::column(line, column as usize),
    };
    if part.len() <= out.len() {
        out[..part.len()].copy_from_slice(part);
    }
    part.len() as u64
}

fn write_line(line: &Line, out: &mut [u8]) -> Result<usize, u8> {
    let short = (40..LOG_BYTES).contains(&out.len());
    match (line.letter, MADE.get()) {
        (b'F', WritesNoF) => Err(REFUSED_FORM),
        (b'F', WritesFAsE) => Line { letter: b'E', ..*line }.write(out),
        (b'F', OtherRangesWritten) if line.node > 63 || line.other > 63 => Err(REFUSED_RANGE),
        (b'F', WritesAnyNumbers) if line.other == 2_049 => Line { other: 2_048, ..*line }.write(out),
        (b'F', PartBeforeRange) if short => Err(REFUSED_PART),
        (b'F', TakesShortPart) if short => {
            let mut longer = [0; LOG_BYTES];
            let size = line.write(&mut longer)?;
            out[..size].copy_from_slice(&longer[..size]);
            Ok(size)
        }
        _ => line.write(out),
    }
}

fn write([letter, tick, node, other, list]: [u64; 5], out: &mut [u8]) -> u64 {
    let letter = match u8::try_from(letter) {
        Ok(letter) => letter,
        Err(_) if MADE.get() == LowByteOfLetter && letter as u8 == b'F' => b'F',
        Err(_) => return u64::from(REFUSED_FORM),
    };
    write_line(&Line { letter, tick, node, other, list }, out).map_or_else(u64::from, |size| size as u64)
}

#[no_mangle]
unsafe extern "C" fn kelbraut_line_read(line: *const u8, length: usize, numbers: *mut u8, room: usize) -> u64 {
    read(from_raw_parts(line, length), from_raw_parts_mut(numbers, room))
}

#[no_mangle]
unsafe extern "C" fn kelbraut_line_column(line: *const u8, length: usize, index: u64, out: *mut u8, room: usize) -> u64 {
    column(from_raw_parts(line, length), index, from_raw_parts_mut(out, room))
}

#[no_mangle]
unsafe extern "C" fn kelbraut_line_write(
    letter: u64,
    tick: u64,
    node: u64,
    other: u64,
    list: u64,
    out: *mut u8,
    room: usize,
) -> u64 {
    write([letter, tick, node, other, list], from_raw_parts_mut(out, room))
}
