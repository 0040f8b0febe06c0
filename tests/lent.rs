//! Parts that are lent to a call, between bytes that it may not touch.
#![allow(dead_code)]

/// Bytes on both sides of a lent part that no call may touch.
const MARGIN: usize = 32;
const MARGIN_BYTE: u8 = 0x5a;

/// Bytes lent to a call, between their margins.
#[derive(Clone)]
pub struct Lent(Vec<u8>);

impl Lent {
    pub fn new(part: &[u8]) -> Lent {
        let margin = [MARGIN_BYTE; MARGIN];
        Lent([&margin, part, &margin].concat())
    }

    /// A part of this length that holds a pattern.
    pub fn filled(length: usize) -> Lent {
        Lent::new(&(0..length).map(|place| (place * 37 + 11) as u8).collect::<Vec<u8>>())
    }

    pub fn part(&self) -> &[u8] {
        &self.0[MARGIN..self.0.len() - MARGIN]
    }

    pub fn part_mut(&mut self) -> &mut [u8] {
        let end = self.0.len() - MARGIN;
        &mut self.0[MARGIN..end]
    }

    /// Whether the part holds `left`, and the margins are whole.
    pub fn holds(&self, what: &str, left: &[u8]) -> Result<(), String> {
        let margins = [&self.0[..MARGIN], &self.0[self.0.len() - MARGIN..]];
        if margins.iter().any(|margin| margin.iter().any(|byte| *byte != MARGIN_BYTE)) {
            return Err(format!("the bytes around the {what} are written"));
        }
        if self.part() == left {
            return Ok(());
        }
        let place = (0..left.len()).find(|place| self.part()[*place] != left[*place]).unwrap_or(0);
        Err(format!("byte {place} of the {what} is {}, not {}", self.part()[place], left[place]))
    }
}
