//! The run file: one `P,N,H,W,D,end`, then possibly one `Q` with N node numbers, then `C,tick,node` lines, then
//! `L,number,delay` lines. The reader tries 01's places downwards and its lines one after another.

use super::fields;
use super::limits::*;
use super::ring::Ring;
use std::io::Write;

/// A line `C,tick,node`: the node crashes at the tick.
#[derive(Clone, Copy, PartialEq, Eq, PartialOrd, Ord, Debug)]
pub struct Crash {
    pub tick: u32,
    pub node: u8,
}

/// A line `L,number,delay`: the message of this number takes this many ticks.
#[derive(Clone, Copy, PartialEq, Eq, Debug)]
pub struct Delay {
    pub number: u64,
    pub delay: u32,
}

/// What an accepted run file says.
#[derive(Clone, PartialEq, Eq, Debug)]
pub struct Plan {
    /// N, the number of nodes.
    pub nodes: u8,
    /// H, ticks from one heartbeat to the next.
    pub period: u32,
    /// W, ticks without a heartbeat until the watch expires.
    pub timeout: u32,
    /// D, the longest delay of a message.
    pub delay: u32,
    /// The last tick whose events are done.
    pub end: u32,
    /// The numbers of the Q line, "the ring in that order"; none where there is no Q line.
    pub order: Vec<u8>,
    pub crashes: Vec<Crash>,
    pub delays: Vec<Delay>,
}

/// Why a run file is turned down: the number, and the line from 1 (0 for the file's length).
#[derive(Clone, Copy, PartialEq, Eq, Debug)]
pub struct Refusal {
    pub number: u8,
    pub line: usize,
}

/// Reads a run file of any bytes.
pub fn read(file: &[u8]) -> Result<Plan, Refusal> {
    let length = Refusal { number: REFUSED_LENGTH, line: 0 };
    if file.is_empty() || file.len() > FILE_BYTES {
        return Err(length);
    }
    let mut plan = None;
    for (index, line) in file.split_inclusive(|byte| *byte == b'\n').enumerate() {
        let read = match plan.take() {
            None => read_first(line),
            Some(plan) => read_next(plan, line),
        };
        plan = Some(read.map_err(|number| Refusal { number, line: index + 1 })?);
    }
    plan.ok_or(length)
}

/// The first line, which has to be P: form, then ranges. W may be below H + D.
fn read_first(line: &[u8]) -> Result<Plan, u8> {
    let (letter, numbers) = form(line)?;
    let (b'P', &[nodes, period, timeout, delay, end]) = (letter, &numbers[..]) else { return Err(REFUSED_FORM) };
    let in_range = (1..=MAX_NODES).contains(&nodes)
        && (1..=MAX_PERIOD).contains(&period)
        && (1..=MAX_TIMEOUT).contains(&timeout)
        && (1..=MAX_DELAY).contains(&delay)
        && end <= MAX_TICK;
    if !in_range {
        return Err(REFUSED_RANGE);
    }
    Ok(Plan {
        nodes: nodes as u8,
        period: period as u32,
        timeout: timeout as u32,
        delay: delay as u32,
        end: end as u32,
        order: Vec::new(),
        crashes: Vec::new(),
        delays: Vec::new(),
    })
}

/// A line after the first: Q right after P, C until the first L, then L.
fn read_next(mut plan: Plan, line: &[u8]) -> Result<Plan, u8> {
    let (letter, numbers) = form(line)?;
    let after_p = plan.order.is_empty() && plan.crashes.is_empty() && plan.delays.is_empty();
    match (letter, &numbers[..]) {
        (b'Q', order) if after_p && order.len() == usize::from(plan.nodes) => put_order(&mut plan, order)?,
        (b'C', &[tick, node]) if plan.delays.is_empty() => add_crash(&mut plan, tick, node)?,
        (b'L', &[number, delay]) => add_delay(&mut plan, number, delay)?,
        _ => return Err(REFUSED_FORM),
    }
    Ok(plan)
}

/// "N node numbers, each exactly once: the ring in that order."
fn put_order(plan: &mut Plan, order: &[u64]) -> Result<(), u8> {
    if order.iter().any(|node| *node >= u64::from(plan.nodes)) {
        return Err(REFUSED_RANGE);
    }
    if (0..u64::from(plan.nodes)).any(|node| !order.contains(&node)) {
        return Err(REFUSED_RING);
    }
    plan.order = order.iter().map(|node| *node as u8).collect();
    Ok(())
}

/// "rising by tick then node, no node twice".
fn add_crash(plan: &mut Plan, tick: u64, node: u64) -> Result<(), u8> {
    if tick > u64::from(plan.end) || node >= u64::from(plan.nodes) {
        return Err(REFUSED_RANGE);
    }
    let row = Crash { tick: tick as u32, node: node as u8 };
    let rises = plan.crashes.last().is_none_or(|before| *before < row);
    if !rises || plan.crashes.iter().any(|other| other.node == row.node) {
        return Err(REFUSED_ORDER);
    }
    plan.crashes.push(row);
    Ok(())
}

/// "rising by number, at most 2,048".
fn add_delay(plan: &mut Plan, number: u64, delay: u64) -> Result<(), u8> {
    if number > MAX_DELAY_NUMBER || !(1..=u64::from(plan.delay)).contains(&delay) {
        return Err(REFUSED_RANGE);
    }
    if plan.delays.last().is_some_and(|before| number <= before.number) {
        return Err(REFUSED_ORDER);
    }
    if plan.delays.len() == MAX_DELAY_ROWS {
        return Err(REFUSED_ROWS);
    }
    plan.delays.push(Delay { number, delay: delay as u32 });
    Ok(())
}

/// The letter of a line and its numbers, however many they are.
fn form(line: &[u8]) -> Result<(u8, Vec<u64>), u8> {
    let parts = || {
        let mut parts = fields::body(line)?.split(|byte| *byte == b',');
        let [letter] = *parts.next()? else { return None };
        Some((letter, parts.map(fields::number).collect::<Option<_>>()?))
    };
    parts().ok_or(REFUSED_FORM)
}

impl Plan {
    /// Whether W is below H + D. A live node may get listed then, and its run ends in F instead of E. The P line alone decides.
    pub fn short_timeout(&self) -> bool {
        self.timeout < self.period + self.delay
    }

    /// The ring: in the Q line's order, or in number order where there is none.
    pub fn ring(&self) -> Ring {
        if self.order.is_empty() {
            Ring::of(self.nodes)
        } else {
            Ring::in_order(&self.order)
        }
    }

    /// The run file with this plan's P, Q, C and L lines.
    pub fn bytes(&self) -> Vec<u8> {
        let mut file = Vec::new();
        self.write_lines(&mut file).expect("a vector takes every byte");
        file
    }

    fn write_lines(&self, out: &mut impl Write) -> std::io::Result<()> {
        let Plan { nodes, period, timeout, delay, end, .. } = self;
        writeln!(out, "P,{nodes},{period},{timeout},{delay},{end}")?;
        if !self.order.is_empty() {
            write!(out, "Q")?;
            self.order.iter().try_for_each(|node| write!(out, ",{node}"))?;
            writeln!(out)?;
        }
        for Crash { tick, node } in &self.crashes {
            writeln!(out, "C,{tick},{node}")?;
        }
        for Delay { number, delay } in &self.delays {
            writeln!(out, "L,{number},{delay}")?;
        }
        Ok(())
    }

    /// "The run-file writer puts a store's P, C and L lines into a lent part and leaves the rest
    /// of that part", and a Q line "after P". Answers how many bytes it put there.
    pub fn write(&self, part: &mut [u8]) -> Result<usize, u8> {
        if part.len() < FILE_BYTES {
            return Err(REFUSED_PART);
        }
        let file = self.bytes();
        part[..file.len()].copy_from_slice(&file);
        Ok(file.len())
    }
}

#[cfg(test)]
mod tests {
    use super::*;

    const WORKED: &str = "P,2,2,3,1,6\nC,3,1\n";

    /// The number and line by which the file is refused; `(0, 0)` where it is accepted.
    fn answer(file: &[u8]) -> (u8, usize) {
        read(file).map_or_else(|refusal| (refusal.number, refusal.line), |_| (0, 0))
    }

    fn answers(cases: &[(&str, (u8, usize))]) {
        for (file, expected) in cases {
            assert_eq!(answer(file.as_bytes()), *expected, "{file:?}");
        }
    }

    /// A P line with the letter-D bound 5, then `count` L lines from number 0, then `last`.
    fn with_delays(count: usize, last: &str) -> Vec<u8> {
        let mut file = String::from("P,2,2,7,5,6\n");
        (0..count).for_each(|number| file += &format!("L,{number},5\n"));
        (file + last).into_bytes()
    }

    #[test]
    fn the_fields_are_read_in_order() {
        let plan = read(b"P,3,2,9,5,60\nC,3,1\nC,3,2\nL,0,1\nL,999999,5\n").unwrap();
        assert_eq!((plan.nodes, plan.period, plan.timeout, plan.delay, plan.end), (3, 2, 9, 5, 60));
        assert_eq!(plan.crashes, [Crash { tick: 3, node: 1 }, Crash { tick: 3, node: 2 }]);
        assert_eq!(plan.delays, [Delay { number: 0, delay: 1 }, Delay { number: 999_999, delay: 5 }]);
    }

    #[test]
    fn length_is_tried_first() {
        assert_eq!(answer(b""), (1, 0));
        assert_eq!(answer(&[b'x'; FILE_BYTES]), (2, 1));
        assert_eq!(answer(&[b'x'; FILE_BYTES + 1]), (1, 0));
        let mut file = WORKED.as_bytes().to_vec();
        file.resize(FILE_BYTES, b'\n');
        assert_eq!(answer(&file), (2, 3));
        file.push(b'\n');
        assert_eq!(answer(&file), (1, 0));
    }

    #[test]
    fn form_of_the_p_line() {
        let bad = [
            "\n", "P\n", "P,\n", "P,2,2,3,1\n", "P,2,2,3,1,6,\n", "P,2,2,3,1,6,7\n", "P,2,2,3,1,\n",
            "P,02,2,3,1,6\n", "P,02,\n", "P,2,2,3,1,06\n", "P,2,2,3,1,00\n", "p,2,2,3,1,6\n",
            "PP,2,2,3,1,6\n", ",2,2,3,1,6\n", "P,2,2,3,1,6\r\n", "P,2,2,3,1,6", " P,2,2,3,1,6\n",
            "P, 2,2,3,1,6\n", "P,+2,2,3,1,6\n", "P,-2,2,3,1,6\n", "P,2,2,3,1,6 \n", "P;2;2;3;1;6\n",
            "\nP,2,2,3,1,6\n", "C,3,1\n", "L,0,1\n", "P,2,2,3,1,6\0\n",
        ];
        for file in bad {
            assert_eq!(answer(file.as_bytes()), (2, 1), "{file:?}");
        }
        assert_eq!(answer(b"P,2,2,3,1,\xff\n"), (2, 1));
    }

    #[test]
    fn form_is_judged_before_any_range_of_the_line() {
        answers(&[
            ("P,0,2,3,1,06\n", (2, 1)),
            ("P,0,2,3,1,6", (2, 1)),
            ("P,65,1001,65536,256,\n", (2, 1)),
            ("P,2,2,3,1,6\nC,7,9,\n", (2, 2)),
            ("P,2,2,3,1,6\nC,7,9", (2, 2)),
            ("P,2,2,3,1,6\nL,1000000,07\n", (2, 2)),
        ]);
    }

    #[test]
    fn ranges_of_the_p_line() {
        answers(&[
            ("P,0,2,3,1,6\n", (3, 1)),
            ("P,1,2,3,1,6\n", (0, 0)),
            ("P,64,2,3,1,6\n", (0, 0)),
            ("P,65,2,3,1,6\n", (3, 1)),
            ("P,2,0,3,1,6\n", (3, 1)),
            ("P,2,1000,1001,1,6\n", (0, 0)),
            ("P,2,1001,1002,1,6\n", (3, 1)),
            ("P,2,2,0,1,6\n", (3, 1)),
            ("P,2,2,65535,1,6\n", (0, 0)),
            ("P,2,2,65536,1,6\n", (3, 1)),
            ("P,2,2,3,0,6\n", (3, 1)),
            ("P,2,2,257,255,6\n", (0, 0)),
            ("P,2,2,300,256,6\n", (3, 1)),
            ("P,2,2,3,1,0\n", (0, 0)),
            ("P,2,2,3,1,1000000\n", (0, 0)),
            ("P,2,2,3,1,1000001\n", (3, 1)),
        ]);
    }

    #[test]
    fn long_digit_strings_are_out_of_range() {
        for long in [
            "99999999999999999999", "4294967298", "18446744073709551618",
            "340282366920938463463374607431768211458",
        ] {
            for field in 1..=5 {
                let mut fields = ["P", "2", "2", "3", "1", "6"];
                fields[field] = long;
                assert_eq!(answer((fields.join(",") + "\n").as_bytes()), (3, 1), "{long} in field {field}");
            }
            for row in
                [format!("C,{long},0"), format!("C,0,{long}"), format!("L,{long},1"), format!("L,0,{long}")]
            {
                assert_eq!(answer(format!("P,2,2,3,1,6\n{row}\n").as_bytes()), (3, 2), "{row}");
            }
        }
        let digits = "7".repeat(FILE_BYTES - 8);
        assert_eq!(answer(format!("P,{digits},1,1\n").as_bytes()), (2, 1));
        assert_eq!(answer(format!("P,2,2,3,1,{}\n", "7".repeat(FILE_BYTES - 11)).as_bytes()), (3, 1));
    }

    /// Number 4 is given no longer: W may be any from 1 to 65,535, whatever H and D are, and the next place or line decides.
    #[test]
    fn the_timeout_may_be_below_period_plus_delay() {
        answers(&[("P,2,2,3,1,6\n", (0, 0)), ("P,2,2,2,1,6\n", (0, 0)), ("P,2,2,2,1,1000001\n", (3, 1))]);
        answers(&[("P,2,1000,1254,255,6\n", (0, 0)), ("P,2,1000,1255,255,6\n", (0, 0)), ("P,64,1000,1,255,1000000\n", (0, 0))]);
        answers(&[("P,2,2,0,1,6\n", (3, 1)), ("P,2,2,1,1,6\n", (0, 0)), ("P,2,1000,65536,255,6\n", (3, 1))]);
        answers(&[("P,2,2,2,1,6\nZ\n", (2, 2)), ("P,2,2,2,1,6\nC,7,1\n", (3, 2)), ("P,2,2,2,1,6\nL,0,2\n", (3, 2))]);
        answers(&[("P,2,2,2,1,6\nC,3,1\nC,3,0\n", (5, 3)), ("P,2,2,2,1,6", (2, 1)), ("P,2,2,02,1,6\n", (2, 1))]);
    }

    /// W is short up to H + D − 1, and H + D is long enough.
    #[test]
    fn a_short_timeout_goes_by_the_p_line_alone() {
        let short = |file: &str| read(file.as_bytes()).unwrap().short_timeout();
        for (period, delay) in [(1, 1), (2, 1), (1, 2), (3, 5), (1_000, 1), (1, 255), (1_000, 255)] {
            for (timeout, expected) in [(1, true), (period + delay - 1, true), (period + delay, false), (65_535, false)] {
                for nodes in [1, 2, 64] {
                    let file = format!("P,{nodes},{period},{timeout},{delay},9\n");
                    assert_eq!(short(&file), expected, "{file}");
                    assert_eq!(short(&format!("{file}C,0,0\nL,0,1\n")), expected, "{file}");
                }
            }
        }
    }

    #[test]
    fn order_of_letters() {
        answers(&[
            ("P,2,2,3,1,6\nP,2,2,3,1,6\n", (2, 2)),
            ("P,2,2,3,1,6\nC,3,1\nP,2,2,3,1,6\n", (2, 3)),
            ("P,2,2,3,1,6\nL,0,1\nC,3,1\n", (2, 3)),
            ("P,2,2,3,1,6\nL,0,1\nC,9,9\n", (2, 3)),
            ("P,2,2,3,1,6\nC,3,1\nL,0,1\n", (0, 0)),
            ("P,2,2,3,1,6\nX,3,1\n", (2, 2)),
            ("C,3,1\nP,2,2,3,1,6\n", (2, 1)),
            ("P,2,2,3,1,6\n\n", (2, 2)),
            ("P,2,2,3,1,6\n\nC,3,1\n", (2, 2)),
        ]);
    }

    #[test]
    fn the_order_is_that_of_the_q_line() {
        let plan = read(b"P,3,2,9,5,60\nQ,2,0,1\nC,3,1\n").unwrap();
        assert_eq!((plan.order.clone(), plan.ring()), (vec![2, 0, 1], Ring::in_order(&[2, 0, 1])));
        let plain = read(b"P,3,2,9,5,60\n").unwrap();
        assert_eq!((plain.order.clone(), plain.ring()), (vec![], Ring::of(3)));
        let in_number_order = read(b"P,3,2,9,5,60\nQ,0,1,2\n").unwrap();
        assert_eq!((in_number_order.order.clone(), in_number_order.ring()), (vec![0, 1, 2], plain.ring()));
        assert_ne!(plain, in_number_order);
        assert_eq!(read(b"P,1,1,2,1,5\nQ,0\n").unwrap().order, [0]);
        let sixty_four = (0..64).map(|place| format!(",{}", 63 - place)).collect::<String>();
        let falling: Vec<u8> = (0..64).rev().collect();
        assert_eq!(read(format!("P,64,1,2,1,5\nQ{sixty_four}\n").as_bytes()).unwrap().order, falling);
        assert_eq!(answer(format!("P,64,1,2,1,5\nQ{sixty_four},0\n").as_bytes()), (2, 2));
        assert_eq!(answer(format!("P,63,1,2,1,5\nQ{sixty_four}\n").as_bytes()), (2, 2));
    }

    #[test]
    fn form_of_the_q_line() {
        for row in [
            "Q", "Q,", "Q,0", "Q,0,1", "Q,0,1,2,", "Q,,0,1,2", "Q,0,,1", "Q,0,1,", "Q,0,1,2,0", "Q,0,1,2,3", "Q,0,01,2",
            "Q,00,1,2", "Q,0, 1,2", "Q,0,1,2 ", "Q ,0,1,2", "Q,0,1,2\r", "Q,0,1,-2", "Q,0,1,+2", "Q,0,1,x", "Q;0;1;2",
            "q,0,1,2", "QQ,0,1,2", " Q,0,1,2", "0,1,2",
        ] {
            assert_eq!(answer(format!("P,3,2,3,1,6\n{row}\n").as_bytes()), (2, 2), "{row:?}");
        }
        answers(&[("P,3,2,3,1,6\nQ,0,1,2", (2, 2)), ("P,3,2,3,1,6\nQ,0,1,2\n", (0, 0)), ("P,1,1,2,1,5\nQ\n", (2, 2))]);
    }

    /// Form, then range, then each node once.
    #[test]
    fn places_of_the_q_line_are_tried_downwards() {
        answers(&[
            ("P,3,2,3,1,6\nQ,0,1,3\n", (3, 2)),
            ("P,3,2,3,1,6\nQ,3,0,1\n", (3, 2)),
            ("P,3,2,3,1,6\nQ,0,1,18446744073709551617\n", (3, 2)),
            ("P,3,2,3,1,6\nQ,0,1,256\n", (3, 2)),
            ("P,3,2,3,1,6\nQ,0,0,3\n", (3, 2)),
            ("P,3,2,3,1,6\nQ,3,3,3\n", (3, 2)),
            ("P,3,2,3,1,6\nQ,3,1\n", (2, 2)),
            ("P,3,2,3,1,6\nQ,0,1,2,3\n", (2, 2)),
            ("P,3,2,3,1,6\nQ,0,0\n", (2, 2)),
            ("P,3,2,3,1,6\nQ,3,3,03\n", (2, 2)),
            ("P,3,2,3,1,6\nQ,0,0,2", (2, 2)),
            ("P,3,2,3,1,6\nQ,0,0,2\n", (13, 2)),
            ("P,3,2,3,1,6\nQ,2,1,2\n", (13, 2)),
            ("P,3,2,3,1,6\nQ,1,1,1\n", (13, 2)),
            ("P,3,2,3,1,6\nQ,1,1,1\nZ\n", (13, 2)),
            ("P,3,2,2,1,6\nQ,1,1,1\n", (13, 2)),
            ("P,1,1,2,1,5\nQ,1\n", (3, 2)),
        ]);
    }

    #[test]
    fn the_q_line_stands_right_after_the_p_line() {
        answers(&[
            ("P,3,2,3,1,6\nQ,2,1,0\nC,3,1\nL,0,1\n", (0, 0)),
            ("P,3,2,3,1,6\nQ,2,1,0\nL,0,1\n", (0, 0)),
            ("Q,2,1,0\nP,3,2,3,1,6\n", (2, 1)),
            ("P,3,2,3,1,6\nQ,2,1,0\nQ,2,1,0\n", (2, 3)),
            ("P,3,2,3,1,6\nQ,2,1,0\nQ,3,3,3\n", (2, 3)),
            ("P,3,2,3,1,6\nQ,2,1,0\nC,3,1\nQ,2,1,0\n", (2, 4)),
            ("P,3,2,3,1,6\nC,3,1\nQ,2,1,0\n", (2, 3)),
            ("P,3,2,3,1,6\nC,3,1\nQ,2,2,0\n", (2, 3)),
            ("P,3,2,3,1,6\nL,0,1\nQ,2,1,0\n", (2, 3)),
            ("P,3,2,3,1,6\n\nQ,2,1,0\n", (2, 2)),
            ("P,3,2,3,1,6\nQ,2,1,0\nP,3,2,3,1,6\n", (2, 3)),
            ("P,3,2,3,1,6\nQ,2,1,0\nC,3,3\n", (3, 3)),
            ("P,1,1,2,1,5\nQ,0\nQ,0\n", (2, 3)),
        ]);
    }

    #[test]
    fn form_of_crash_and_delay_lines() {
        for row in
            ["C", "C,3", "C,3,1,", "C,3,1,1", "C,,1", "C,3,", "C,03,1", "C,3,01", "c,3,1", "C,3,1\r", "C,3,x"]
        {
            assert_eq!(answer(format!("P,2,2,3,1,6\n{row}\n").as_bytes()), (2, 2), "{row:?}");
        }
        for row in
            ["L", "L,3", "L,3,1,", "L,3,1,1", "L,,1", "L,3,", "L,03,1", "L,3,01", "l,3,1", "L,3,1\r", "L,3,x"]
        {
            assert_eq!(answer(format!("P,2,2,3,1,6\n{row}\n").as_bytes()), (2, 2), "{row:?}");
        }
        answers(&[
            ("P,2,2,3,1,6\nC,3,1", (2, 2)),
            ("P,2,2,3,1,6\nL,3,1", (2, 2)),
            ("P,2,2,3,1,6\n ", (2, 2)),
        ]);
    }

    #[test]
    fn ranges_of_crash_lines_come_before_their_order() {
        answers(&[
            ("P,2,2,3,1,6\nC,6,1\n", (0, 0)),
            ("P,2,2,3,1,6\nC,0,0\n", (0, 0)),
            ("P,2,2,3,1,6\nC,7,1\n", (3, 2)),
            ("P,2,2,3,1,6\nC,6,2\n", (3, 2)),
            ("P,2,2,3,1,6\nC,3,1\nC,2,9\n", (3, 3)),
            ("P,2,2,3,1,6\nC,3,1\nC,7,1\n", (3, 3)),
        ]);
    }

    #[test]
    fn crashes_rise_and_no_node_crashes_twice() {
        answers(&[
            ("P,2,2,3,1,6\nC,3,1\nC,3,1\n", (5, 3)),
            ("P,2,2,3,1,6\nC,3,1\nC,3,0\n", (5, 3)),
            ("P,2,2,3,1,6\nC,3,1\nC,2,0\n", (5, 3)),
            ("P,2,2,3,1,6\nC,3,1\nC,4,1\n", (5, 3)),
            ("P,2,2,3,1,6\nC,3,1\nC,4,0\n", (0, 0)),
            ("P,2,2,3,1,6\nC,3,0\nC,3,1\n", (0, 0)),
        ]);
    }

    #[test]
    fn ranges_and_order_of_delay_lines() {
        answers(&[
            ("P,2,2,7,5,6\nL,0,5\n", (0, 0)),
            ("P,2,2,7,5,6\nL,0,0\n", (3, 2)),
            ("P,2,2,7,5,6\nL,0,6\n", (3, 2)),
            ("P,2,2,7,5,6\nL,999999,1\n", (0, 0)),
            ("P,2,2,7,5,6\nL,1000000,1\n", (3, 2)),
            ("P,2,2,7,5,6\nL,3,1\nL,3,1\n", (5, 3)),
            ("P,2,2,7,5,6\nL,3,1\nL,2,1\n", (5, 3)),
            ("P,2,2,7,5,6\nL,3,1\nL,2,6\n", (3, 3)),
            ("P,2,2,7,5,6\nL,3,1\nL,4,1\n", (0, 0)),
        ]);
    }

    #[test]
    fn the_delay_line_beyond_the_last() {
        assert_eq!(answer(&with_delays(2_048, "")), (0, 0));
        assert_eq!(answer(&with_delays(2_048, "L,2048,5\n")), (6, 2_050));
        assert_eq!(answer(&with_delays(2_048, "L,2048,5")), (2, 2_050));
        assert_eq!(answer(&with_delays(2_048, "L,2048,6\n")), (3, 2_050));
        assert_eq!(answer(&with_delays(2_048, "L,2047,5\n")), (5, 2_050));
        assert_eq!(answer(&with_delays(2_048, "C,1,1\n")), (2, 2_050));
        assert_eq!(answer(&with_delays(2_048, "L,2048,5\nZ\n")), (6, 2_050));
    }

    #[test]
    fn the_first_bad_line_decides() {
        answers(&[("P,2,2,3,1,6\nC,3,9\nZ\n", (3, 2)), ("P,2,2,3,1,6\nC,3,1\nC,3,0\nC,9,9\n", (5, 3))]);
    }

    #[test]
    fn a_plan_written_again_has_the_same_bytes() {
        for file in [
            WORKED.as_bytes(),
            b"P,64,1000,65535,255,1000000\nC,0,63\nC,1000000,0\nL,0,1\nL,999999,255\n",
            b"P,1,1,2,1,5\nQ,0\n",
            b"P,1,1,1,1,5\n",
            b"P,64,1000,1,255,1000000\nC,0,63\nL,0,255\n",
            b"P,5,2,6,3,60\nQ,0,1,2,3,4\n",
            b"P,12,2,6,3,60\nQ,11,0,10,1,9,2,8,3,7,4,6,5\nC,5,3\nL,7,2\n",
        ] {
            let plan = read(file).unwrap();
            assert_eq!(plan.bytes(), file);
            let mut part = vec![7; FILE_BYTES + 1];
            assert_eq!(plan.write(&mut part), Ok(file.len()));
            assert_eq!(&part[..file.len()], file);
            assert!(part[file.len()..].iter().all(|byte| *byte == 7));
        }
    }

    #[test]
    fn a_short_part_for_the_file_is_refused_and_left() {
        let mut part = vec![7; FILE_BYTES - 1];
        assert_eq!(read(WORKED.as_bytes()).unwrap().write(&mut part), Err(9));
        assert!(part.iter().all(|byte| *byte == 7));
    }
}
