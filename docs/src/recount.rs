//! The lines K of a log, counted once more from the lines alone. Whom each node observes is kept by the lines W and R; what a move passes
//! is counted over all nodes by their places in the ring. No rule of a node is used, and no walk around the ring.

use super::log::Line;
use super::plan::Plan;
use super::platform::Platform;
use super::ring::listed;

/// What came up of moves.
#[derive(Clone, Copy, PartialEq, Eq, Debug)]
pub struct Moves {
    /// For each number how many moves passed so many nodes.
    pub passed: [u64; 64],
    /// Of the moves, those by report, those that left the node alone, and those that are both.
    pub by_report: u64,
    pub alone: u64,
    pub alone_by_report: u64,
}

impl Moves {
    pub const NONE: Moves = Moves { passed: [0; 64], by_report: 0, alone: 0, alone_by_report: 0 };

    pub fn add(&mut self, other: &Moves) {
        self.passed.iter_mut().zip(other.passed).for_each(|(sum, count)| *sum += count);
        self.by_report += other.by_report;
        self.alone += other.alone;
        self.alone_by_report += other.alone_by_report;
    }

    pub fn all(&self) -> u64 {
        self.passed.iter().sum()
    }

    /// Those that passed more than the node left.
    pub fn passing_more(&self) -> u64 {
        self.passed[2..].iter().sum()
    }

    /// The greatest number passed.
    pub fn greatest(&self) -> usize {
        self.passed.iter().rposition(|count| *count > 0).unwrap_or(0)
    }
}

/// What is known of a ring after some lines of its log.
#[derive(Clone, Debug)]
pub struct Recount {
    /// For each node its place in the ring.
    places: Vec<usize>,
    /// For each node whom it observes.
    emitters: Vec<u64>,
    /// The line K that has to come next.
    due: Option<Line>,
    pub moves: Moves,
}

impl Recount {
    /// The ring of an opened file: each node observes the one before.
    pub fn opened(plan: &Plan) -> Recount {
        let order = in_order(plan);
        let before = |place: usize| u64::from(order[(place + order.len() - 1) % order.len()]);
        let mut recount = Recount { places: vec![0; order.len()], emitters: vec![0; order.len()], due: None, moves: Moves::NONE };
        for (place, node) in order.iter().enumerate() {
            recount.places[usize::from(*node)] = place;
            recount.emitters[usize::from(*node)] = before(place);
        }
        recount
    }

    /// The ring in the midst of a run, or on a lent store.
    pub fn standing(platform: &Platform) -> Recount {
        let emitters = platform.nodes().iter().map(|node| u64::from(node.emitter)).collect();
        Recount { emitters, ..Recount::opened(platform.plan()) }
    }

    /// The next line, which is K exactly where the one before moved an emitter, and then has its tick, node and list and the number passed.
    pub fn take(&mut self, line: Line) -> Result<(), String> {
        if let Some(due) = self.due.take() {
            return if line == due { Ok(()) } else { Err(format!("{line:?} stands where {due:?} is due")) };
        }
        let observes = self.emitters.get(line.node as usize).copied();
        match line.letter {
            b'K' => Err(format!("nothing moved before {line:?}")),
            b'W' if observes != Some(line.other) => Err(format!("the node observes {observes:?} at {line:?}")),
            b'W' => self.leave(line),
            b'R' if observes == Some(line.other) && line.other != line.node => self.leave(line),
            _ => Ok(()),
        }
    }

    /// No line K is due after the last line.
    pub fn end(&self) -> Result<(), String> {
        self.due.map_or(Ok(()), |due| Err(format!("{due:?} is due at the end")))
    }

    /// The line's node has left the node that is listed. The new emitter is the unlisted node of the fewest steps back from that one, the
    /// node itself where it is alone; passed are the listed nodes of fewer steps.
    fn leave(&mut self, line: Line) -> Result<(), String> {
        let nodes = self.places.len();
        let back = |node: &usize| (self.places[line.other as usize] + nodes - self.places[*node]) % nodes;
        let (passable, others): (Vec<usize>, Vec<usize>) = (0..nodes).partition(|node| listed(line.list, *node as u8));
        let emitter = others.into_iter().min_by_key(back).filter(|_| passable.contains(&(line.other as usize)));
        let emitter = emitter.ok_or(format!("nobody is left to observe, or the node left is not listed at {line:?}"))?;
        let passed = passable.iter().filter(|node| back(node) < back(&emitter)).count();
        self.due = Some(Line { letter: b'K', other: passed as u64, ..line });
        self.emitters[line.node as usize] = emitter as u64;
        self.moves.passed[passed] += 1;
        let (by_report, alone) = (line.letter == b'R', emitter as u64 == line.node);
        self.moves.by_report += u64::from(by_report);
        self.moves.alone += u64::from(alone);
        self.moves.alone_by_report += u64::from(by_report && alone);
        Ok(())
    }
}

/// The nodes in the ring's order.
fn in_order(plan: &Plan) -> Vec<u8> {
    if plan.order.is_empty() {
        (0..plan.nodes).collect()
    } else {
        plan.order.clone()
    }
}

/// Counts the lines K of a whole log once more: that of an accepted file, to its last line, which may be `8,0`.
pub fn of_log(plan: &Plan, log: &[u8]) -> Result<Moves, String> {
    let mut recount = Recount::opened(plan);
    for line in log.split_inclusive(|byte| *byte == b'\n').filter(|line| *line != b"8,0\n") {
        let line = Line::read(line).map_err(|number| format!("{:?} is refused by {number}", String::from_utf8_lossy(line)))?;
        recount.take(line)?;
    }
    recount.end()?;
    Ok(recount.moves)
}

#[cfg(test)]
mod tests {
    use super::super::plan;
    use super::*;

    /// Four nodes: 3 leaves 2, 0 hears of it and then leaves 3, passing 3 and 2.
    const LOG: &str = "W,6,3,2,0000000000000004\nK,6,3,1,0000000000000004\nR,7,0,2,0000000000000004\nR,8,0,2,0000000000000004\n\
        W,9,0,3,000000000000000c\nK,9,0,2,000000000000000c\nR,10,0,1,000000000000000e\nK,10,0,1,000000000000000e\nE,12,2,0,000000000000000c\n";

    fn moves_of(file: &str, log: &str) -> Result<Moves, String> {
        of_log(&plan::read(file.as_bytes()).unwrap(), log.as_bytes())
    }

    #[test]
    fn lines_are_counted() {
        let moves = moves_of("P,4,2,3,1,12\n", LOG).unwrap();
        assert_eq!((moves.all(), moves.passing_more(), moves.greatest()), (3, 1, 2));
        assert_eq!((moves.by_report, moves.alone, moves.alone_by_report), (1, 1, 1));
        assert_eq!(moves_of("P,4,2,3,1,12\nQ,1,2,3,0\n", LOG), Ok(moves));
        assert!(moves_of("P,4,2,3,1,12\nQ,2,1,3,0\n", LOG).is_err());
        assert_eq!(moves_of("P,4,2,3,1,12\n", "8,0\n"), Ok(Moves::NONE));
    }

    /// Each of these, put in place of a part of the log, is found.
    #[test]
    fn mistakes_are_found() {
        for (old, new) in [
            ("K,6,3,1,0000000000000004\n", ""),
            ("K,6,3,1,", "K,6,3,0,"),
            ("K,6,3,1,", "K,6,3,2,"),
            ("K,6,3,1,", "K,7,3,1,"),
            ("K,6,3,1,", "K,6,2,1,"),
            ("K,6,3,1,0000000000000004", "K,6,3,1,0000000000000000"),
            ("W,6,3,2,0000000000000004\nK,6,3,1,0000000000000004\n", "K,6,3,1,0000000000000004\nW,6,3,2,0000000000000004\n"),
            ("R,8,0,2,0000000000000004\n", "R,8,0,2,0000000000000004\nK,8,0,1,0000000000000004\n"),
            ("K,9,0,2,", "K,9,0,1,"),
            ("K,9,0,2,", "K,9,0,3,"),
            ("K,9,0,2,000000000000000c\n", "K,9,0,2,000000000000000c\nK,9,0,2,000000000000000c\n"),
            ("K,10,0,1,000000000000000e\n", ""),
            ("W,9,0,3,", "W,9,0,1,"),
            ("W,9,0,3,000000000000000c", "W,9,0,3,0000000000000004"),
            ("E,12,2,0,000000000000000c\n", "K,12,2,0,000000000000000c\n"),
            ("K,10,0,1,000000000000000e\nE,12,2,0,000000000000000c\n", ""),
            ("E,12,", "G,12,"),
        ] {
            assert!(LOG.contains(old));
            assert!(moves_of("P,4,2,3,1,12\n", &LOG.replacen(old, new, 1)).is_err(), "{old:?} for {new:?}");
        }
    }
}
