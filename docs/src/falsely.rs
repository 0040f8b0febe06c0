//! How bad a short W is: the live nodes that get listed in a run. It is told by the platform's nodes after each event, or by the lines of a
//! log alone. With W at least H + D there are none.

use super::log::Line;
use super::node::{self, Node};
use super::platform::{Platform, Step};
use super::ring::{listed, with};

/// What comes up of live nodes that are listed. Who is live is judged after each event.
#[derive(Clone, Copy, PartialEq, Eq, Debug)]
pub struct Falsely {
    /// The tick at which a live node is first listed; nothing where none ever is.
    pub first: Option<u64>,
    /// The most live nodes that live nodes list after some event.
    pub most: u32,
    /// Events by which a node comes to list a live node, or several, that it did not list before.
    pub events: u64,
}

impl Falsely {
    pub const NONE: Falsely = Falsely { first: None, most: 0, events: 0 };

    /// One more event: its tick, the live nodes that its node newly lists, and those that live nodes list after it.
    fn count(&mut self, tick: u64, new: u64, all: u64) {
        if new != 0 {
            self.first = self.first.or(Some(tick));
            self.events += 1;
        }
        self.most = self.most.max(all.count_ones());
    }
}

/// The live nodes that live nodes list.
fn live_and_listed(nodes: &[Node]) -> u64 {
    let lists = nodes.iter().filter(|node| node.alive).fold(0, |lists, node| lists | node.dead_list);
    lists & !node::crashed(nodes)
}

/// Takes the platform to its last event and looks at the nodes after each.
pub fn of_run(platform: &mut Platform) -> Falsely {
    let mut falsely = Falsely::NONE;
    let mut lists: Vec<u64> = platform.nodes().iter().map(|node| node.dead_list).collect();
    while let Step::Event(event) = platform.step() {
        let place = event.line.node as usize;
        let list = platform.nodes()[place].dead_list;
        let new = list & !lists[place] & !platform.crashed();
        lists[place] = list;
        falsely.count(u64::from(platform.last_tick()), new, live_and_listed(platform.nodes()));
    }
    falsely
}

/// The same of a whole log by its lines and nothing else: each has its node's list after the event, and the lines C tell who has crashed. A
/// line K has the list of the line before it; the last line is of no node.
pub fn of_lines(lines: impl IntoIterator<Item = Line>) -> Falsely {
    let mut falsely = Falsely::NONE;
    let (mut lists, mut crashed) = ([0u64; 64], 0);
    for Line { letter, tick, node, list, .. } in lines {
        match letter {
            b'E' | b'F' => break,
            b'C' => crashed = with(crashed, node as u8),
            _ => {}
        }
        let new = list & !lists[node as usize] & !crashed;
        lists[node as usize] = list;
        let by_live = (0u8..).zip(lists).filter(|(node, _)| !listed(crashed, *node)).fold(0, |all, (_, list)| all | list);
        falsely.count(tick, new, by_live & !crashed);
    }
    falsely
}

/// The same of a log's bytes, to its last line, which may be `8,0`. An error names a line that the reader refuses.
pub fn of_log(log: &[u8]) -> Result<Falsely, String> {
    let lines = log.split_inclusive(|byte| *byte == b'\n').filter(|line| *line != b"8,0\n");
    let read = |line: &[u8]| Line::read(line).map_err(|number| format!("{:?} is refused by {number}", String::from_utf8_lossy(line)));
    Ok(of_lines(lines.map(read).collect::<Result<Vec<Line>, String>>()?))
}

#[cfg(test)]
mod tests {
    use super::super::plan;
    use super::*;

    fn told(first: u64, most: u32, events: u64) -> Falsely {
        Falsely { first: Some(first), most, events }
    }

    /// By the platform's nodes; the lines of its log tell the same.
    fn of_file(file: &str) -> Falsely {
        let plan = plan::read(file.as_bytes()).expect("the file is accepted");
        let mut log = Vec::new();
        super::super::platform::rehearse(plan.clone(), &mut log).expect("a vector takes every byte");
        let falsely = of_run(&mut Platform::open(plan));
        assert_eq!(of_log(&log), Ok(falsely), "{file}");
        falsely
    }

    /// Where the dead alone are listed nothing is counted.
    #[test]
    fn the_dead_do_not_count() {
        for file in ["P,2,2,3,1,6\nC,3,1\n", "P,5,1,3,2,40\nC,2,1\nC,2,2\n", "P,1,1,1,1,5\n", "P,3,3,4,1,60\n"] {
            assert_eq!(of_file(file), Falsely::NONE, "{file}");
        }
    }

    /// Two nodes that list each other at tick 2, by an event each. Where the first of them crashes at tick 1, the other lists a dead node, and
    /// the same where it crashes at tick 2, as crashes come first. Where it crashes at tick 3, one node alone is live and listed from then on.
    #[test]
    fn two_nodes_list_each_other() {
        assert_eq!(of_file("P,2,2,2,1,1\n"), Falsely::NONE);
        assert_eq!(of_file("P,2,2,2,1,6\n"), told(2, 2, 2));
        assert_eq!(of_file("P,2,2,2,1,6\nC,1,0\n"), Falsely::NONE);
        assert_eq!(of_file("P,2,2,2,1,6\nC,2,0\n"), Falsely::NONE);
        assert_eq!(of_file("P,2,2,2,1,6\nC,3,0\n"), told(2, 2, 2));
    }

    /// One node of three lists another that lives, and then a dead one, at tick 12; the other survivor lists both of the others by one
    /// heartbeat. After that event both lists hold one live node each. A line K counts for nothing.
    #[test]
    fn events_are_counted_once() {
        let log = "W,4,0,2,0000000000000004\nK,4,0,1,0000000000000004\nS,5,0,1,0000000000000004\nC,6,1,1,0000000000000000\n\
            W,12,0,1,0000000000000006\nK,12,0,2,0000000000000006\nH,13,2,3,000000000000000b\nX,14,1,0,0000000000000000\n\
            F,20,3,0,0000000000000002\n";
        assert_eq!(of_log(log.as_bytes()), Ok(told(4, 3, 2)));
        assert_eq!(of_log(&log.as_bytes()[..log.find("H,13").unwrap()]), Ok(told(4, 1, 1)));
        assert_eq!(of_log(b"8,0\n"), Ok(Falsely::NONE));
        assert!(of_log(b"F,20,65,0,0000000000000002\n").is_err());
    }

    /// What only a dead node lists is not counted in the most: 0 lists 2 and crashes.
    #[test]
    fn lists_of_the_dead_do_not_count() {
        let log = "W,4,0,2,0000000000000004\nK,4,0,1,0000000000000004\nC,4,0,0,0000000000000004\nW,5,2,1,0000000000000002\n\
            F,20,2,0,0000000000000001\n";
        assert_eq!(of_log(log.as_bytes()), Ok(told(4, 1, 2)));
    }
}
