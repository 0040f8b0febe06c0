//! Demand 3 and requests 106 and 107 over all runs of small rings, by the simulator's search: every delay of every message, every crash at
//! every tick. Nothing may be found with W = H + D or more; with W = H + D − 1, and by wrong rules, something has to be, and the run file of
//! what is found with W = H + D − 1 has to be accepted, to list a live node at the same tick and to end in F. At each move the
//! number passed has to be the count of the listed nodes from the one left back to the new emitter, and every node reports a subject once.
//! Most rings are in the order of their numbers, some in another. There too a tick goes by number, so that what it does is not what it does
//! to the nodes renamed.
//!
//! In none of these rings a report of the emitter moves a node, nor does a list go by heartbeats from node to node. That takes more nodes, and
//! the search then has fewer choices: all messages take D ticks, and only the nodes that are named crash, at any tick.
//!
//! Usage: exhaust                      the table
//!        exhaust N H W D END [NODE..] one search, in the order of the nodes named or of the numbers; writes a run in which something is
//!                                     found, as a run file

use simulator::exhaust::{Finding, Found, Late, Outcome, Rules, Search};
use simulator::falsely;
use simulator::log::Line;
use simulator::plan::{self, Plan};
use simulator::platform::{self, Platform};
use simulator::settle::{self, Claim};
use std::process::ExitCode;
use std::time::Instant;

/// The end tick: runs are counted up to it.
const END: u32 = 60;

/// N, H, W and D of the searches by the paper's rules.
const KEPT: [(u8, u32, u32, u32); 26] = [
    (1, 1, 2, 1),
    (2, 1, 2, 1),
    (2, 2, 3, 1),
    (2, 1, 3, 2),
    (2, 2, 4, 2),
    (2, 3, 5, 2),
    (2, 1, 4, 3),
    (2, 2, 5, 3),
    (2, 4, 8, 4),
    (3, 1, 2, 1),
    (3, 2, 3, 1),
    (3, 3, 4, 1),
    (3, 1, 3, 2),
    (3, 1, 4, 2),
    (3, 2, 4, 2),
    (3, 3, 5, 2),
    (4, 1, 2, 1),
    (4, 2, 3, 1),
    (4, 1, 3, 1),
    (4, 1, 3, 2),
    (5, 1, 2, 1),
    (5, 2, 3, 1),
    (5, 3, 4, 1),
    (6, 1, 2, 1),
    (6, 2, 3, 1),
    (7, 1, 2, 1),
];

/// N, H and D of the searches with W = H + D − 1.
const SHORT: [(u8, u32, u32); 8] = [(2, 1, 1), (2, 2, 1), (2, 1, 3), (3, 1, 2), (3, 3, 2), (4, 2, 2), (5, 3, 1), (7, 2, 1)];

/// Five nodes, each of whose neighbours are those that are none in number order.
const APART: [u8; 5] = [0, 2, 4, 1, 3];
/// Four nodes, each of which has one neighbour that is none in number order.
const CROSSED: [u8; 4] = [0, 2, 1, 3];

/// The order, H and D of the searches in another order than that of the numbers, with W = H + D and with W = H + D − 1.
const ORDERED: [(&[u8], u32, u32); 5] = [(&APART, 1, 1), (&APART, 2, 1), (&APART, 3, 1), (&CROSSED, 1, 2), (&APART, 3, 2)];

/// N, H and D of the searches with W = H + D in every order of N nodes. With D = 1 all orders lead to as many events, with D = 2 they do not.
const EVERY_ORDER: [(u8, u32, u32); 2] = [(3, 1, 2), (4, 3, 2)];

/// Nine nodes, the steps between neighbours being 2.
const STRIDING: [u8; 9] = [0, 2, 4, 6, 8, 1, 3, 5, 7];
/// The end tick of the searches in larger rings.
const LATE_END: u32 = 150;

/// N, the order, H, D and the nodes that may crash of the searches in larger rings, with W = H + D.
const REPORTED: [(u8, &[u8], u32, u32, &[u8]); 6] = [
    (9, &[], 1, 3, &[1, 2, 3, 4]),
    (9, &[], 1, 5, &[1, 2, 3, 4]),
    (9, &STRIDING, 1, 3, &[2, 4, 6, 8]),
    (9, &[], 1, 3, &[1, 2, 3, 4, 5]),
    (9, &[], 1, 3, &[0, 1, 2, 3, 4, 8]),
    (8, &[], 1, 5, &[0, 1, 2, 3, 5]),
];

/// The same where the relays of a report may all die: 0 and the nodes one, two and four ahead of 1.
const DYING: [(u8, &[u8], u32, u32, &[u8]); 4] = [
    (9, &[], 4, 1, &[0, 2, 3, 5]),
    (9, &[], 3, 3, &[0, 2, 3, 5]),
    (9, &[], 1, 3, &[0, 2, 3, 5]),
    (9, &STRIDING, 4, 1, &[0, 4, 6, 1]),
];

/// Searches by a wrong rule, and what has to be found.
const WRONG: [(Rules, (u8, u32, u32, u32), Finding); 19] = [
    (Rules::ShortWatch, (3, 1, 3, 2), Finding::LiveNodeListed),
    (Rules::TimersFirst, (2, 1, 2, 1), Finding::LiveNodeListed),
    (Rules::TimersFirst, (4, 2, 4, 2), Finding::LiveNodeListed),
    (Rules::ShortSettling, (2, 1, 3, 2), Finding::Unsettled),
    (Rules::ShortSettling, (5, 1, 2, 1), Finding::Unsettled),
    (Rules::LeftNotCounted, (2, 1, 2, 1), Finding::Miscounted),
    (Rules::AllCounted, (3, 1, 3, 2), Finding::Miscounted),
    (Rules::AllCounted, (5, 1, 2, 1), Finding::Miscounted),
    (Rules::LongWatch, (4, 1, 2, 1), Finding::Unjoined),
    (Rules::LongWatch, (6, 2, 3, 1), Finding::Unjoined),
    (Rules::LateWatch, (3, 1, 3, 2), Finding::Unjoined),
    (Rules::LateWatch, (5, 3, 4, 1), Finding::Unjoined),
    (Rules::NoList, (5, 1, 2, 1), Finding::Unlisted),
    (Rules::NoList, (5, 3, 4, 1), Finding::Unlisted),
    (Rules::NoList, (6, 2, 3, 1), Finding::Unlisted),
    (Rules::NamedNotRelayed, (3, 1, 3, 2), Finding::Misreported),
    (Rules::NamedNotRelayed, (4, 2, 4, 2), Finding::Misreported),
    (Rules::LeftNotMarked, (3, 1, 2, 1), Finding::Misreported),
    (Rules::LeftNotMarked, (6, 2, 3, 1), Finding::Misreported),
];

/// Claims shorter than request 106's, and N, H, W and D of the searches in which they are found wrong.
const SHORTER: [(Rules, (u8, u32, u32, u32)); 8] = [
    (Rules::ShortJoining, (2, 1, 2, 1)),
    (Rules::ShortJoining, (3, 3, 5, 2)),
    (Rules::ShortJoining, (6, 1, 2, 1)),
    (Rules::SingleJoining, (3, 1, 2, 1)),
    (Rules::SingleJoining, (3, 1, 4, 2)),
    (Rules::SingleJoining, (4, 2, 3, 1)),
    (Rules::SingleJoining, (5, 3, 4, 1)),
    (Rules::SingleJoining, (7, 1, 2, 1)),
];

/// Claims shorter than request 107's, and N, H, W and D of the searches in which they are found wrong.
const SHORTER_LISTS: [(Rules, (u8, u32, u32, u32)); 6] = [
    (Rules::ShortListing, (2, 1, 2, 1)),
    (Rules::ShortListing, (3, 3, 5, 2)),
    (Rules::ShortListing, (6, 2, 3, 1)),
    (Rules::SingleListing, (3, 1, 2, 1)),
    (Rules::SingleListing, (5, 3, 4, 1)),
    (Rules::SingleListing, (7, 1, 2, 1)),
];

fn search((nodes, period, timeout, delay): (u8, u32, u32, u32)) -> Search {
    Search { nodes, order: Vec::new(), period, timeout, delay, least_delay: 1, mortal: u64::MAX, end: END, rules: Rules::Paper }
}

/// A search in a larger ring: all messages take D ticks, and only these nodes crash.
fn reported((nodes, order, period, delay, mortal): (u8, &[u8], u32, u32, &[u8])) -> Search {
    let mortal = mortal.iter().fold(0, |list, node| list | 1 << node);
    let search = search((nodes, period, period + delay, delay));
    Search { order: order.to_vec(), least_delay: delay, mortal, end: LATE_END, ..search }
}

/// Numbers parted by commas, or `-` for none.
fn listed_numbers(numbers: &[u8]) -> String {
    if numbers.is_empty() {
        return "-".to_string();
    }
    numbers.iter().map(u8::to_string).collect::<Vec<_>>().join(",")
}

fn searched(search: &Search) -> Outcome {
    let outcome = search.explore();
    let Search { nodes, period, timeout, delay, rules, order, mortal, .. } = search;
    let found = match &outcome.found {
        None => "nothing".to_string(),
        Some(Found { finding, tick, .. }) => format!("{finding:?} at tick {tick}"),
    };
    let runs = if outcome.found.is_none() { format!("{:.1e}", outcome.runs) } else { "-".to_string() };
    let closed = outcome.closed.map_or("-".to_string(), |tick| tick.to_string());
    let order = listed_numbers(order);
    let mortal: Vec<u8> = (0..*nodes).filter(|node| mortal >> node & 1 == 1).collect();
    let mortal = if mortal.len() == usize::from(*nodes) { "all".to_string() } else { listed_numbers(&mortal) };
    let (Outcome { states, events, moves_by_report, .. }, rules) = (&outcome, format!("{rules:?}"));
    let numbers = format!("{nodes:>2} {period:>2} {timeout:>2} {delay:>2}");
    let most = most_passed(&outcome);
    let counts = format!("{states:>8} {events:>9} {moves_by_report:>6} {most:>6} {runs:>8} {closed:>6}");
    let late = late_by_crashes(&outcome.late, |crashes| search.joining_time(crashes));
    let lists = late_by_crashes(&outcome.late_lists, |crashes| search.listing_time(crashes));
    println!("{}", format!("{rules:<15} {numbers} {order:<17} {mortal:<11} {counts}  {found}  {late}  {lists}").trim_end());
    outcome
}

/// For one crash done, for two and so on, how late what is claimed does not hold beside its bound; `-` where it always does.
fn late_by_crashes(late: &Late, bound: impl Fn(usize) -> u32) -> String {
    let last = late.iter().rposition(Option::is_some).unwrap_or(0);
    let one = |crashes: usize| late[crashes].map_or("-".to_string(), |late| format!("{late}/{}", bound(crashes)));
    (1..=last).map(one).collect::<Vec<_>>().join(" ")
}

/// The greatest number passed at a move.
fn most_passed(outcome: &Outcome) -> usize {
    outcome.passed.iter().rposition(|moves| *moves > 0).unwrap_or(0)
}

fn heading(what: &str) {
    println!("\n{what}\nrules            N  H  W  D order             crash         states    events  moves passed     runs closed  found    late    lists");
}

/// The last tick after the last of so many crashes at whose end a list should be short: the node after the dead leaves the last of them
/// 2 × W × f − W + D − 1 ticks after it, and each survivor names them to the next H + D − 1 ticks later.
fn reckoned(search: &Search, crashes: usize) -> u32 {
    let Search { period, timeout, delay, .. } = search;
    let hops = u32::from(search.nodes) - crashes as u32 - 1;
    timeout * (2 * crashes as u32 - 1) + delay + hops * (period + delay - 1) - 2
}

/// Nothing is found, whatever the end tick. Survivors of any number of crashes are late to be joined and to have full lists, if only by
/// some ticks, and no list is short later than reckoned. Where all nodes may crash, there are moves that pass one node, two and so on to
/// all others. Every heartbeat that comes to a live node is its emitter's, so that what one of another node does plays no part.
fn kept(search: &Search) -> Result<Outcome, String> {
    let outcome = searched(search);
    if outcome.found.is_some() || outcome.closed.is_none() {
        return Err(format!("something is found, or may be later, in {search:?}"));
    }
    let mortal = (0..search.nodes).filter(|node| search.mortal >> node & 1 == 1).count();
    let most = mortal.min(usize::from(search.nodes) - 1);
    if outcome.late[1..=most].contains(&None) || outcome.late_lists[1..=most].contains(&None) {
        return Err(format!("survivors are always joined, or lists full, in {search:?}: {:?}, {:?}", outcome.late, outcome.late_lists));
    }
    if (1..=most).any(|crashes| outcome.late_lists[crashes] > Some(reckoned(search, crashes))) {
        return Err(format!("lists are short later than reckoned in {search:?}: {:?}", outcome.late_lists));
    }
    if outcome.strange > 0 {
        return Err(format!("a heartbeat comes from another than the emitter in {search:?}"));
    }
    if search.mortal == u64::MAX && outcome.passed[1..usize::from(search.nodes)].contains(&0) {
        return Err(format!("no move passes so many nodes in {search:?}: {:?}", outcome.passed));
    }
    Ok(outcome)
}

/// The run that was found, written as a run file with its delays as L lines, is accepted. Its log has a first line by which a live node is
/// listed, at the same tick, and ends in F. The platform's nodes tell that tick too.
fn lists_a_live_node(found: &Found) -> bool {
    let (Ok(plan), mut log) = (plan::read(&found.plan.bytes()), Vec::new()) else { return false };
    let told = falsely::of_run(&mut Platform::open(plan.clone()));
    let written = platform::rehearse(plan.clone(), &mut log).is_ok();
    let last = log.split_inclusive(|byte| *byte == b'\n').next_back().and_then(|line| Line::read(line).ok());
    let ends_in_f = last.is_some_and(|line| line.letter == b'F' && line.tick == u64::from(plan.end));
    plan == found.plan && written && ends_in_f && told.first == Some(u64::from(found.tick)) && falsely::of_log(&log) == Ok(told)
}

/// A live node is listed.
fn listed(search: &Search) -> Result<(), String> {
    match searched(search).found {
        Some(found) if found.finding == Finding::LiveNodeListed && lists_a_live_node(&found) => Ok(()),
        _ => Err(format!("no live node is listed in {search:?}")),
    }
}

/// By the run that was found, done by the platform's events to the end of that tick, nothing is left that is due by the tick that the search
/// claims, and what is claimed does not hold.
fn breaks(claim: Claim, found: &Found, time: impl Fn(usize) -> u32) -> bool {
    let mut platform = Platform::open(Plan { end: found.tick, ..found.plan.clone() });
    platform.run(u64::MAX);
    let Some(crash) = settle::last_crash(&platform) else { return false };
    let claimed = crash + time(platform.crashes_done());
    platform.earliest_due().is_none_or(|due| due > claimed) && !claim.holds(platform.ring(), platform.nodes())
}

/// Survivors are not joined where the claim is shorter than request 106's.
fn unjoined(search: &Search) -> Result<(), String> {
    let time = |crashes| search.joining_time(crashes);
    match searched(search).found {
        Some(found) if found.finding == Finding::Unjoined && breaks(Claim::Joined, &found, time) => Ok(()),
        _ => Err(format!("survivors are joined in {search:?}")),
    }
}

/// A list is not full where the claim is shorter than request 107's.
fn unlisted(search: &Search) -> Result<(), String> {
    let time = |crashes| search.listing_time(crashes);
    match searched(search).found {
        Some(found) if found.finding == Finding::Unlisted && breaks(Claim::Listed, &found, time) => Ok(()),
        _ => Err(format!("lists are full in {search:?}")),
    }
}

/// The orders of so many nodes that begin with node 0; every other is one of these, rotated, and the same ring.
fn orders(nodes: u8) -> Vec<Vec<u8>> {
    (1..nodes).fold(vec![vec![0]], |orders, node| {
        let put = |order: &Vec<u8>, place| [&order[..place], &[node], &order[place..]].concat();
        orders.iter().flat_map(|order| (1..=order.len()).map(move |place| put(order, place))).collect()
    })
}

fn table() -> Result<(), String> {
    heading("W at least H + D:");
    for numbers in KEPT {
        kept(&search(numbers))?;
    }
    heading("W = H + D - 1:");
    for (nodes, period, delay) in SHORT {
        listed(&search((nodes, period, period + delay - 1, delay)))?;
    }
    heading("In another order, W = H + D and then W = H + D - 1:");
    for (order, period, delay) in ORDERED {
        let ordered = |timeout| Search { order: order.to_vec(), ..search((order.len() as u8, period, timeout, delay)) };
        kept(&ordered(period + delay))?;
        listed(&ordered(period + delay - 1))?;
    }
    heading("In every order:");
    for (nodes, period, delay) in EVERY_ORDER {
        for order in orders(nodes) {
            kept(&Search { order, ..search((nodes, period, period + delay, delay)) })?;
        }
    }
    larger_rings()?;
    wrong_rules()
}

/// Reports of the emitter move nodes; and relays die, so that without lists in heartbeats some list stays short.
fn larger_rings() -> Result<(), String> {
    heading("Larger rings, all messages D ticks in flight; reports of the emitter move nodes:");
    for numbers in REPORTED {
        let outcome = kept(&reported(numbers))?;
        if outcome.moves_by_report == 0 || most_passed(&outcome) < 2 {
            return Err(format!("no report moves a node, or no move passes more than one, in {:?}", reported(numbers)));
        }
    }
    heading("Larger rings, all messages D ticks in flight; the relays of a report die, and then without lists in heartbeats:");
    for numbers in DYING {
        kept(&reported(numbers))?;
        finds(&Search { rules: Rules::NoList, ..reported(numbers) }, Finding::Unlisted)?;
    }
    Ok(())
}

fn wrong_rules() -> Result<(), String> {
    heading("Wrong rules: W for 2 x W after moving, timers before deliveries, S shorter by 2 x D; passed without the one left, or all listed;\n\
        3 x W after moving, or no watch until the new emitter is heard; no list in heartbeats; a node that a heartbeat named not relayed;\n\
        the emitter left not marked:");
    for (rules, numbers, finding) in WRONG {
        finds(&Search { rules, ..search(numbers) }, finding)?;
    }
    heading("Claims shorter than 2 x W x f + D: with f - 1 for f, and with W for 2 x W:");
    for (rules, numbers) in SHORTER {
        unjoined(&Search { rules, ..search(numbers) })?;
    }
    heading("Claims shorter than 2 x W x f + D + (m - 1) x (H + D): with f - 1 for f, with W for 2 x W, and without (m - 1) x (H + D):");
    for (rules, numbers) in SHORTER_LISTS {
        unlisted(&Search { rules, ..search(numbers) })?;
    }
    for numbers in [REPORTED[0], REPORTED[2], DYING[1]] {
        unlisted(&Search { rules: Rules::NoSpreading, ..reported(numbers) })?;
    }
    heading("W for 2 x W after a move by report:");
    for numbers in &REPORTED[..3] {
        finds(&Search { rules: Rules::ShortReported, ..reported(*numbers) }, Finding::LiveNodeListed)?;
    }
    Ok(())
}

/// A search by a wrong rule finds this.
fn finds(wrong: &Search, finding: Finding) -> Result<(), String> {
    if searched(wrong).found.map(|found| found.finding) != Some(finding) {
        return Err(format!("{finding:?} is not found in {wrong:?}"));
    }
    Ok(())
}

fn one(numbers: &[u32]) -> Result<(), String> {
    let usage = "usage: exhaust [N H W D END [NODE..]], N from 1 to 8, no node or each once";
    let [nodes @ 1..=8, period, timeout, delay, end, order @ ..] = numbers else {
        return Err(usage.to_string());
    };
    if !order.is_empty() && (order.len() as u32 != *nodes || (0..*nodes).any(|node| !order.contains(&node))) {
        return Err(usage.to_string());
    }
    let order = order.iter().map(|node| *node as u8).collect();
    heading("One search:");
    if let Some(found) = searched(&Search { order, end: *end, ..search((*nodes as u8, *period, *timeout, *delay)) }).found {
        print!("{}", String::from_utf8_lossy(&found.plan.bytes()));
    }
    Ok(())
}

fn main() -> ExitCode {
    let words: Result<Vec<u32>, _> = std::env::args().skip(1).map(|word| word.parse()).collect();
    let began = Instant::now();
    println!("exhaust: states at the start of a tick; all runs up to the end tick, {END} in the table, {LATE_END} in larger rings;");
    println!("exhaust: moves are the reports that move a node, passed is the greatest number of nodes passed at a move;");
    println!("exhaust: closed is the tick after which no new state comes up, so that the answer holds for every end tick;");
    println!("exhaust: late is, for one crash done, for two and so on, the most ticks after the last one at whose end survivors are not joined,");
    println!("exhaust: beside 2 x W x f + D, from which on they are; lists is the same of lists that are not full, beside (m - 1) x (H + D) more");
    let done = match words {
        Ok(words) if words.is_empty() => table(),
        Ok(words) => one(&words),
        Err(error) => Err(error.to_string()),
    };
    match done {
        Ok(()) => {
            println!("\nexhaust: passed, {:.1} s", began.elapsed().as_secs_f64());
            ExitCode::SUCCESS
        }
        Err(error) => {
            eprintln!("exhaust: {error}");
            ExitCode::FAILURE
        }
    }
}
