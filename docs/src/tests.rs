//! Whole runs: the worked logs, the edges of 01 that concern the platform, short time-outs, rings in another order, the words of demand 3
//! and of requests 106 and 107 on generated plans, lists that heartbeats carry; and the turns of the dispatcher.

use super::dispatch::{self, Given};
use super::falsely::{self, Falsely};
use super::generator;
use super::joining::{self, Joining, Late};
use super::layout;
use super::limits::*;
use super::log::{self, Line};
use super::node::{Content, Node, Timer};
use super::plan::{self, Crash, Plan};
use super::platform::{self, Ending, Event, Platform, Run, Step};
use super::queue::{Cause, Message, Pending};
use super::random::Random;
use super::recount::{self, Moves};
use super::ring::{self, Ring};
use super::settle::{self, Claim};
use super::store::{self, Held};

/// The seed of the generated plans; a failing case names its index.
const SEED: u64 = 20_261_115;

fn open(file: &str) -> Platform {
    Platform::open(plan::read(file.as_bytes()).expect("the file is accepted"))
}

/// The whole log, as the rehearsal program writes it.
fn log_of(file: &str) -> String {
    let mut text = Vec::new();
    platform::rehearse(plan::read(file.as_bytes()).expect("the file is accepted"), &mut text).unwrap();
    String::from_utf8(text).unwrap()
}

fn last_line(file: &str) -> String {
    log_of(file).lines().last().unwrap().to_string()
}

/// What a caller can see of a platform.
fn state(platform: &Platform) -> impl PartialEq + std::fmt::Debug {
    (
        platform.nodes().to_vec(),
        platform.messages(),
        (platform.in_flight(), platform.next_number(), platform.events_done(), platform.last_tick()),
        (platform.crashes_done(), platform.crashed()),
    )
}

/// Takes the platform through single steps to the end, `check` after opening and after each.
fn for_each_event(platform: &mut Platform, mut check: impl FnMut(&mut Platform)) {
    check(platform);
    while let Step::Event(_) = platform.step() {
        check(platform);
    }
}

#[test]
fn the_worked_log() {
    let expected = "S,2,0,1,0000000000000000\nS,2,1,0,0000000000000000\nC,3,1,1,0000000000000000\n\
        X,3,1,0,0000000000000000\nH,3,0,1,0000000000000000\nS,4,0,1,0000000000000000\n\
        X,5,1,0,0000000000000000\nW,6,0,1,0000000000000002\nK,6,0,1,0000000000000002\nE,6,1,0,0000000000000002\n";
    assert_eq!(log_of("P,2,2,3,1,6\nC,3,1\n"), expected);
}

#[test]
fn a_node_alone_from_the_start() {
    assert_eq!(log_of("P,1,1,2,1,5\n"), "E,5,1,0,0000000000000000\n");
    assert_eq!(log_of("P,1,1,2,1,5\nC,0,0\n"), "C,0,0,0,0000000000000000\nE,5,0,0,0000000000000001\n");
}

/// Two nodes, H 2, W 2, D 1, where W 3 would be enough. At tick 2 nothing has been sent yet, and the timers go by node:
///
/// - The watch of 0 is due, on 1. It lists 1, goes back from 1 to itself, having passed 1, and is alone: both timers off. So it sends no
///   heartbeat at tick 2 and nothing at all.
/// - The watch of 1 is due, on 0, and the same happens there.
///
/// Both live on and list each other. Nothing is in flight or due any more, and no node has crashed.
#[test]
fn two_nodes_with_a_short_timeout() {
    let expected = "W,2,0,1,0000000000000002\nK,2,0,1,0000000000000002\nW,2,1,0,0000000000000001\nK,2,1,1,0000000000000001\n\
        F,6,2,0,0000000000000000\n";
    assert_eq!(log_of("P,2,2,2,1,6\n"), expected);
}

/// Three nodes, H 2, W 3, D 2: one tick less than H + D. Each delay is 2, but the first heartbeats of 0 and 1 take one tick. So that of 2
/// comes to 0 one tick too late, and in the end each of the three live nodes lists both others:
///
/// - Tick 2: the heartbeats 0 → 1, 1 → 2 and 2 → 0, numbers 0, 1 and 2.
/// - Tick 3: the first two arrive, watches due at 6. The watch of 0 expires: it lists 2, which lives, goes back to 1, watch due at 9, and
///   sends O and R of 2 to 1, numbers 3 and 4.
/// - Tick 4: the late heartbeat comes to 0, which observes 1 now: nothing. All send, 5 to 7.
/// - Tick 5: the O makes 1 send to 0, at once. By the report 1 lists 2 and passes it on to 0, number 8; its heartbeat is 9. It sends to 2 no
///   more.
/// - Tick 6: the heartbeats of tick 4. Those of 0 and 1 renew the watches of 1 and 2 to 9; that of 2 does nothing. 0 and 2 send, 10 and 11.
/// - Tick 7: the report comes back to 0, which has marked 2: nothing. The heartbeat of 1 renews the watch of 0 to 10. 1 sends, 12.
/// - Tick 8: the heartbeats 10 and 11, the watch of 1 to 11. 0 and 2 send, 13 and 14.
/// - Tick 9: heartbeat 12, the watch of 0 to 12. 1 sends, 15. The watch of 2 expires, as 1 sends to 0 now: it lists 1, goes back to 0, watch
///   due at 15, and sends O and R of 1 to 0, numbers 16 and 17.
/// - Tick 10: the heartbeats 13 and 14, the watch of 1 to 13. 0 and 2 send, 18 and 19, that of 2 with its list.
/// - Tick 11: heartbeat 15. The O makes 2 the observer of 0. The report of 1, the emitter of 0, leaves 0 alone, as it lists 2 already: it
///   passed one node, and the heartbeat that was due at this tick is off. 1 sends, 20.
/// - Tick 12: heartbeat 18, sent before that, the watch of 1 to 15. Heartbeat 19 comes to 0, which is its own emitter: nothing. 2 sends, 21.
/// - Ticks 13 and 14: 20 and 21 do nothing at 0. 1 and 2 send, 22 and 23.
/// - Tick 15: heartbeat 22. 1 lists 0, goes back over 2 to itself, having passed two, and is alone; so is 2, which lists 0 and passes it.
/// - Tick 16: heartbeat 23. Nothing is left.
const ONE_TICK_SHORT: (&str, &str) = (
    "P,3,2,3,2,16\nL,0,1\nL,1,1\n",
    "S,2,0,1,0000000000000000\nS,2,1,2,0000000000000000\nS,2,2,0,0000000000000000\n\
    H,3,1,0,0000000000000000\nH,3,2,1,0000000000000000\nW,3,0,2,0000000000000004\nK,3,0,1,0000000000000004\n\
    H,4,0,2,0000000000000004\nS,4,0,1,0000000000000004\nS,4,1,2,0000000000000000\nS,4,2,0,0000000000000000\n\
    O,5,1,0,0000000000000000\nR,5,1,2,0000000000000004\nS,5,1,0,0000000000000004\n\
    H,6,1,0,0000000000000004\nH,6,2,1,0000000000000000\nH,6,0,2,0000000000000004\nS,6,0,1,0000000000000004\nS,6,2,0,0000000000000000\n\
    R,7,0,2,0000000000000004\nH,7,0,1,0000000000000004\nS,7,1,0,0000000000000004\n\
    H,8,1,0,0000000000000004\nH,8,0,2,0000000000000004\nS,8,0,1,0000000000000004\nS,8,2,0,0000000000000000\n\
    H,9,0,1,0000000000000004\nS,9,1,0,0000000000000004\nW,9,2,1,0000000000000002\nK,9,2,1,0000000000000002\n\
    H,10,1,0,0000000000000004\nH,10,0,2,0000000000000004\nS,10,0,1,0000000000000004\nS,10,2,0,0000000000000002\n\
    H,11,0,1,0000000000000004\nO,11,0,2,0000000000000004\nR,11,0,1,0000000000000006\nK,11,0,1,0000000000000006\nS,11,1,0,0000000000000004\n\
    H,12,1,0,0000000000000004\nH,12,0,2,0000000000000006\nS,12,2,0,0000000000000002\n\
    H,13,0,1,0000000000000006\nS,13,1,0,0000000000000004\n\
    H,14,0,2,0000000000000006\nS,14,2,0,0000000000000002\n\
    H,15,0,1,0000000000000006\nW,15,1,0,0000000000000005\nK,15,1,2,0000000000000005\nW,15,2,0,0000000000000003\nK,15,2,1,0000000000000003\n\
    H,16,0,2,0000000000000006\nF,16,3,0,0000000000000000\n",
);

#[test]
fn one_tick_less_lists_every_live_node() {
    let (file, log) = ONE_TICK_SHORT;
    assert_eq!(log_of(file), log);
    let moves = recount::of_log(open(file).plan(), log.as_bytes()).expect("the lines K are right");
    assert_eq!((moves.all(), moves.by_report, moves.alone, moves.alone_by_report, moves.passing_more()), (5, 1, 3, 1, 1));
    let told = Falsely { first: Some(3), most: 3, events: 6 };
    assert_eq!((falsely::of_run(&mut open(file)), falsely::of_log(log.as_bytes())), (told, Ok(told)));
    let long_enough = file.replacen("P,3,2,3,2,", "P,3,2,4,2,", 1);
    assert_eq!(falsely::of_run(&mut open(&long_enough)), Falsely::NONE);
    assert!(last_line(&long_enough).starts_with("E,16,3,"));
}

/// The same where the report of 1, number 17, takes one tick: it leaves 0 alone at tick 10, before the O of 2 arrives at tick 11. "An O that
/// reaches a node that is alone" makes it send to 2, at once and from then on, while it stays its own emitter with the watch off. So 2 keeps
/// observing it: its heartbeats renew the watch of 2, at tick 13 first.
#[test]
fn a_node_that_is_alone_takes_a_new_observer() {
    let file = &(ONE_TICK_SHORT.0.to_string() + "L,17,1\n");
    let log = log_of(file);
    for part in [
        "R,10,0,1,0000000000000006\nK,10,0,1,0000000000000006\nS,10,2,0,0000000000000002\n",
        "O,11,0,2,0000000000000006\nS,11,0,2,0000000000000006\n",
        "W,13,1,0,0000000000000005\nK,13,1,2,0000000000000005\n",
        "H,13,2,0,0000000000000002\n",
        "F,16,3,2,0000000000000000\n",
    ] {
        assert!(log.contains(part), "{part}");
    }
    assert!(!log.contains("W,15,2,"));
    let mut platform = open(file);
    platform.run(u64::MAX);
    let node = platform.nodes()[0];
    assert_eq!((node.emitter, node.observer, node.watch, node.heartbeat), (0, 2, None, Some(17)));
    assert!(store::check(&store::encode(&platform)));
    stores_agree(open(file), 100, 0, 0);
}

/// With N = 1 nothing happens, and the last line is F all the same: W 1 is below H + D = 2.
#[test]
fn a_node_alone_with_a_short_timeout() {
    assert_eq!(log_of("P,1,1,1,1,5\n"), "F,5,1,0,0000000000000000\n");
    assert_eq!(log_of("P,1,1,1,1,5\nC,0,0\n"), "C,0,0,0,0000000000000000\nF,5,0,0,0000000000000001\n");
    assert_eq!(log_of("P,1,1,1,1,5\nQ,0\n"), "F,5,1,0,0000000000000000\n");
}

/// Where every delay is D and no node crashes, the first heartbeats arrive at tick H + D, so that with any shorter W all watches expire at
/// tick W. In the end each node lists all others, which live.
#[test]
fn with_every_delay_d_a_short_timeout_lists_all() {
    let told = |nodes, timeout, end| falsely::of_run(&mut open(&format!("P,{nodes},5,{timeout},3,{end}\n")));
    for timeout in 1..8 {
        assert_eq!(told(8, timeout, 100), Falsely { first: Some(timeout), most: 8, events: 8 * 7 }, "W {timeout}");
        assert_eq!(told(8, timeout, timeout), Falsely { first: Some(timeout), most: 8, events: 8 }, "W {timeout}");
        assert_eq!(told(8, timeout, timeout - 1), Falsely::NONE, "W {timeout}");
        assert_eq!(told(1, timeout, 100), Falsely::NONE, "W {timeout}");
    }
    assert_eq!([8, 9, 100].map(|timeout| told(8, timeout, 100)), [Falsely::NONE; 3]);
    let mut platform = open("P,48,100,119,20,2000\n");
    assert_eq!(falsely::of_run(&mut platform), Falsely { first: Some(119), most: 48, events: 398 });
    assert_eq!(platform.step(), Step::Refused);
    assert_eq!(falsely::of_run(&mut open("P,48,100,120,20,2000\n")), Falsely::NONE);
}

/// "Such a run's last line has the letter F instead of E", decided by the P line alone: with W = H + D it is E and with one tick less F, also
/// where no live node is listed, as N is 1, nothing happens up to the end tick, or all have crashed.
#[test]
fn the_p_line_decides_the_last_letter() {
    for (period, delay) in [(1, 1), (2, 1), (1, 2), (5, 3), (1_000, 255), (1_000, 1), (1, 255)] {
        for (timeout, letter) in [(1, 'F'), (period + delay - 1, 'F'), (period + delay, 'E'), (period + delay + 1, 'E'), (65_535, 'E')] {
            let p_line = |nodes, end| format!("P,{nodes},{period},{timeout},{delay},{end}\n");
            let last = |survivors, crashed| format!("{letter},0,{survivors},0,{crashed:016x}");
            assert_eq!(last_line(&p_line(1, 0)), last(1, 0), "H {period}, D {delay}, W {timeout}");
            assert_eq!(last_line(&p_line(3, 0)), last(3, 0), "H {period}, D {delay}, W {timeout}");
            assert_eq!(last_line(&(p_line(2, 0) + "C,0,0\nC,0,1\n")), last(0, 3), "H {period}, D {delay}, W {timeout}");
            assert!(last_line(&p_line(2, 70)).starts_with(letter), "H {period}, D {delay}, W {timeout}");
        }
    }
}

#[test]
fn end_at_tick_zero() {
    assert_eq!(log_of("P,2,1,2,1,0\n"), "E,0,2,0,0000000000000000\n");
    assert_eq!(log_of("P,2,1,2,1,0\nC,0,1\n"), "C,0,1,1,0000000000000000\nE,0,1,0,0000000000000002\n");
}

#[test]
fn deliveries_come_before_timers_and_crashes_before_both() {
    let log = log_of("P,2,1,2,1,2\nC,2,1\n");
    let order: Vec<&str> = log.lines().map(|line| &line[..5]).collect();
    assert_eq!(order, ["S,1,0", "S,1,1", "C,2,1", "X,2,1", "H,2,0", "S,2,0", "E,2,1"]);
}

#[test]
fn timers_go_by_node_and_watch_before_heartbeat() {
    let log = log_of("P,3,2,4,2,4\nC,0,1\n");
    let order: Vec<&str> =
        log.lines().filter(|line| line.split(',').nth(1) == Some("4")).map(|line| &line[..5]).collect();
    assert_eq!(order, ["X,4,1", "H,4,0", "S,4,0", "W,4,2", "K,4,2", "S,4,2", "E,4,2"]);
}

#[test]
fn twice_the_timeout_after_a_move() {
    let log = log_of("P,3,2,3,1,12\nC,1,0\nC,1,2\n");
    let watches: Vec<&str> = log.lines().filter(|line| line.starts_with('W')).collect();
    assert_eq!(watches, ["W,3,1,0,0000000000000001", "W,9,1,2,0000000000000005"]);
}

#[test]
fn a_node_that_becomes_alone_sends_no_heartbeat_at_that_tick() {
    let log = log_of("P,2,2,4,2,20\nC,0,1\n");
    assert!(log.contains("W,4,0,1,0000000000000002\n"));
    assert!(!log.contains("S,4,0"));
    let end = "X,4,1,0,0000000000000000\nW,4,0,1,0000000000000002\nK,4,0,1,0000000000000002\nE,20,1,0,0000000000000002\n";
    assert!(log.ends_with(end));
}

#[test]
fn delays_go_by_message_number() {
    let log = log_of("P,2,2,7,5,4\nL,0,2\nL,1,1\n");
    let lines: Vec<&str> = log.lines().map(|line| &line[..7]).collect();
    assert_eq!(lines, ["S,2,0,1", "S,2,1,0", "H,3,0,1", "H,4,1,0", "S,4,0,1", "S,4,1,0", "E,4,2,2"]);
}

#[test]
fn messages_to_crashed_nodes_count_as_in_flight() {
    assert_eq!(last_line("P,2,2,7,5,3\nC,3,1\n"), "E,3,1,2,0000000000000002");
}

#[test]
fn jumps_over_listed_nodes_in_a_run() {
    let mut platform = open("P,8,2,3,1,12\nC,0,2\nC,0,3\n");
    platform.run(u64::MAX);
    assert_eq!(platform.nodes()[4].dead_list, 0b1100);
    assert!(settle::settled(platform.ring(), platform.nodes()));
    let reports = log_of("P,8,2,3,1,12\nC,0,2\nC,0,3\n");
    let of_2: Vec<&str> =
        reports.lines().filter(|line| line.starts_with("R,10,") && line.contains(",2,0")).collect();
    assert_eq!(of_2.iter().map(|line| &line[5..6]).collect::<Vec<_>>(), ["5", "6", "0"]);
}

/// The ring is 2 → 0 → 3 → 1 → 2; H 2, W 3, D 1, and node 0 crashes at tick 3. The log is worked by hand:
///
/// - Tick 2: each node sends to the one after it in the ring, 0 to 3, 1 to 2, 2 to 0, 3 to 1; the nodes go by number.
/// - Tick 3: node 0 crashes. The messages are delivered in the order of sending; that to 0 is dropped. Watches are then
///   due at 6.
/// - Ticks 4 and 5: the same without node 0. The watches of 1 and 2 are then due at 8.
/// - Tick 6: 1 and 2 send. The watch of 3 expires: it lists 0 and goes back from 0 to 2, sends O to 2, then R of 0 to the
///   nodes one and two ahead, 1 and 2. Then it sends its heartbeat to 1.
/// - Tick 7, in the order of sending: the H of 1; that of 2, which is dropped; the O, after which 2 sends to 3, at once;
///   the two R; the H of 3. Node 1 passes R on to 2 and 3, node 2, after which 0 is listed, to 3 and 1.
/// - Tick 8: the four R, then the H of 2, whom 3 now observes. 1 and 3 send; 2 will at tick 9.
#[test]
fn a_shuffled_ring_worked_by_hand() {
    let (file, log) = (include_str!("../../tests/shuffled.run"), include_str!("../../tests/shuffled.log"));
    assert_eq!(log_of(file), log);
}

/// What is settled goes by the ring's order: in number order the neighbours of the same run are others.
#[test]
fn a_shuffled_ring_settles_in_its_order() {
    let mut platform = open("P,8,2,3,1,60\nQ,0,4,2,6,1,5,3,7\nC,5,6\n");
    for_each_event(&mut platform, |platform| assert!(settle::demand_3(platform)));
    assert!(settle::settling_time_passed(&mut platform));
    assert!(settle::settled(platform.ring(), platform.nodes()));
    assert!(!settle::settled(&Ring::of(8), platform.nodes()));
    assert_eq!((platform.nodes()[1].emitter, platform.nodes()[2].observer), (2, 1));
}

/// The events at which a report moves a node: the event, and the node after it.
fn moves_by_report(file: &str) -> Vec<(Event, Node)> {
    let mut platform = open(file);
    let mut moves = Vec::new();
    let mut before = platform.moves_by_report();
    while let Step::Event(event) = platform.step() {
        if platform.moves_by_report() != before {
            moves.push((event, platform.nodes()[event.line.node as usize]));
        }
        before = platform.moves_by_report();
    }
    moves
}

/// H 1, W 5, D 4, every delay 4. Node 4 expires on 3 at tick 5, on 2 at 15 and on 1 at 25, and then observes 0, which is long dead:
///
/// - 1 expired on 0 at tick 15. It lists 8 and 0, not yet 2 and 3, and reports to 2, 3 and 5, its first, second and fourth ahead.
///   It crashes at 16, so that the O of 4, due at 19, is dropped.
/// - 5 hears of it at 19 and passes it on to 6, 7 and 1; 6 and 7 hear of it at 23, and each passes it on to 4, the fourth ahead.
/// - At tick 27 both reports come to 4. The first makes it leave 0 for 9, watch due at 27 + 10; it sends O to 9 and R of 0 to 5, 6
///   and 8. The second does nothing. 9 is dead too: at tick 31 the O is dropped, and at 37 node 4 expires on 9.
#[test]
fn a_reported_emitter_among_ten() {
    let (file, log) = (include_str!("../../tests/reported-ten.run"), include_str!("../../tests/reported-ten.log"));
    assert_eq!(log_of(file), log);
    let [(event, node)] = moves_by_report(file)[..] else { panic!("there is one move by report") };
    let line = Line { letter: b'R', tick: 27, node: 4, other: 0, list: 0b1111 };
    assert_eq!(event, Event { line, passed: Some(1) });
    assert_eq!((node.emitter, node.watch, node.dead_list), (9, Some(37), 0b1111));
    assert!(log.contains("W,25,4,1,000000000000000e\n") && log.contains("W,37,4,9,000000000000020f\n"));
}

/// H 1, W 13, D 12, every delay 12. Node 5 expires on 4 at tick 27, on 3 at 53 and on 2 at 79, and then observes 1, which is long dead:
///
/// - 2 expired on 1 at tick 45, listing nothing else, and reports to 3, 4 and 6, its first, second and fourth ahead.
/// - 6 hears of it at 57 and passes it on to 7, 8 and 2; 7 and 8 hear of it at 69, and each passes it on to 5, the fourth ahead.
/// - At tick 81 both reports come to 5. The first makes it leave 1 for 0, watch due at 81 + 26; it sends O to 0 and R of 1 to 6, 7
///   and 0. 0 is live: it gets the O at 93 and sends to 5 at once.
#[test]
fn a_reported_emitter_among_nine() {
    let (file, log) = (include_str!("../../tests/reported-nine.run"), include_str!("../../tests/reported-nine.log"));
    assert_eq!(log_of(file), log);
    let [(event, node)] = moves_by_report(file)[..] else { panic!("there is one move by report") };
    let line = Line { letter: b'R', tick: 81, node: 5, other: 1, list: 0b11110 };
    assert_eq!(event, Event { line, passed: Some(1) });
    assert_eq!((node.emitter, node.watch, node.dead_list), (0, Some(107), 0b11110));
    assert!(log.contains("O,93,0,5,000000000000001e\n") && log.contains("S,93,0,5,000000000000001e\n"));
}

/// A lent store may hold a report that leaves a node alone: node 1 lists 2 and observes 0.
#[test]
fn a_node_is_alone_by_report_in_a_lent_store() {
    let opened = open("P,3,5,20,6,90\n");
    let mut nodes = opened.nodes().to_vec();
    nodes[1].dead_list = 0b100;
    let message = Message { number: 0, sender: 2, receiver: 1, content: Content::Report { subject: 0 } };
    let lent = store::encode(&Platform::resume(opened.plan().clone(), nodes, vec![(3, message)], 1, 0, 3));
    let mut platform = store::decode(&lent).expect("the store is in range").platform;
    let line = Line { letter: b'R', tick: 3, node: 1, other: 0, list: 0b101 };
    let step = platform.step();
    assert_eq!(step, Step::Event(Event { line, passed: Some(2) }));
    assert_eq!(step.lines().collect::<Vec<Line>>(), [line, Line { letter: b'K', other: 2, ..line }]);
    let node = platform.nodes()[1];
    assert_eq!((node.emitter, node.observer, node.watch, node.heartbeat), (1, 1, None, None));
    assert_eq!((platform.moves_by_report(), platform.in_flight()), (1, 0));
    assert!(store::check(&store::encode(&platform)));
}

/// The lines of a file's log that a move leads to: W, or R of the emitter, and K after it.
fn moves_of(file: &str) -> Vec<String> {
    let log: Vec<String> = log_of(file).lines().map(str::to_string).collect();
    log.windows(2).filter(|pair| pair[1].starts_with('K')).flat_map(<[String]>::to_vec).collect()
}

/// "N 3, node 0 left 2 before and now leaves 1: it passes 1", and is alone. 2 is listed, but it was not passed again.
#[test]
fn a_node_left_before_is_not_passed_again() {
    let moves = moves_of("P,3,2,3,1,12\nC,1,1\nC,1,2\n");
    let expected = ["W,3,0,2,0000000000000004", "K,3,0,1,0000000000000004", "W,9,0,1,0000000000000006", "K,9,0,1,0000000000000006"];
    assert_eq!(moves, expected);
}

/// H 2, W 3, D 1. Node 3 crashes at tick 5, after its heartbeat of tick 4, which renews the watch of 0 to 8. 0 leaves 3 for 2 and reports to
/// 1 and 2. At tick 19 node 0 crashes, after its heartbeat of tick 18: the watch of 1 is due at 22, and it goes back from 0 over 3 to 2, which
/// gets the O at 23 and sends at once, then at 25, 27 and 29. It crashes at 31: at 33 node 1 goes back from 2, and is alone.
#[test]
fn a_node_listed_by_report_is_passed() {
    let expected = [
        "W,8,0,3,0000000000000008", "K,8,0,1,0000000000000008", "W,22,1,0,0000000000000009", "K,22,1,2,0000000000000009",
        "W,33,1,2,000000000000000d", "K,33,1,1,000000000000000d",
    ];
    assert_eq!(moves_of("P,4,2,3,1,60\nC,5,3\nC,19,0\nC,31,2\n"), expected);
}

/// The same in the ring 2 → 0 → 3 → 1 → 2: its nodes 2, 0, 3 and 1 are as 0, 1, 2 and 3 above.
#[test]
fn a_node_listed_by_report_is_passed_in_a_shuffled_ring() {
    let expected = [
        "W,8,2,1,0000000000000002", "K,8,2,1,0000000000000002", "W,22,0,2,0000000000000006", "K,22,0,2,0000000000000006",
        "W,33,0,3,000000000000000e", "K,33,0,1,000000000000000e",
    ];
    assert_eq!(moves_of("P,4,2,3,1,60\nQ,2,0,3,1\nC,5,1\nC,19,2\nC,31,3\n"), expected);
}

/// The ring of nine above beside a node 1 that crashes at once: when all list it, the others stand in the ring as those nine do, 0 as 0 and
/// each from 2 on as the one before, and what happens 100 ticks later is the same. So at tick 181 a report makes node 6 leave 2, and it
/// passes 2 and 1. With the nodes 1 and 2 crashed so it is node 7 at tick 281, which passes three.
#[test]
fn a_move_by_report_passes_more() {
    let two = "P,10,1,13,12,220\nC,0,1\nC,103,5\nC,121,2\nC,132,4\nC,150,3\n";
    let three = "P,11,1,13,12,320\nC,0,1\nC,0,2\nC,203,6\nC,221,3\nC,232,5\nC,250,4\n";
    for (file, tick, node, left, list, passed) in [(two, 181, 6, 2, 0b111110, 2), (three, 281, 7, 3, 0b1111110, 3)] {
        let [(event, after)] = moves_by_report(file)[..] else { panic!("there is one move by report") };
        let line = Line { letter: b'R', tick, node, other: left, list };
        assert_eq!((event, after.emitter), (Event { line, passed: Some(passed) }, 0));
    }
}

/// All but node 0 crash, S and more apart, 63 being the last, which node 0 observes from the start: it passes all 63 and is alone. The others
/// crash going ahead from 1. So each is left by its neighbour, which passes it and all those before it but 0.
#[test]
fn the_greatest_number_passed_is_63() {
    let crashes: String = (1..64).map(|node| format!("C,{},{node}\n", 20 * node)).collect();
    let file = format!("P,64,1,3,2,1300\n{crashes}");
    let numbers: Vec<String> = moves_of(&file).iter().filter(|line| line.starts_with('K')).cloned().collect();
    assert_eq!(numbers.len(), 63);
    for (place, line) in (1u64..).zip(&numbers) {
        let line = Line::read(format!("{line}\n").as_bytes()).unwrap();
        assert_eq!((line.node, line.other, line.list), ((place + 1) % 64, place, u64::MAX >> (63 - place) & !1));
    }
    let moves = recount::of_log(open(&file).plan(), log_of(&file).as_bytes()).unwrap();
    assert_eq!((moves.greatest(), moves.alone, moves.by_report), (63, 1, 0));
}

/// Eight nodes at tick 3, with so many messages in flight. Node 1 leaves 0 next, by its watch or by a report, and sends four messages.
fn about_to_move(in_flight: usize, by_report: bool) -> Platform {
    let opened = open("P,8,1,20,19,100\n");
    let mut nodes = opened.nodes().to_vec();
    nodes.iter_mut().for_each(|node| node.heartbeat = Some(4));
    nodes[1].watch = Some(if by_report { 9 } else { 3 });
    nodes[1].dead_list = 1 << 7;
    let heartbeat = |number| (5, Message { number, sender: 2, receiver: 3, content: Content::Heartbeat { list: 0 } });
    let mut messages: Vec<(u32, Message)> = (0..in_flight as u64).map(heartbeat).collect();
    if by_report {
        messages[0] = (3, Message { number: 0, sender: 2, receiver: 1, content: Content::Report { subject: 0 } });
    }
    Platform::resume(opened.plan().clone(), nodes, messages, in_flight as u64, 0, 3)
}

/// "a refused event": neither of its lines is written. One message fewer, and both are; a run counts one event.
#[test]
fn a_refused_move_writes_neither_line() {
    for (by_report, letter, most) in [(false, b'W', 2_044), (true, b'R', 2_045)] {
        let mut refused = about_to_move(most + 1, by_report);
        let before = state(&refused);
        assert_eq!(refused.run(7), Run { ending: Ending::Refused, events: 0 });
        assert_eq!(refused.step(), Step::Refused);
        assert_eq!(refused.step().lines().count(), 0);
        assert_eq!(state(&refused), before);
        let mut platform = about_to_move(most, by_report);
        let line = Line { letter, tick: 3, node: 1, other: 0, list: 1 << 7 | 1 };
        let step = platform.clone().step();
        assert_eq!(step.lines().collect::<Vec<Line>>(), [line, Line { letter: b'K', other: 2, ..line }]);
        assert_eq!(platform.run(1), Run { ending: Ending::Spent, events: 1 });
        assert_eq!((platform.in_flight(), platform.events_done()), (2_048, 1));
    }
}

/// Each line K of generated plans' logs, recounted from the log alone, and nowhere another. Lines come up with one node passed, with more
/// and with many; by report and alone. With W at least H + D no report leaves a node alone; with a shorter one some do.
#[test]
fn lines_k_of_generated_plans() {
    let (mut moves, mut moves_of_short) = (Moves::NONE, Moves::NONE);
    for index in 0..600 {
        let file = match index % 3 {
            0 => generator::reported_plan(SEED + 8, index, generator::SMALL),
            _ => generator::plan(SEED + 8, index),
        };
        let (plan, file) = (plan::read(&file).unwrap(), String::from_utf8(file).unwrap());
        let found = recount::of_log(&plan, log_of(&file).as_bytes()).unwrap_or_else(|error| panic!("index {index}: {error}"));
        if plan.short_timeout() { moves_of_short.add(&found) } else { moves.add(&found) }
    }
    assert!(moves.all() > 1_500 && moves.passing_more() > 200 && moves.greatest() > 9, "{moves:?}");
    assert!(moves.by_report > 20 && moves.alone > 20 && moves.alone_by_report == 0 && moves.passed[0] == 0, "{moves:?}");
    let short = moves_of_short;
    assert!(short.all() > 5_000 && short.passing_more() > 1_500 && short.greatest() > 20, "{short:?}");
    assert!(short.by_report > 2_000 && short.alone > 200 && short.alone_by_report > 50 && short.passed[0] == 0, "{short:?}");
}

/// A Q line in number order, or a rotation of it, is the ring without one; so it is with one node.
#[test]
fn number_order_gives_the_log_without_a_q_line() {
    let rows = "C,4,1\nC,5,3\nC,5,4\nL,3,1\nL,30,1\n";
    let plain = log_of(&format!("P,5,3,5,2,92\n{rows}"));
    for order in ["0,1,2,3,4", "1,2,3,4,0", "3,4,0,1,2"] {
        assert_eq!(log_of(&format!("P,5,3,5,2,92\nQ,{order}\n{rows}")), plain, "{order}");
    }
    assert_ne!(log_of(&format!("P,5,3,5,2,92\nQ,0,2,4,1,3\n{rows}")), plain);
    assert_eq!(log_of("P,1,1,2,1,5\nQ,0\n"), "E,5,1,0,0000000000000000\n");
    assert_eq!(log_of("P,2,2,3,1,6\nQ,1,0\nC,3,1\n"), log_of("P,2,2,3,1,6\nC,3,1\n"));
    for index in 0..60 {
        let plan = plan::read(&generator::plan(SEED + 6, index)).unwrap();
        let [without, with] = [Vec::new(), (0..plan.nodes).collect()].map(|order| Plan { order, ..plan.clone() });
        let [without, with] = [without, with].map(|plan| String::from_utf8(plan.bytes()).unwrap());
        assert_eq!(log_of(&with), log_of(&without), "index {index}");
    }
}

/// The platform's nodes and messages where each node has the name that `names` gives it. The nodes stand by name; the
/// messages, without their numbers, in an order of their own.
fn renamed(platform: &Platform, names: &[u8]) -> impl PartialEq + std::fmt::Debug {
    let name = |node: u8| names[usize::from(node)];
    let list = |list: u64| {
        let listed = (0..platform.plan().nodes).filter(|node| ring::listed(list, *node));
        listed.fold(0, |list, node| ring::with(list, name(node)))
    };
    let rename = |node: &Node| Node {
        number: name(node.number),
        emitter: name(node.emitter),
        observer: name(node.observer),
        dead_list: list(node.dead_list),
        mark: list(node.mark),
        ..*node
    };
    let content = |content| match content {
        Content::Heartbeat { list: carried } => Content::Heartbeat { list: list(carried) },
        Content::NewObserver => Content::NewObserver,
        Content::Report { subject } => Content::Report { subject: name(subject) },
    };
    let mut nodes: Vec<Node> = platform.nodes().iter().map(rename).collect();
    nodes.sort_by_key(|node| node.number);
    let mut messages: Vec<(u32, u8, u8, Content)> = platform
        .messages()
        .into_iter()
        .map(|(due, message)| (due, name(message.sender), name(message.receiver), content(message.content)))
        .collect();
    messages.sort_unstable();
    (nodes, messages)
}

/// A ring in any order does what the ring in number order does in which each node has its place for a number, but for
/// what goes by number within a tick. Where one node crashes, every delay is D and W is at least H + D, that plays no part: the messages
/// that come to a node at one tick change different fields of it, or one in the same way. So after each tick all is the same.
#[test]
fn an_order_renames_the_nodes_of_a_run() {
    let mut random = Random::seeded(SEED);
    for round in 0..60 {
        let nodes = random.pick(&[1, 2, 3, 4, 5, 8, 13, 33, 64]);
        let mut order: Vec<u8> = (0..nodes).collect();
        random.shuffle(&mut order);
        let mut places = order.clone();
        order.iter().zip(0..).for_each(|(node, place)| places[usize::from(*node)] = place);
        let (period, delay) = (random.range(1, 6) as u32, random.range(1, 6) as u32);
        let timeout = period + delay + random.range(0, 3) as u32;
        let crash = Crash { tick: random.range(0, 20) as u32, node: random.below(u64::from(nodes)) as u8 };
        let moved = Crash { node: places[usize::from(crash.node)], ..crash };
        let shuffled =
            Plan { nodes, period, timeout, delay, end: 70, order, crashes: vec![crash], delays: Vec::new() };
        let plain = Plan { order: Vec::new(), crashes: vec![moved], ..shuffled.clone() };
        let [mut shuffled, mut plain] = [shuffled, plain].map(Platform::open);
        let in_numbers: Vec<u8> = (0..nodes).collect();
        for tick in 0..=70 {
            for platform in [&mut shuffled, &mut plain] {
                while platform.next_event().is_some_and(|pending| pending.tick == tick) {
                    assert!(matches!(platform.step(), Step::Event(_)));
                }
            }
            let case = format!("round {round}, tick {tick}");
            assert_eq!(shuffled.events_done(), plain.events_done(), "{case}");
            assert_eq!(renamed(&shuffled, &places), renamed(&plain, &in_numbers), "{case}");
        }
        assert_eq!(shuffled.crashes_done(), 1);
    }
}

#[test]
fn two_thousand_and_forty_eight_in_flight_pass() {
    let mut platform = open("P,64,1,33,32,200\n");
    let mut most = 0;
    for_each_event(&mut platform, |platform| most = most.max(platform.in_flight()));
    assert_eq!(most, 2_048);
    assert_eq!(last_line("P,64,1,33,32,200\n"), "E,200,64,2048,0000000000000000");
}

#[test]
fn one_more_in_flight_is_refused() {
    assert_eq!(last_line("P,64,1,34,33,200\n"), "8,0");
    let mut platform = open("P,64,1,34,33,200\n");
    assert_eq!(platform.run(u64::MAX), Run { ending: Ending::Refused, events: 2_048 });
    assert_eq!(platform.in_flight(), 2_048);
    let before = state(&platform);
    assert_eq!(platform.run(5), Run { ending: Ending::Refused, events: 0 });
    assert_eq!(platform.run(0), Run { ending: Ending::Spent, events: 0 });
    assert_eq!(platform.step(), Step::Refused);
    assert_eq!(state(&platform), before);
}

#[test]
fn a_run_spends_its_budget_before_a_refused_event_is_tried() {
    let mut platform = open("P,64,1,34,33,200\n");
    assert_eq!(platform.run(2_048), Run { ending: Ending::Spent, events: 2_048 });
    assert_eq!(platform.run(1), Run { ending: Ending::Refused, events: 0 });
}

#[test]
fn budgets() {
    let mut platform = open("P,2,2,3,1,6\nC,3,1\n");
    assert_eq!(platform.run(0), Run { ending: Ending::Spent, events: 0 });
    assert_eq!(platform.run(7), Run { ending: Ending::Spent, events: 7 });
    assert_eq!(platform.run(1), Run { ending: Ending::Done, events: 1 });
    assert_eq!(platform.run(0), Run { ending: Ending::Done, events: 0 });
    assert_eq!(platform.run(u64::MAX), Run { ending: Ending::Done, events: 0 });
    assert_eq!(open("P,2,2,3,1,6\nC,3,1\n").run(8), Run { ending: Ending::Done, events: 8 });
    assert_eq!(open("P,1,1,2,1,5\n").run(0), Run { ending: Ending::Done, events: 0 });
}

#[test]
fn a_step_when_done_leaves_the_platform() {
    let mut platform = open("P,2,2,3,1,6\nC,3,1\n");
    platform.run(u64::MAX);
    let before = state(&platform);
    let last = Line { letter: b'E', tick: 6, node: 1, other: 0, list: 2 };
    assert_eq!(platform.step(), Step::Done(last));
    assert_eq!(platform.step(), Step::Done(last));
    assert_eq!(state(&platform), before);
}

/// H 3, W 5, D 2, every delay 2; 1 crashes at tick 4, 3 and 4 at tick 5. No report of 1 comes to 0, but a heartbeat names it:
///
/// - The heartbeats of tick 3 arrive at 5, so that the watches of 0 and 2 are due at 10. Node 2 leaves 1 for 0 and reports it to the nodes
///   one and two ahead, 3 and 4, which are dead. Node 0 leaves 4 for 3, reports it to 1 and 2, and leaves 3 at tick 20 for 2.
/// - Its O and its report of 3 come to 2 at tick 22. Node 2 then lists 1, 3 and 4 and sends a heartbeat at once, which arrives at 24.
///   Until then 0 lists 3 and 4, and it never marks 1.
/// - The bound of request 106 is 5 + 30 + 2 = 37, that of request 107 with two survivors is 37 + 5 = 42.
#[test]
fn a_heartbeat_names_what_no_report_tells() {
    let file = "P,5,3,5,2,92\nC,4,1\nC,5,3\nC,5,4\n";
    let mut platform = open(file);
    for_each_event(&mut platform, |platform| {
        assert!(settle::demand_3(platform) && settle::request_106(platform) && settle::request_107(platform));
        assert_eq!(platform.nodes()[0].mark & 1 << 1, 0);
    });
    assert_eq!(settle::listing_tick(&platform), Some(42));
    assert_eq!([0, 2].map(|node: usize| (platform.nodes()[node].dead_list, platform.nodes()[node].mark)), [(0b11010, 0b11000), (0b11010, 0b11010)]);
    let log = log_of(file);
    let naming: Vec<&str> = log.lines().filter(|line| line.starts_with("H,24,0,") || line.starts_with("R,24,0,")).collect();
    assert_eq!(naming, ["R,24,0,3,0000000000000018", "H,24,0,2,000000000000001a"]);
    let late = Some(Late { ticks: 18, bound: 37 });
    assert_eq!(joining::of_run(&mut open(file), Claim::Listed).unwrap().nearest, late);
}

#[test]
fn settling_time() {
    assert_eq!(settle::settling_time(100, 5, 63), 140);
    assert_eq!(settle::settling_time(100, 5, 64), 140);
    assert_eq!(settle::settling_time(100, 5, 32), 135);
    assert_eq!(settle::settling_time(100, 5, 33), 140);
    assert_eq!(settle::settling_time(100, 5, 2), 115);
    assert_eq!(settle::settling_time(100, 5, 1), 110);
    assert_eq!(settle::settling_time(100, 5, 0), 110);
}

/// W = 4, D = 1, N = 3: S is 7 after the first crash, with two survivors.
#[test]
fn crashes_are_spaced_from_s_ticks_on() {
    for (second, spaced) in [(8, false), (9, true), (10, true)] {
        let mut platform = open(&format!("P,3,3,4,1,30\nC,2,0\nC,{second},1\n"));
        platform.run(u64::MAX);
        assert_eq!(settle::crashes_spaced(&platform), spaced, "second crash at {second}");
    }
}

#[test]
fn settling_counts_what_lies_beyond_the_end_tick() {
    let mut early = open("P,3,3,4,1,4\nC,2,0\n");
    early.run(u64::MAX);
    assert!(!settle::settling_time_passed(&mut early));
    assert!(!settle::settled(early.ring(), early.nodes()));
    let mut late = open("P,3,3,4,1,8\nC,2,0\n");
    late.run(u64::MAX);
    assert!(settle::settling_time_passed(&mut late));
    assert!(settle::settled(late.ring(), late.nodes()));
}

#[test]
fn no_claim_of_settling_before_a_crash() {
    assert!(!settle::settling_time_passed(&mut open("P,3,3,4,1,8\n")));
}

/// Every generated plan is accepted and comes back from the writer. Where W is at least H + D, it keeps demand 3 after each event. In some of
/// these a report moves a node.
#[test]
fn demand_3_on_generated_plans() {
    let (mut owed, mut moves) = (0u64, 0);
    for index in 0..600 {
        let file = match index % 4 {
            0 | 2 => generator::plan(SEED, index),
            1 => generator::spaced_plan(SEED, index),
            _ => generator::reported_plan(SEED, index, generator::USUAL),
        };
        let plan = plan::read(&file).unwrap_or_else(|refusal| panic!("index {index}: {refusal:?}"));
        assert_eq!(plan.bytes(), file, "index {index}");
        if plan.short_timeout() {
            continue;
        }
        let mut platform = Platform::open(plan);
        for_each_event(&mut platform, |platform| {
            assert!(settle::demand_3(platform), "index {index}, after {} events", platform.events_done());
            owed += u64::from(settle::crashes_spaced(platform) && settle::settling_time_passed(platform));
        });
        assert!(platform.next_number_in_range());
        moves += platform.moves_by_report();
    }
    assert!(owed > 10_000, "settling was owed after {owed} events only");
    assert!(moves > 20, "{moves} moves by report only");
}

/// The letter of a log's last line, 8 where an event is refused.
fn last_letter(log: &[u8]) -> u8 {
    let last = log.split_inclusive(|byte| *byte == b'\n').next_back().expect("a log has a last line");
    last[0]
}

/// What goes by W being short, over generated plans of every kind: the last letter is F with W below H + D and E else, unless an event is
/// refused. What the platform's nodes tell of listed live nodes, the log alone tells too: nothing with W at least H + D, and in many of the
/// others much: in some plans all nodes live and are listed, in some none is.
#[test]
fn live_nodes_listed_in_generated_plans() {
    let (mut enough, mut short, mut refused, mut harmless, mut all) = (0, 0, 0, 0, 0);
    let (mut events, mut most) = (0, 0);
    for index in 0..400 {
        let file = match index % 5 {
            0 => generator::plan(SEED + 11, index),
            1 => generator::reported_plan(SEED + 11, index, generator::SMALL),
            2 => generator::tripped_plan(SEED + 11, index, generator::USUAL),
            3 => generator::tripped_plan(SEED + 11, index, generator::SMALL),
            _ => generator::spaced_plan(SEED + 11, index),
        };
        let plan = plan::read(&file).unwrap();
        let mut log = Vec::new();
        platform::rehearse(plan.clone(), &mut log).unwrap();
        let letter = last_letter(&log);
        assert!(letter == b'8' || letter == if plan.short_timeout() { b'F' } else { b'E' }, "index {index}");
        let mut platform = Platform::open(plan.clone());
        let told = falsely::of_run(&mut platform);
        assert_eq!(falsely::of_log(&log), Ok(told), "index {index}");
        if !plan.short_timeout() {
            assert_eq!(told, Falsely::NONE, "index {index}");
            enough += 1;
            continue;
        }
        short += 1;
        refused += u64::from(letter == b'8');
        harmless += u64::from(told == Falsely::NONE);
        all += u64::from(told.most == u32::from(plan.nodes));
        events += told.events;
        most = most.max(told.most);
    }
    assert!(enough > 200 && short > 100, "{enough} plans with W at least H + D, {short} others");
    assert!(refused > 10 && harmless > 10 && all > 20, "of {short} plans {refused} are refused, {harmless} list no live node, {all} list all");
    assert!(events > 8_000 && most == 64, "{events} events by which live nodes are listed, at most {most} nodes");
}

/// The settled test does not hold of every state: after a crash it fails until the reports are through.
#[test]
fn unsettled_rings_are_told_from_settled_ones() {
    let mut platform = open("P,4,2,3,1,40\nC,5,1\n");
    let mut unsettled = 0;
    for_each_event(&mut platform, |platform| {
        unsettled += usize::from(platform.crashes_done() == 1 && !settle::settled(platform.ring(), platform.nodes()));
    });
    assert!(unsettled > 0);
    assert!(settle::settled(platform.ring(), platform.nodes()) && settle::no_live_node_listed(platform.nodes()));
}

/// Requests 106 and 107 after each event of generated plans with W at least H + D, half of them power trips, at whose end request 106 is
/// owed. How often each is owed, and how late survivors were not joined or their lists not full, is what `joining` tells.
#[test]
fn requests_106_and_107_on_generated_plans() {
    let mut all = [Claim::Joined, Claim::Listed].map(|claim| (claim, Joining::NONE, 0));
    for index in 0..600 {
        let file = match index % 6 {
            0 => generator::plan(SEED + 9, index),
            1 => generator::spaced_plan(SEED + 9, index),
            2 => generator::reported_plan(SEED + 9, index, generator::USUAL),
            3 => generator::tripped_plan(SEED + 9, index, generator::SMALL),
            _ => generator::tripped_plan(SEED + 9, index, generator::USUAL),
        };
        let plan = plan::read(&file).unwrap_or_else(|refusal| panic!("index {index}: {refusal:?}"));
        if plan.short_timeout() {
            continue;
        }
        let mut platform = Platform::open(plan.clone());
        for_each_event(&mut platform, |platform| {
            for (claim, _, owed) in &mut all {
                assert!(claim.kept(platform), "index {index}, after {} events: {claim:?}", platform.events_done());
                *owed += u64::from(claim.owed(platform));
            }
        });
        assert!(index % 6 < 3 || settle::joining_tick_passed(&mut platform), "index {index}");
        for (claim, joining, _) in &mut all {
            let told = joining::of_run(&mut Platform::open(plan.clone()), *claim).unwrap_or_else(|error| panic!("index {index}: {error}"));
            if index % 6 == 3 {
                assert_eq!(told.nearest.map(proportion), nearest_by_ticks(plan.clone(), *claim), "index {index}");
            }
            joining.add(&told);
        }
    }
    for ((claim, joining, owed), (least, tenths)) in all.into_iter().zip([(50_000, 9), (20_000, 8)]) {
        let Late { ticks, bound } = joining.nearest.expect("survivors are late");
        assert!(owed == joining.owed && owed > least, "{claim:?} owed after {owed} events, {} told", joining.owed);
        assert!(joining.crashed > 300 && ticks * 10 > bound * tenths, "{claim:?}: {joining:?}");
    }
}

fn proportion(late: Late) -> f64 {
    late.ticks as f64 / late.bound as f64
}

/// How near to its bound what is claimed did not hold, from tick to tick.
fn nearest_by_ticks(plan: Plan, claim: Claim) -> Option<f64> {
    let mut platform = Platform::open(plan);
    let mut nearest = None;
    for tick in 0..=platform.plan().end {
        while platform.next_event().is_some_and(|pending| pending.tick == tick) {
            assert!(matches!(platform.step(), Step::Event(_)));
        }
        if let Some(crash) = settle::last_crash(&platform).filter(|_| !claim.holds(platform.ring(), platform.nodes())) {
            let bound = claim.tick(&platform).expect("a crash is done") - u64::from(crash);
            let late = proportion(Late { ticks: u64::from(tick - crash), bound });
            nearest = Some(late.max(nearest.unwrap_or(0.0)));
        }
    }
    nearest
}

/// The fewest ticks after the crash at whose end what is claimed holds, and the most: eight nodes of 48 crash at one tick, in each of 100
/// phases of the heartbeats; H 100, D 20, every delay 20.
fn of_eight_in_48(claim: Claim, timeout: u64, order: &str) -> (u64, u64) {
    let bound = 16 * timeout + 20 + if claim == Claim::Listed { 39 * 120 } else { 0 };
    let holds_after = |crash: u64| {
        let crashes: String = (8..16).map(|node| format!("C,{crash},{node}\n")).collect();
        let mut platform = open(&format!("P,48,100,{timeout},20,{}\n{order}{crashes}", crash + bound));
        let joining = joining::of_run(&mut platform, claim).expect("the claim holds");
        assert!(claim.owed(&mut platform) && joining.nearest.is_some_and(|late| late.bound == bound));
        joining.nearest.map_or(0, |late| late.ticks + 1)
    };
    let after: Vec<u64> = (200..300).map(holds_after).collect();
    (after.iter().copied().min().unwrap_or(0), after.iter().copied().max().unwrap_or(0))
}

/// All send at tick 100 and 200. Of a crash at tick 200 the last heartbeat was sent at 100 and arrived at 120, so that the first watch is due
/// at 120 + W. The node after eight dead neighbours comes to each of the next seven 2 × W later, and then to a survivor, to which its O
/// takes 20 ticks. Of a crash from 201 to 299 the last heartbeat was sent at 200. In the dealt order no two of the eight are neighbours.
///
/// The report of the last of eight neighbours is sent with its watch, and by then its sender lists all. Of the 40 survivors the one that is
/// 31 ahead is reached by five relays of 20 ticks, all others by as many or fewer.
#[test]
fn eight_of_48_at_one_tick() {
    let dealt: Vec<String> = (0..48).map(|place| (place % 6 * 8 + place / 6).to_string()).collect();
    let dealt = format!("Q,{}\n", dealt.join(","));
    assert!(dealt.starts_with("Q,0,8,16,24,32,40,1,9,17,") && dealt.ends_with(",39,47\n"));
    for timeout in [120, 220, 320] {
        let first = 120 + timeout - 200;
        let last = first + 14 * timeout;
        assert_eq!(of_eight_in_48(Claim::Joined, timeout, ""), (last + 20, last + 119), "W {timeout}");
        assert_eq!(of_eight_in_48(Claim::Listed, timeout, ""), (last + 100, last + 199), "W {timeout}");
        assert_eq!(of_eight_in_48(Claim::Joined, timeout, &dealt), (first + 20, first + 119), "W {timeout}, dealt");
        assert_eq!(of_eight_in_48(Claim::Listed, timeout, &dealt), (first + 80, first + 179), "W {timeout}, dealt");
    }
    assert_eq!(of_eight_in_48(Claim::Joined, 120, ""), (1_740, 1_839));
    assert_eq!(of_eight_in_48(Claim::Listed, 120, ""), (1_820, 1_919));
}

/// The first tick at whose end each of the nodes lists this one.
fn listed_from(file: &str, listed: u8, nodes: &[u8]) -> Vec<u64> {
    let mut platform = open(file);
    let mut ticks = vec![u64::MAX; nodes.len()];
    for_each_event(&mut platform, |platform| {
        let new = |tick: &u64, node: &u8| *tick == u64::MAX && ring::listed(platform.nodes()[usize::from(*node)].dead_list, listed);
        let last = u64::from(platform.last_tick());
        ticks.iter_mut().zip(nodes).filter(|(tick, node)| new(tick, node)).for_each(|(tick, _)| *tick = last);
    });
    ticks
}

/// H 100, W 101, D 1. Node 0 of 64 crashes at tick 201, and with it the nodes 1, 2, 4, 8, 16 and 32 ahead of node 1. So no report of 0 comes
/// to anybody, and heartbeats alone name it, from node to node:
///
/// - The heartbeats of tick 200 arrive at 201, so that all watches on the dead expire at 302. Node 1 leaves 0 for 63 and reports it to the
///   dead. 4 leaves 3 for 2, and 6, 10, 18 and 34 each leave one for a live node, to which they send O. So 4, 8, 16 and 32, which get these at
///   303, send at 303 and each 100 ticks later; the others still send when all did at first.
/// - At 504 node 4 leaves 2 for 1, which gets its O at 505 and names 0 at once: 4 lists it at 506.
/// - 4 sends at 603, 6 at 700, 7 at 800, 8 at 803, 10 at 900, and so on: 100 ticks from one to the next, but that 8, 16 and 32 wait 2.
///   So 6 lists it at 604, 7 at 701, 8 at 801, 10 at 804, 11 at 901, 16 at 1401, 18 at 1404, 32 at 2801, 34 at 2804, 35 at 2901 and 63 at 5701.
/// - The bound is 14 × 101 + 1 after the crash for neighbours, 1,415, and 56 × 101 more for lists, 7,071. At the end of tick 5,700, which is
///   5,499 after the crash, the list of 63 is short: with 40 for 56 the claim would be false.
#[test]
fn a_list_goes_by_heartbeats_alone() {
    let crashes: String = [0, 2, 3, 5, 9, 17, 33].map(|node| format!("C,201,{node}\n")).concat();
    let file = format!("P,64,100,101,1,{}\n{crashes}", 201 + 7_071);
    let nodes = [1, 4, 6, 7, 8, 10, 11, 16, 18, 32, 34, 35, 63];
    let ticks = [302, 506, 604, 701, 801, 804, 901, 1_401, 1_404, 2_801, 2_804, 2_901, 5_701];
    assert_eq!(listed_from(&file, 0, &nodes), ticks);
    let told = joining::of_run(&mut open(&file), Claim::Listed).expect("lists are full");
    assert_eq!((told.owed, told.nearest), (1, Some(Late { ticks: 5_499, bound: 7_071 })));
    assert_eq!(settle::joining_time(101, 1, 7), 1_415);
    assert!(5_499 > 1_415 + 40 * 101);
}

/// The same with nine nodes: H 4, W 5, D 1, and 0 crashes at tick 5 with the nodes 1, 2 and 4 ahead of node 1. All watches on the dead expire
/// at 10. 4 leaves 3 for 2 and at 20 that for 1, whose heartbeat names 0 at 22. 4 got the O of 6 at 11 and sends at 11, 15, 19 and 23; 6, 7
/// and 8 send at 24, 28 and 32.
#[test]
fn a_list_goes_by_heartbeats_among_nine() {
    let file = "P,9,4,5,1,66\nC,5,0\nC,5,2\nC,5,3\nC,5,5\n";
    assert_eq!(listed_from(file, 0, &[1, 4, 6, 7, 8]), [10, 22, 24, 25, 29]);
    assert_eq!(joining::of_run(&mut open(file), Claim::Listed).expect("lists are full").nearest, Some(Late { ticks: 23, bound: 61 }));
}

/// "The settling time S between spaced crashes must still hold", and it needs that a named node relays the first report. H 2, W 11, D 9, and
/// 8 of nine nodes crashes at tick 3. With eight survivors S is 11 + 5 × 9 = 56: all has to be done before tick 59.
///
/// - The last heartbeat of 8 is sent at tick 2 and takes 9 ticks. So the watch of 0 expires at 22. Its reports, to 1, 2 and 4, take 9 ticks too.
/// - Up to tick 20 there are 81 messages, then O, three R and eight H. Four heartbeats take one tick: that of 0 at tick 22, of 1 at 24, of 2 at
///   26 and of 3 at 28, numbers 85, 94, 103 and 112. So 1, 2, 3 and 4 list 8 at 23, 25, 27 and 29, before any report comes.
/// - At 31 the reports come to 1, 2 and 4, which relay them; 3 and 6 hear of it at 40, 7 at 49. 5 is named at 39 by the heartbeat of tick 30.
/// - Would these three not relay what they list, 5 would be named at 39, 6 at 49 and 7 at 59, by the heartbeats of ticks 40 and 50.
#[test]
fn named_nodes_relay_in_time() {
    let file = "P,9,2,11,9,80\nC,3,8\nL,85,1\nL,94,1\nL,103,1\nL,112,1\n";
    assert_eq!(listed_from(file, 8, &[0, 1, 2, 3, 4, 5, 6, 7]), [22, 23, 25, 27, 29, 39, 40, 49]);
    let mut platform = open(file);
    for_each_event(&mut platform, |platform| assert!(settle::demand_3(platform), "after {} events", platform.events_done()));
    assert!(settle::settling_time_passed(&mut platform));
    let log = log_of(file);
    for line in ["H,23,1,0,0000000000000100", "H,29,4,3,0000000000000100", "R,31,1,8,0000000000000100", "R,40,3,8,0000000000000100"] {
        assert!(log.contains(line), "{line}");
    }
}

/// The messages that an event sends.
fn sent_by(platform: &Platform, first: u64) -> impl Iterator<Item = Message> {
    platform.messages().into_iter().map(|(_, message)| message).filter(move |message| message.number >= first)
}

/// In generated plans each heartbeat carries its sender's list as it is when sent, a node reports each subject in one event alone, and marks it
/// in that event. Nodes come up that a heartbeat named before the report that they then relay, and such as no report ever tells: with W at
/// least H + D, and with a shorter one.
#[test]
fn lists_and_marks_on_generated_plans() {
    let (mut named_first, mut named_only) = ([0; 2], [0; 2]);
    for index in 0..300 {
        let file = match index % 2 {
            0 => generator::reported_plan(SEED + 10, index, generator::SMALL),
            _ => generator::tripped_plan(SEED + 10, index, generator::SMALL),
        };
        let mut platform = Platform::open(plan::read(&file).unwrap());
        let short = usize::from(platform.plan().short_timeout());
        loop {
            let (before, first) = (platform.nodes().to_vec(), platform.next_number());
            let Step::Event(_) = platform.step() else { break };
            for Message { sender, content, .. } in sent_by(&platform, first) {
                let (old, new) = (before[usize::from(sender)], platform.nodes()[usize::from(sender)]);
                match content {
                    Content::Heartbeat { list } => assert_eq!(list, new.dead_list, "index {index}"),
                    Content::NewObserver => {}
                    Content::Report { subject } => {
                        assert!(!ring::listed(old.mark, subject) && ring::listed(new.mark, subject), "index {index}");
                        named_first[short] += u64::from(ring::listed(old.dead_list, subject));
                    }
                }
            }
        }
        let only = |node: &&Node| node.alive && node.mark != node.dead_list;
        named_only[short] += platform.nodes().iter().filter(only).count();
    }
    for (short, (first, only)) in [(50, 3), (20, 5)].into_iter().enumerate() {
        let (first_found, only_found) = (named_first[short], named_only[short]);
        assert!(first_found > first && only_found > only, "{first_found} relayed after a heartbeat, {only_found} nodes with one that no report told");
    }
}

/// A lent store whose messages name their receiver, their sender and others: node 1 of three observes 0 and gets H of 0 with all bits.
/// O and R have no list. The H of 2, whom 1 does not observe, does nothing.
#[test]
fn a_lent_heartbeat_names_its_receiver_and_sender() {
    let opened = open("P,3,5,20,6,90\n");
    let heartbeat = |number, sender| (3, Message { number, sender, receiver: 1, content: Content::Heartbeat { list: 0b111 } });
    let messages = vec![heartbeat(0, 2), heartbeat(1, 0)];
    let lent = store::encode(&Platform::resume(opened.plan().clone(), opened.nodes().to_vec(), messages, 2, 0, 3));
    let mut platform = store::decode(&lent).expect("the store is in range").platform;
    platform.step();
    assert_eq!(platform.nodes(), opened.nodes());
    let line = Line { letter: b'H', tick: 3, node: 1, other: 0, list: 0b100 };
    assert_eq!(platform.step(), Step::Event(Event { line, passed: None }));
    assert_eq!((platform.nodes()[1].mark, platform.nodes()[1].watch, platform.in_flight()), (0, Some(23), 0));
    assert!(store::check(&store::encode(&platform)));
}

/// Three neighbours of five crash at tick 3; H 2, W 5, D 3, every delay 3. Their heartbeats of tick 2 arrive at 5, so that the watch of 4 is
/// due at 10: it leaves 3 for 2, leaves that at 20 for 1 and that at 30 for 0, which gets its O at 33. The bound is 3 + 30 + 3 = 36.
#[test]
fn three_neighbours_of_five_at_one_tick() {
    let file = |end: u32| format!("P,5,2,5,3,{end}\nC,3,1\nC,3,2\nC,3,3\n");
    let moves = ["W,10,4,3,0000000000000008", "W,20,4,2,000000000000000c", "W,30,4,1,000000000000000e"];
    assert_eq!(moves_of(&file(36)).into_iter().step_by(2).collect::<Vec<String>>(), moves);
    let up_to = |end| {
        let mut platform = open(&file(end));
        platform.run(u64::MAX);
        let [first, last] = [0, 4].map(|node: usize| (platform.nodes()[node].emitter, platform.nodes()[node].observer));
        (platform.events_done(), first, last, settle::joining_tick_passed(&mut platform))
    };
    assert_eq!(up_to(32), (82, (4, 1), (0, 0), false));
    assert_eq!(up_to(33), (87, (4, 4), (0, 0), false));
    assert_eq!(up_to(35), (91, (4, 4), (0, 0), false));
    assert_eq!(up_to(36), (94, (4, 4), (0, 0), true));
    let late = Some(Late { ticks: 29, bound: 33 });
    assert_eq!(joining::of_run(&mut open(&file(36)), Claim::Joined), Ok(Joining { crashed: 1, owed: 1, nearest: late }));
}

/// The next event by a plain search, as the paper lists the three classes.
fn next_by_search(platform: &Platform) -> Option<Pending> {
    let undone = &platform.plan().crashes[platform.crashes_done()..];
    let crashes = undone.iter().map(|Crash { tick, node }| (*tick, Cause::Crash { node: *node }));
    let messages = platform.messages().into_iter().map(|(due, message)| (due, Cause::Message(message)));
    let timers = platform.nodes().iter().filter(|node| node.alive).flat_map(timers_of);
    let all: Vec<(u32, Cause)> = crashes.chain(messages).chain(timers).collect();
    let tick = all.iter().map(|(due, _)| *due).min().filter(|tick| *tick <= platform.plan().end)?;
    all.into_iter().find(|(due, _)| *due == tick).map(|(tick, cause)| Pending { tick, cause })
}

fn timers_of(node: &Node) -> impl Iterator<Item = (u32, Cause)> {
    let number = node.number;
    let due = [(node.watch, Timer::Watch), (node.heartbeat, Timer::Heartbeat)];
    due.into_iter().filter_map(move |(due, timer)| Some((due?, Cause::Timer { node: number, timer })))
}

/// The heap yields the event that the plain search finds, for the first events of each plan.
#[test]
fn the_heap_agrees_with_a_plain_search() {
    for index in 0..20 {
        let mut platform = Platform::open(plan::read(&generator::plan(SEED + 4, index)).unwrap());
        for event in 0..1_000 {
            let found = next_by_search(&platform);
            assert_eq!(platform.next_event(), found, "index {index}, after {event} events");
            if !matches!(platform.step(), Step::Event(_)) {
                break;
            }
        }
    }
}

/// Steps and runs in any mixture lead to the same states.
#[test]
fn steps_and_runs_agree() {
    for index in 0..60 {
        let plan = plan::read(&generator::plan(SEED + 1, index)).unwrap();
        let (mut by_step, mut by_run) = (Platform::open(plan.clone()), Platform::open(plan));
        let mut random = Random::new(SEED + 1, index);
        loop {
            let budget = random.range(0, 300);
            let run = by_run.run(budget);
            let stepped = (0..budget).take_while(|_| matches!(by_step.step(), Step::Event(_))).count();
            assert_eq!(stepped as u64, run.events, "index {index}");
            assert_eq!(state(&by_step), state(&by_run), "index {index}");
            if run.ending != Ending::Spent {
                break;
            }
        }
    }
}

/// What is in flight is counted, numbered and due as the paper says.
#[test]
fn messages_in_flight_are_in_range() {
    for index in 0..60 {
        let mut platform = Platform::open(plan::read(&generator::plan(SEED + 2, index)).unwrap());
        while platform.run(97).ending == Ending::Spent {
            let messages = platform.messages();
            let plan = platform.plan();
            assert_eq!(messages.len(), platform.in_flight(), "index {index}");
            assert!(messages.windows(2).all(|pair| pair[0].1.number < pair[1].1.number), "index {index}");
            for (due, message) in messages {
                assert!(message.number < platform.next_number() && message.sender != message.receiver);
                assert!(
                    (platform.last_tick()..=platform.last_tick() + plan.delay).contains(&due),
                    "index {index}"
                );
            }
        }
    }
}

/// "the store that opening makes of an accepted file, and every one that steps and runs then leave, is in
/// range"; and the platform read from it is the same and goes on in the same way.
#[test]
fn every_store_that_events_lead_to() {
    let mut short = 0;
    for index in 0..50 {
        let platform = Platform::open(plan::read(&generator::plan(SEED + 5, index)).unwrap());
        short += u64::from(platform.plan().short_timeout());
        stores_agree(platform, 100, 3, index);
    }
    assert!(short > 10, "{short} plans with W below H + D only");
}

/// A store of a plan with W below H + D, resumed after each event, goes on to the same lines and the same last line, which is F.
#[test]
fn a_short_run_goes_on_from_its_store() {
    let (file, log) = ONE_TICK_SHORT;
    let mut platform = open(file);
    let mut text = String::new();
    loop {
        let held = store::decode(&store::encode(&platform)).expect("the store is in range");
        assert_eq!(held.platform.plan().bytes(), file.as_bytes());
        platform = held.platform;
        let step = platform.step();
        let mut lines = Vec::new();
        log::put(step.lines(), &mut lines).unwrap();
        text += &String::from_utf8(lines).unwrap();
        if !matches!(step, Step::Event(_)) {
            break;
        }
    }
    assert_eq!(text, log);
}

/// The same about the event at which a report moves a node: with W at least H + D, and with a shorter one.
#[test]
fn the_stores_about_a_move_by_report() {
    let mut moved = [0; 2];
    for index in 0..90 {
        let file = generator::reported_plan(SEED + 7, index, generator::SMALL);
        let mut ahead = Platform::open(plan::read(&file).unwrap());
        let mut platform = ahead.clone();
        while ahead.moves_by_report() == 0 && matches!(ahead.step(), Step::Event(_)) {}
        platform.run(ahead.events_done().saturating_sub(2));
        stores_agree(platform, 6, 0, index);
        moved[usize::from(ahead.plan().short_timeout())] += ahead.moves_by_report();
    }
    assert!(moved.iter().all(|moved| *moved > 10), "{moved:?} moves by report only");
}

/// Does a step and a run of some events, so many times, from the platform and from its store.
fn stores_agree(mut platform: Platform, rounds: u64, budget: u64, index: u64) {
    for round in 0..rounds {
        let bytes = store::encode(&platform);
        let held = store::decode(&bytes);
        let case = format!("index {index}, round {round}");
        assert!(store::check(&bytes) && held.is_some(), "{case}");
        let mut held = held.unwrap();
        assert_eq!(held.encode(), bytes, "{case}");
        assert_eq!(held_state(&held.platform), held_state(&platform), "{case}");
        let step = platform.step();
        assert_eq!(held.platform.step(), step, "{case}");
        assert_eq!(held_state(&held.platform), held_state(&platform), "{case}");
        if !matches!(step, Step::Event(_)) || platform.run(budget).ending != Ending::Spent {
            break;
        }
    }
}

/// What a store holds of a platform.
fn held_state(platform: &Platform) -> impl PartialEq + std::fmt::Debug {
    (
        (platform.plan().clone(), platform.nodes().to_vec(), platform.messages()),
        (platform.in_flight(), platform.next_number(), platform.last_tick()),
        (platform.crashes_done(), platform.crashed()),
    )
}

/// Any bytes get a refusal or a run, and an accepted file comes back from the writer. No file gets 4.
#[test]
fn damaged_files_are_answered() {
    let mut refused = [0; 14];
    for index in 0..3_000 {
        let file = generator::file(SEED + 3, index, generator::USUAL);
        match plan::read(&file) {
            Ok(plan) => assert_eq!(plan.bytes(), file, "index {index}"),
            Err(refusal) => refused[usize::from(refusal.number)] += 1,
        }
    }
    for number in [1, 2, 3, 5, 6, 13] {
        assert!(refused[number] > 0, "refusals by number: {refused:?}");
    }
    assert_eq!(refused[usize::from(REFUSED_TIMEOUT)], 0, "number 4 is given no longer");
}

// ---- the dispatcher

/// Runs of eight, six, one and no events: the worked log; that of `deliveries_come_before_timers_and_crashes_before_both`; and a node
/// alone that crashes, or does not.
const EIGHT: &str = "P,2,2,3,1,6\nC,3,1\n";
const SIX: &str = "P,2,1,2,1,2\nC,2,1\n";
const ONE: &str = "P,1,1,2,1,5\nC,0,0\n";
const NONE: &str = "P,1,1,2,1,5\n";
/// Refused by 8 after 2,048 events: 64 a tick are sent from tick 1 on, and the first arrives at tick 34.
const OVERFULL: &str = "P,64,1,34,33,200\n";

/// What the stores hold that are opened from the files, and OVERFULL's where it stands so many events before its refusal.
fn held(files: &[&str], before_refusal: u64) -> Vec<Held> {
    let one = |file: &&str| {
        let mut platform = open(file);
        if *file == OVERFULL {
            platform.run(2_048 - before_refusal);
        }
        Held::from(platform)
    };
    files.iter().map(one).collect()
}

fn part_of(stores: &[Held]) -> Vec<u8> {
    stores.iter().flat_map(Held::encode).collect()
}

/// The call gives these turns; the stores' events; and those that are stopped.
fn gives(part: &mut [u8], (length, turns): (u64, u64), to: &[usize], events: &[u64], stopped: &[usize]) {
    let mut wanted = Given { turns: to.to_vec(), events: [0; MAX_STORES], stopped: [false; MAX_STORES] };
    wanted.events[..events.len()].copy_from_slice(events);
    stopped.iter().for_each(|index| wanted.stopped[*index] = true);
    assert_eq!(dispatch::dispatch(part, length, turns), Ok(wanted), "{turns} turns of {length}");
}

/// Eight events and six in turns of three: the first store's third turn has two left; the last one is done after two whole turns, and
/// gets no third. The one in between has no event and no turn.
#[test]
fn turns_skip_stores_that_are_done() {
    let opened = part_of(&held(&[EIGHT, NONE, SIX], 0));
    gives(&mut opened.clone(), (3, u64::MAX), &[0, 2, 0, 2, 0], &[8, 0, 6], &[]);
    gives(&mut opened.clone(), (3, 5), &[0, 2, 0, 2, 0], &[8, 0, 6], &[]);
    gives(&mut opened.clone(), (3, 4), &[0, 2, 0, 2], &[6, 0, 6], &[]);
    gives(&mut opened.clone(), (3, 1), &[0], &[3], &[]);
    gives(&mut opened.clone(), (1_000, 9), &[0, 2], &[8, 0, 6], &[]);
    gives(&mut opened.clone(), (8, 2), &[0, 2], &[8, 0, 6], &[]);
    let mut part = opened.clone();
    gives(&mut part, (3, 0), &[], &[], &[]);
    assert_eq!(part, opened);
    gives(&mut part_of(&held(&[NONE], 0)), (1, 7), &[], &[], &[]);
    gives(&mut part_of(&held(&[NONE, NONE, ONE], 0)), (1, 7), &[2], &[0, 0, 1], &[]);
    gives(&mut part_of(&held(&[ONE, NONE, SIX, ONE], 0)), (4, 7), &[0, 2, 3, 2], &[1, 0, 6, 1], &[]);
}

/// Two events before its refusal a store spends a whole turn of two, and is stopped in its next turn, by which it does nothing. In a
/// turn of three it does two and is stopped. The others go on without it.
#[test]
fn a_store_that_refuses_has_used_its_turn() {
    let opened = part_of(&held(&[SIX, OVERFULL, EIGHT], 2));
    gives(&mut opened.clone(), (2, u64::MAX), &[0, 1, 2, 0, 1, 2, 0, 2, 2], &[6, 2, 8], &[1]);
    gives(&mut opened.clone(), (2, 4), &[0, 1, 2, 0], &[4, 2, 2], &[]);
    gives(&mut opened.clone(), (2, 5), &[0, 1, 2, 0, 1], &[4, 2, 2], &[1]);
    gives(&mut opened.clone(), (3, u64::MAX), &[0, 1, 2, 0, 2, 2], &[6, 2, 8], &[1]);
    gives(&mut opened.clone(), (3, 2), &[0, 1], &[3, 2], &[1]);
    let all = part_of(&held(&[OVERFULL, OVERFULL, NONE, OVERFULL], 0));
    gives(&mut all.clone(), (7, 100), &[0, 1, 3], &[], &[0, 1, 3]);
    gives(&mut all.clone(), (7, 2), &[0, 1], &[], &[0, 1]);
}

/// "Stopped is not remembered": each call tries the store again, which leaves it as it is.
#[test]
fn a_stopped_store_is_tried_again_by_the_next_call() {
    let mut part = part_of(&held(&[SIX, OVERFULL, EIGHT], 2));
    gives(&mut part, (3, 3), &[0, 1, 2], &[3, 2, 3], &[1]);
    gives(&mut part, (3, 3), &[0, 1, 2], &[3, 0, 3], &[1]);
    let before = part[STORE_BYTES..2 * STORE_BYTES].to_vec();
    gives(&mut part, (3, 3), &[1, 2], &[0, 0, 2], &[1]);
    gives(&mut part, (3, 3), &[1], &[], &[1]);
    assert_eq!(part[STORE_BYTES..2 * STORE_BYTES], before);
}

/// Two turns a call: the third store gets none before the second is done, by the seventh call.
#[test]
fn every_call_starts_at_index_0() {
    let mut part = part_of(&held(&[EIGHT, SIX, EIGHT], 0));
    for _ in 0..6 {
        gives(&mut part, (1, 2), &[0, 1], &[1, 1], &[]);
    }
    for _ in 0..2 {
        gives(&mut part, (1, 2), &[0, 2], &[1, 0, 1], &[]);
    }
    gives(&mut part, (1, 2), &[2, 2], &[0, 0, 2], &[]);
    gives(&mut part, (1, 9), &[2, 2, 2, 2], &[0, 0, 4], &[]);
    gives(&mut part, (1, 9), &[], &[], &[]);
}

/// Of eight stores each waits seven turns, and no more; also where some drop out, and where the call ends while it waits.
#[test]
fn stores_wait_at_most_seven_turns() {
    let mut eight = held(&[EIGHT; 8], 0);
    let given = dispatch::give(&mut eight, 1, u64::MAX);
    assert_eq!(given.turns, (0..64).map(|turn| turn % 8).collect::<Vec<usize>>());
    for index in 0..8 {
        assert_eq!((given.turns_of(index), given.longest_wait(index, false)), (8, 7));
    }
    let given = dispatch::give(&mut held(&[EIGHT; 8], 0), 1, 7);
    assert_eq!([0, 6, 7].map(|index| given.longest_wait(index, true)), [6, 6, 7]);
    let mut mixed = held(&[SIX, ONE, OVERFULL, NONE, SIX, ONE, ONE, EIGHT], 0);
    let given = dispatch::give(&mut mixed, 2, u64::MAX);
    assert_eq!(given.turns, [0, 1, 2, 4, 5, 6, 7, 0, 4, 7, 0, 4, 7, 7]);
    assert_eq!([0, 1, 2, 3, 4, 7].map(|index| given.longest_wait(index, false)), [6, 1, 2, 0, 4, 6]);
}

/// The number of the refusal, and the part stays.
fn refuses(part: &[u8], length: u64, turns: u64, number: u8) {
    let mut lent = part.to_vec();
    let answer = dispatch::dispatch(&mut lent, length, turns);
    assert_eq!(answer, Err(number), "{} bytes, {turns} turns of {length}", part.len());
    assert!(lent == part);
}

#[test]
fn refusals_of_the_dispatcher_in_their_order() {
    let eight = part_of(&held(&[ONE, NONE, SIX, ONE, NONE, SIX, ONE, EIGHT], 0));
    let more = [&eight[..], &eight[..STORE_BYTES]].concat();
    let length = |bytes: usize| more[..bytes].to_vec();
    for turns in [0, 1, u64::MAX] {
        for (bytes, turn, number) in [
            (0, 0, 14),
            (0, 1, 14),
            (524_289, 1_001, 14),
            (524_289, 1, 14),
            (589_824, 1, 14),
            (1, 0, 15),
            (1, 1_001, 15),
            (65_536, 0, 15),
            (524_288, 1_001, 15),
            (524_288, u64::MAX, 15),
            (1, 1, 7),
            (65_535, 1_000, 7),
            (65_537, 1, 7),
            (131_071, 1, 7),
            (458_753, 1, 7),
            (524_287, 1, 7),
        ] {
            refuses(&length(bytes), turn, turns, number);
        }
        for index in 0..8 {
            let mut damaged = eight.clone();
            damaged[index * STORE_BYTES + 65_535] = 1;
            refuses(&damaged, 1, turns, 7);
            refuses(&damaged, 0, turns, 15);
        }
        for turn in [1, 1_000] {
            assert!(dispatch::dispatch(&mut eight.clone(), turn, turns).is_ok());
        }
    }
}

/// The first heartbeat passes the bound of message numbers, and seven events follow it; only the next call refuses the store.
#[test]
fn a_store_that_passes_the_last_number_goes_on() {
    let mut part = part_of(&held(&[SIX, EIGHT], 0));
    layout::put(&mut part[STORE_BYTES..], layout::NEXT_NUMBER, 0, MAX_NEXT_NUMBER);
    gives(&mut part, (1, 11), &[0, 1, 0, 1, 0, 1, 0, 1, 0, 1, 0], &[6, 5], &[]);
    refuses(&part, 1, 9, 7);
    refuses(&part, 1, 0, 7);
}

/// "After its turns each store holds what a run of it by itself would with the length of all its turns as budget." No store that can go on
/// waits more than seven turns, and turns are missing only where none can.
#[test]
fn dispatched_runs_are_runs_alone() {
    let (mut missing, mut stopped) = (0, 0);
    for index in 0..150 {
        let mut random = Random::new(SEED ^ 0x7475_726e, index);
        let one = |_: u64| {
            let file = if random.chance(4) { OVERFULL.into() } else { generator::reported_plan(SEED, random.below(500), generator::SMALL) };
            let mut platform = Platform::open(plan::read(&file).expect("the file is accepted"));
            let (before, any) = (random.range(0, 40), random.range(0, 800));
            platform.run(if platform.nodes().len() == 64 { 2_048 - before } else { any });
            Held::from(platform)
        };
        let mut stores: Vec<Held> = (0..=index % 8).map(one).collect();
        let opened = stores.clone();
        let (length, turns) = (random.pick(&[1, 7, 12, 300]), random.pick(&[0, 3, 40, 400]));
        let given = dispatch::give(&mut stores, length, turns);
        for (place, mut alone) in opened.into_iter().enumerate() {
            let run = alone.platform.run(given.turns_of(place) * length);
            assert_eq!(alone.encode(), stores[place].encode(), "{index}: store {place}");
            assert_eq!((run.events, run.ending == Ending::Refused), (given.events[place], given.stopped[place]), "{index}: store {place}");
            let still = given.can_go_on(&mut stores, place);
            assert!(given.longest_wait(place, still) <= 7, "{index}: store {place}");
            assert!(!still || given.turns.len() as u64 == turns, "{index}: turns are missing");
        }
        missing += u64::from((given.turns.len() as u64) < turns);
        stopped += given.stopped.into_iter().filter(|stopped| *stopped).count();
    }
    assert!(missing > 20 && stopped > 60, "{missing} calls with turns missing, {stopped} stores stopped");
}
