//! How fast the proved platform is: `kelbraut_run` beside the simulator's run, which keeps a binary heap, and `kelbraut_dispatch` beside
//! runs of the same stores, in one process; then the rehearsal program beside the simulator's, with their logs. It says how fast. A
//! difference between two that are compared is an error all the same.
//!
//! Usage: bench [quick] [FILE..]: `quick` takes a tenth of the ticks, and of the dispatcher's rounds. Where files are named, only they are
//! run and compared. REHEARSE names another rehearsal program.
//!
//! A time is the shortest of several. Stores and heaps are opened before it is taken, and warm: each file is first run in part by both,
//! and then by turns. The time of a proved call has its one check of the store, or of each store, in it.

#[allow(dead_code)]
#[path = "../tests/calls.rs"]
mod calls;
#[path = "../tests/common.rs"]
mod common;

use calls::{proved, Call};
use simulator::generator::{self, Draft, CROWD, ORDERS};
use simulator::limits::*;
use simulator::plan;
use simulator::platform::Platform;
use simulator::store;
use std::fs::File;
use std::io::Read;
use std::process::{Child, ChildStdout, Command, ExitCode, Stdio};
use std::time::Instant;

/// How often a whole run is timed; how often a call in one pass over the calls, and in how many passes.
const ROUNDS: usize = 2;
const CALLS: usize = 20;
const PASSES: usize = 20;
/// Events of the part of a file that is run before.
const WARMING: u64 = 50_000;
/// Bytes of the logs that are compared at a time.
const CHUNK: usize = 1 << 20;
/// A run of this budget and above keeps the messages in a queue; below, it searches them for each event.
const QUEUED: u64 = 12;
/// Lengths of the dispatcher's turns; how many events each store does, whole turns of all these lengths; how often it is timed.
const TURNS: [u64; 5] = [1, QUEUED - 1, QUEUED, 100, MAX_TURN];
const EACH: u64 = 33_000;
const TURNED: usize = 20;
/// The most that 02 allows a run, as a multiple of the simulator's time.
const ASKED: f64 = 3.0;
/// The fewest messages in flight that 02 asks of a file's last line.
const FEWEST: u64 = 1_000;

const SIMULATE: &str = "target/tests/simulate";
/// The run file that the programs are given.
const INPUT: &str = "target/tests/bench.run";

/// A run file and what to call it.
struct Named {
    name: String,
    file: Vec<u8>,
}

// ---- run files

/// 64 nodes without crashes and L lines: 64 × D / H messages in flight; W is H + D.
fn quiet(period: u64, delay: u64, end: u64) -> Draft {
    Draft { nodes: 64, period, timeout: period + delay, delay, end, order: Vec::new(), crashes: Vec::new(), delays: Vec::new() }
}

/// The five files that 02 asks for. The crashes leave 40 nodes, so that more than 1,000 messages are in flight to the end.
fn five(end: u64) -> Vec<Named> {
    let usual = || quiet(10, 255, end);
    let block = |place: u64| (0..8).map(move |node| (end / 4 * (place + 1), 21 * place + node));
    let spaced = |place: u64| (end / 50 * (2 * place + 1), (37 * place + 5) % 64);
    let drafts = [
        ("quiet", usual()),
        ("H 1", quiet(1, 32, end)),
        ("2,048 L lines", Draft { delays: (0..2_048).map(|row| (488 * row, 37 * row % 255 + 1)).collect(), ..usual() }),
        ("3 blocks of 8 crashes", Draft { crashes: (0..3).flat_map(block).collect(), ..usual() }),
        ("24 spaced crashes", Draft { crashes: (0..24).map(spaced).collect(), ..usual() }),
    ];
    drafts.into_iter().map(|(name, draft)| Named { name: name.to_string(), file: draft.bytes() }).collect()
}

// ---- whole runs

/// One timed run: seconds, events, the store that is left.
struct Timed {
    seconds: f64,
    events: u64,
    store: Vec<u8>,
}

fn proved_run(file: &[u8], budget: u64) -> Result<Timed, String> {
    let mut store = vec![0; STORE_BYTES];
    let opened = proved::open(file, &mut store);
    if opened != 0 {
        return Err(format!("the file is refused by {},{}", opened % 256, opened / 256));
    }
    let began = Instant::now();
    let answer = proved::call(Call::Run { budget }, &mut store, &mut []);
    Ok(Timed { seconds: began.elapsed().as_secs_f64(), events: answer[1], store })
}

fn simulated_run(file: &[u8], budget: u64) -> Result<Timed, String> {
    let mut platform = Platform::open(plan::read(file).map_err(|refusal| format!("the file is refused: {refusal:?}"))?);
    let began = Instant::now();
    let run = platform.run(budget);
    Ok(Timed { seconds: began.elapsed().as_secs_f64(), events: run.events, store: store::encode(&platform) })
}

/// What is measured of one file: seconds of both runs, their events, and the last line of the log.
struct Row {
    proved: f64,
    simulated: f64,
    events: u64,
    last: String,
}

impl Row {
    fn ratio(&self) -> f64 {
        self.proved / self.simulated
    }

    /// Nanoseconds an event.
    fn each(&self, seconds: f64) -> f64 {
        seconds * 1e9 / self.events as f64
    }
}

/// The line that a step writes on the store.
fn line_of(mut store: Vec<u8>) -> String {
    let mut log = [0; LOG_BYTES];
    let answer = proved::call(Call::Step, &mut store, &mut log);
    if answer[0] != 0 {
        return format!("{},0", answer[0]);
    }
    String::from_utf8_lossy(&log[..answer[5] as usize]).trim_end().to_string()
}

fn measure(file: &[u8]) -> Result<Row, String> {
    proved_run(file, WARMING)?;
    simulated_run(file, WARMING)?;
    let mut row = Row { proved: f64::INFINITY, simulated: f64::INFINITY, events: 0, last: String::new() };
    for _ in 0..ROUNDS {
        let (one, other) = (proved_run(file, u64::MAX)?, simulated_run(file, u64::MAX)?);
        if one.events != other.events || one.store != other.store {
            return Err("the runs differ".to_string());
        }
        row = Row {
            proved: row.proved.min(one.seconds),
            simulated: row.simulated.min(other.seconds),
            events: one.events,
            last: line_of(one.store),
        };
    }
    Ok(row)
}

/// The files' runs as a table, then their greatest ratio.
fn runs(files: &[Named]) -> Result<(), String> {
    println!("A whole run: seconds and nanoseconds an event. The stores that both leave are equal.\n");
    println!("{:<22} {:>11}  {:>17} {:>17} {:>6}  last line", "file", "events", "proved", "simulator", "ratio");
    let mut greatest: f64 = 0.0;
    for Named { name, file } in files {
        let row = measure(file).map_err(|error| format!("{name}: {error}"))?;
        let [one, other] = [row.proved, row.simulated].map(|seconds| format!("{seconds:.3} s {:>5.1} ns", row.each(seconds)));
        println!("{name:<22} {:>11}  {one:>17} {other:>17} {:>6.2}  {}", row.events, row.ratio(), row.last);
        greatest = greatest.max(row.ratio());
    }
    println!("\nThe greatest ratio is {greatest:.2}; {ASKED:.1} is asked.\n");
    Ok(())
}

/// Whether the last line is that of a finished run with as many in flight as 02 asks for.
fn is_crowded(last: &str) -> bool {
    let mut columns = last.split(',');
    matches!(columns.next(), Some("E" | "F")) && columns.nth(2).is_some_and(|in_flight| in_flight.parse().is_ok_and(|count: u64| count >= FEWEST))
}

/// The time an event as more are in flight, all else alike.
fn flight(end: u64) -> Result<(), String> {
    println!("Nanoseconds an event, by messages in flight (H 8, no crashes).\n");
    println!("{:>9} {:>8} {:>9} {:>6}", "in flight", "proved", "simulator", "ratio");
    let mut each = Vec::new();
    for delay in [8, 80, 160, 240] {
        let row = measure(&quiet(8, delay, end).bytes())?;
        println!("{:>9} {:>8.1} {:>9.1} {:>6.2}", 8 * delay, row.each(row.proved), row.each(row.simulated), row.ratio());
        each.push(row.each(row.proved));
    }
    let more = (each[each.len() - 1] / each[0] - 1.0) * 100.0;
    println!("\nFrom 64 to 1,920 in flight an event of the proved run takes {more:+.0} %.\n");
    Ok(())
}

// ---- single calls

/// The check of the store that every call makes, and no more: a log part is too short for a run file, and the writer refuses it by 9.
const CHECK: Call = Call::Write;

/// Microseconds of each of the calls on the store, which is put back before each, and of the check alone.
/// The calls go by turns, so that what else the machine does falls on all of them.
fn call_times(store: &[u8], calls: &[Call]) -> (Vec<f64>, f64) {
    let (mut lent, mut part) = (store.to_vec(), [0; LOG_BYTES]);
    let mut once = |call| {
        lent.copy_from_slice(store);
        let began = Instant::now();
        proved::call(call, &mut lent, &mut part);
        began.elapsed().as_secs_f64() * 1e6
    };
    let mut best = vec![f64::INFINITY; calls.len() + 1];
    for _ in 0..PASSES {
        for (call, best) in calls.iter().chain([&CHECK]).zip(&mut best) {
            *best = (0..CALLS).map(|_| once(*call)).fold(*best, f64::min);
        }
    }
    let check = best.pop().expect("the check is the last");
    (best, check)
}

/// The store of a draft after some of its events.
fn store_of(draft: &Draft, events: u64) -> Result<Vec<u8>, String> {
    proved_run(&draft.bytes(), events).map(|timed| timed.store)
}

/// Calls on a store with 2,048 messages in flight.
fn full_store() -> Result<(), String> {
    let store = store_of(&quiet(1, 32, 1_000), CROWD + 128 * 10)?;
    let budgets = [0, 1, QUEUED - 1, QUEUED, 16, 1_000];
    let calls: Vec<Call> = budgets.iter().map(|budget| Call::Run { budget: *budget }).chain([Call::Step]).collect();
    let (times, check) = call_times(&store, &calls);
    println!("Calls on a store with 2,048 in flight, in microseconds; the check of the store, {check:.1}, is in each.\n");
    println!("{:<20} {:>8} {:>8}", "call", "whole", "rest");
    for (call, time) in calls.iter().zip(times) {
        println!("{:<20} {time:>8.1} {:>8.1}", format!("{call:?}"), time - check);
    }
    println!();
    Ok(())
}

/// The straight line nearest to the points: its height at 0 and how much it rises for 1.
fn nearest_line(points: &[(f64, f64)]) -> (f64, f64) {
    let mean = |of: fn(&(f64, f64)) -> f64| points.iter().map(of).sum::<f64>() / points.len() as f64;
    let (x, y) = (mean(|point| point.0), mean(|point| point.1));
    let rise = points.iter().map(|point| (point.0 - x) * (point.1 - y)).sum::<f64>()
        / points.iter().map(|point| (point.0 - x).powi(2)).sum::<f64>();
    (y - rise * x, rise)
}

/// Where a run that searches and one with a queue take the same time: their lines are drawn from the budgets below and from QUEUED on.
fn crossing() -> Result<(), String> {
    println!("Runs of few events, and a step, which searches; in microseconds, the check of the store taken off.\n");
    let budgets = [1, 2, 4, 6, 8, 9, 10, 11, 12, 13, 14, 16, 20, 24, 28, 32, 40, 48, 56, 64];
    let calls: Vec<Call> = budgets.iter().map(|budget| Call::Run { budget: *budget }).chain([Call::Step]).collect();
    let mut told = Vec::new();
    let mut columns = Vec::new();
    for (in_flight, delay) in [(64, 10), (1_664, 255)] {
        // At the start of a tick with 64 deliveries, so that the budgets' events are alike.
        let (times, check) = call_times(&store_of(&quiet(10, delay, 1_000), in_flight + 128 * 5)?, &calls);
        let times: Vec<f64> = times.into_iter().map(|time| time - check).collect();
        let points = budgets.iter().map(|budget| *budget as f64).zip(times.iter().copied());
        let (few, many): (Vec<_>, Vec<_>) = points.partition(|point| point.0 < QUEUED as f64);
        let [(from, rise), (queue_from, queue_rise)] = [nearest_line(&few), nearest_line(&many)];
        let step = times[budgets.len()];
        let (which, crossing) = if rise > step / 2.0 {
            ("they", (queue_from - from) / (rise - queue_rise))
        } else {
            ("neither searches; steps would", queue_from / (step - queue_rise))
        };
        told.push(format!(
            "{in_flight} in flight: below {QUEUED} events {from:.2} and {rise:.3} each, then {queue_from:.2} and {queue_rise:.3} each; \
             {which} cross at {crossing:.0} events."
        ));
        columns.push(times);
    }
    println!("{:<20} {:>12} {:>15}", "call", "64 in flight", "1,664 in flight");
    for (place, call) in calls.iter().enumerate() {
        println!("{:<20} {:>12.2} {:>15.2}", format!("{call:?}"), columns[0][place], columns[1][place]);
    }
    println!("\n{}\n", told.join("\n"));
    Ok(())
}

/// Runs on a store whose 2,048 messages are due in another order than their numbers'.
fn filling() -> Result<(), String> {
    println!("Runs on a store with 2,048 in flight, by the order of their due ticks; in microseconds, the check taken off.\n");
    println!("{:<8} {:>10} {:>10}", "dues", format!("budget {}", QUEUED - 1), format!("budget {QUEUED}"));
    for order in ORDERS {
        let store = store_of(&generator::crowd(order), CROWD + 64)?;
        let (times, check) = call_times(&store, &[QUEUED - 1, QUEUED].map(|budget| Call::Run { budget }));
        println!("{:<8} {:>10.1} {:>10.1}", format!("{order:?}").to_lowercase(), times[0] - check, times[1] - check);
    }
    println!();
    Ok(())
}

// ---- the dispatcher

/// What is done with the stores of a part: turns of all in one call, or a run of each, one after another.
#[derive(Clone, Copy)]
enum Way {
    Turns { length: u64, turns: u64 },
    Runs { budget: u64 },
}

impl Way {
    /// How many events each store does; None where a call is refused.
    fn go(self, part: &mut [u8]) -> Option<[u64; MAX_STORES]> {
        let mut events = [0; MAX_STORES];
        let refused = match self {
            Way::Turns { length, turns } => {
                let answer = proved::dispatch(part, length, turns);
                events = answer.events;
                answer.number != 0
            }
            Way::Runs { budget } => part.chunks_mut(STORE_BYTES).zip(&mut events).any(|(store, events)| {
                let [number, did, ..] = proved::call(Call::Run { budget }, store, &mut []);
                *events = did;
                number != 0
            }),
        };
        (!refused).then_some(events)
    }
}

/// Seconds of each of the ways on the part, which is put back before each. The ways go by turns. All have to do as many events of each
/// store as is said, and to leave the same part.
fn way_times(part: &[u8], each: u64, ways: &[Way], rounds: usize) -> Result<Vec<f64>, String> {
    let (mut lent, mut left) = (part.to_vec(), part.to_vec());
    ways[0].go(&mut left);
    let mut best = vec![f64::INFINITY; ways.len()];
    for _ in 0..rounds {
        for (way, best) in ways.iter().zip(&mut best) {
            lent.copy_from_slice(part);
            let began = Instant::now();
            let events = way.go(&mut lent);
            *best = best.min(began.elapsed().as_secs_f64());
            if events != Some([each; MAX_STORES]) || lent != left {
                return Err("the dispatcher and the runs of its stores differ".to_string());
            }
        }
    }
    Ok(best)
}

/// Eight stores: turns by their length beside a run of each, and a call that gives no turn, which is the tests that begin each call.
fn side_by_side(rounds: usize) -> Result<(), String> {
    let stores = MAX_STORES as u64;
    let turns = TURNS.map(|length| Way::Turns { length, turns: stores * (EACH / length) });
    let ways: Vec<Way> = [Way::Runs { budget: EACH }].into_iter().chain(turns).collect();
    let (mut columns, mut none) = (Vec::new(), Vec::new());
    for (in_flight, delay) in [(64, 10), (1_664, 255)] {
        // Each at another place of its run.
        let at = |index| store_of(&quiet(10, delay, 10_000), in_flight + 128 * 5 + 19 * index);
        let part = (0..stores).map(at).collect::<Result<Vec<_>, String>>()?.concat();
        columns.push(way_times(&part, EACH, &ways, rounds)?);
        let idle = [Way::Runs { budget: 0 }, Way::Turns { length: 1, turns: 0 }];
        none.push(way_times(&part, 0, &idle, CALLS * PASSES)?);
    }
    println!("Eight stores in a call of the dispatcher, {EACH} events of each; nanoseconds an event. The runs leave the same.\n");
    println!("{:<22} {:>12} {:>15}", "", "64 in flight", "1,664 in flight");
    let names = ["a run of each".to_string()].into_iter().chain(TURNS.map(|length| format!("turns of {length}")));
    for (place, name) in names.enumerate() {
        let [few, many] = [0, 1].map(|column: usize| columns[column][place] * 1e9 / (stores * EACH) as f64);
        println!("{name:<22} {few:>12.1} {many:>15.1}");
    }
    println!("\nWithout an event, in microseconds a call, or eight:\n");
    for (place, name) in ["a run of 0 of each", "no turn"].iter().enumerate() {
        println!("{name:<22} {:>12.1} {:>15.1}", none[0][place] * 1e6, none[1][place] * 1e6);
    }
    println!();
    Ok(())
}

// ---- programs

fn rehearse() -> String {
    std::env::var("REHEARSE").unwrap_or("target/bin/rehearse".to_string())
}

/// Starts the program on the input file.
fn start(program: &str, out: Stdio) -> Result<Child, String> {
    let told = |error| format!("{program}: {error}");
    Command::new(program).stdin(File::open(INPUT).map_err(told)?).stdout(out).spawn().map_err(told)
}

fn finish(mut program: Child) -> Result<(), String> {
    match program.wait() {
        Ok(status) if status.success() => Ok(()),
        other => Err(format!("a program ended with {other:?}")),
    }
}

fn put_input(file: &[u8]) -> Result<(), String> {
    std::fs::write(INPUT, file).map_err(|error| format!("{INPUT}: {error}"))
}

/// Seconds of the program, its log written to nowhere.
fn program_time(program: &str) -> Result<f64, String> {
    let began = Instant::now();
    finish(start(program, Stdio::null())?)?;
    Ok(began.elapsed().as_secs_f64())
}

/// The programs from start to end, their logs written to /dev/null.
fn programs(end: u64) -> Result<(), String> {
    println!("The programs with their logs, written to /dev/null, in seconds ({end} ticks).\n");
    println!("{:>9} {:>10} {:>9} {:>6}", "in flight", "rehearsal", "simulator", "ratio");
    for (in_flight, delay) in [(64, 10), (1_664, 255)] {
        put_input(&quiet(10, delay, end).bytes())?;
        let mut best = [f64::INFINITY; 2];
        for _ in 0..ROUNDS {
            best = [best[0].min(program_time(&rehearse())?), best[1].min(program_time(SIMULATE)?)];
        }
        let [one, other] = best;
        println!("{in_flight:>9} {one:>10.3} {other:>9.3} {:>6.2}", one / other);
    }
    println!();
    Ok(())
}

/// The next bytes of a log, fewer than the chunk has only at its end.
fn next_chunk<'a>(log: &mut ChildStdout, chunk: &'a mut Vec<u8>) -> Result<&'a [u8], String> {
    chunk.clear();
    log.take(CHUNK as u64).read_to_end(chunk).map_err(|error| error.to_string())?;
    Ok(chunk)
}

/// Compares the programs' logs of the input to their ends. Their bytes and the last line.
fn same_logs() -> Result<(u64, String), String> {
    let [mut one, mut other] = [start(&rehearse(), Stdio::piped())?, start(SIMULATE, Stdio::piped())?];
    let [mut log, mut wanted] = [&mut one, &mut other].map(|program| program.stdout.take().expect("the log is piped"));
    let (mut first, mut second) = (Vec::new(), Vec::new());
    let (mut bytes, mut tail) = (0, Vec::new());
    loop {
        let (chunk, other_chunk) = (next_chunk(&mut log, &mut first)?, next_chunk(&mut wanted, &mut second)?);
        if chunk != other_chunk {
            let place = chunk.iter().zip(other_chunk).take_while(|(byte, other)| byte == other).count() as u64;
            return Err(format!("the logs differ at byte {}", bytes + place));
        }
        if chunk.is_empty() {
            break;
        }
        bytes += chunk.len() as u64;
        tail.extend_from_slice(&chunk[chunk.len().saturating_sub(LOG_BYTES)..]);
        tail.drain(..tail.len().saturating_sub(LOG_BYTES));
    }
    finish(one)?;
    finish(other)?;
    let tail = String::from_utf8_lossy(&tail).into_owned();
    Ok((bytes, tail.trim_end().rsplit('\n').next().unwrap_or("").to_string()))
}

/// The logs of the files, compared byte by byte.
fn logs(files: &[Named], asked: bool) -> Result<(), String> {
    println!("The logs of both programs, compared as they come.\n");
    for Named { name, file } in files {
        put_input(file)?;
        let (bytes, last) = same_logs().map_err(|error| format!("{name}: {error}"))?;
        println!("{name:<22} {bytes:>11} bytes alike, the last line {last}");
        if asked && !is_crowded(&last) {
            return Err(format!("{name}: fewer than {FEWEST} messages in flight at the end"));
        }
    }
    Ok(())
}

fn bench(words: &[String]) -> Result<(), String> {
    let (part, names) = match words.split_first() {
        Some((word, names)) if word == "quick" => (10, names),
        _ => (1, words),
    };
    if !names.is_empty() {
        let read = |name: &String| match std::fs::read(name) {
            Ok(file) => Ok(Named { name: name.clone(), file }),
            Err(error) => Err(format!("{name}: {error}")),
        };
        let files = names.iter().map(read).collect::<Result<Vec<Named>, String>>()?;
        return runs(&files).and_then(|()| logs(&files, false));
    }
    let files = five(MAX_TICK / part);
    runs(&files)?;
    flight(200_000 / part)?;
    full_store()?;
    crossing()?;
    filling()?;
    side_by_side(TURNED / part as usize)?;
    programs(200_000 / part)?;
    logs(&files, true)
}

fn main() -> ExitCode {
    match bench(&std::env::args().skip(1).collect::<Vec<String>>()) {
        Ok(()) => ExitCode::SUCCESS,
        Err(error) => {
            eprintln!("bench: {error}");
            ExitCode::FAILURE
        }
    }
}
