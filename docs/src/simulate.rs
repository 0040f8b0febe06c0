//! The simulator's command line program.
//!
//! - `simulate`: a run file on standard input; writes what 01's rehearsal program writes.
//! - `simulate table`: lines `N,LIST`; writes the refusal number and the 384 targets of each.
//! - `simulate lines`: log lines; writes the log reader's answer to each.
//! - `simulate time FILE..`: does the events of each file without a log and prints the time.
//! - `simulate moves FILE..`: prints how many moves by report the files lead to, all together.
//! - `simulate recount FILE..`: counts the lines K of the log that stands beside each file once more.
//! - `simulate joined FILE..`: asks requests 106 and 107 after each event of the files and prints how late survivors were not joined, and
//!   their lists not full.
//! - `simulate false FILE..`: prints of each file how many live nodes get listed, and since when.

use simulator::falsely::{self, Falsely};
use simulator::fields;
use simulator::joining::{self, Joining};
use simulator::limits::*;
use simulator::log::Line;
use simulator::plan::{self, Refusal};
use simulator::platform::{self, Platform};
use simulator::recount::{self, Moves};
use simulator::ring;
use simulator::settle::Claim;
use std::io::{self, BufWriter, Read, Write};
use std::path::Path;
use std::process::ExitCode;
use std::time::Instant;

fn main() -> ExitCode {
    let arguments: Vec<_> = std::env::args_os().skip(1).collect();
    let mut out = BufWriter::with_capacity(1 << 16, io::stdout().lock());
    let answer = match (arguments.first().and_then(|word| word.to_str()), arguments.len()) {
        (None, 0) => rehearse(&mut out),
        (Some("table"), 1) => answer_lines(&mut out, answer_table),
        (Some("lines"), 1) => answer_lines(&mut out, answer_log_line),
        (Some("time"), _) => arguments[1..].iter().try_for_each(|path| time(&mut out, path)),
        (Some("moves"), _) => moves(&mut out, &arguments[1..]),
        (Some("recount"), _) => recount(&mut out, &arguments[1..]),
        (Some("joined"), _) => joined(&mut out, &arguments[1..]),
        (Some("false"), _) => arguments[1..].iter().try_for_each(|path| falsely(&mut out, path)),
        _ => Err(io::Error::other(
            "usage: simulate [table | lines | time FILE.. | moves FILE.. | recount FILE.. | joined FILE.. | false FILE..]",
        )),
    };
    match answer.and_then(|()| out.flush()) {
        Ok(()) => ExitCode::SUCCESS,
        Err(error) => {
            eprintln!("simulate: {error}");
            ExitCode::from(2)
        }
    }
}

/// At most one byte more than the longest accepted run file.
fn read_run_file(from: impl Read) -> io::Result<Vec<u8>> {
    let mut file = Vec::new();
    from.take(FILE_BYTES as u64 + 1).read_to_end(&mut file)?;
    Ok(file)
}

/// "For a refused file the rehearsal program writes only the number and the line, parted by a comma;
/// a refused event ends its log with the line `8,0`."
fn rehearse(out: &mut impl Write) -> io::Result<()> {
    match plan::read(&read_run_file(io::stdin().lock())?) {
        Ok(plan) => platform::rehearse(plan, out),
        Err(Refusal { number, line }) => writeln!(out, "{number},{line}"),
    }
}

/// Answers each line of standard input, its line feed included, by a line.
fn answer_lines<W: Write>(out: &mut W, answer: fn(&mut W, &[u8]) -> io::Result<()>) -> io::Result<()> {
    let mut input = Vec::new();
    io::stdin().lock().read_to_end(&mut input)?;
    input.split_inclusive(|byte| *byte == b'\n').try_for_each(|line| answer(out, line))
}

/// The number 0, 2 (the line is not `N,LIST`) or 3, then the table's rows one after another.
fn answer_table(out: &mut impl Write, line: &[u8]) -> io::Result<()> {
    let table = table_question(line)
        .ok_or(REFUSED_FORM)
        .and_then(|(nodes, list)| ring::forwarding_table(nodes, list));
    let (number, table) = match table {
        Ok(table) => (0, table),
        Err(number) => (number, ring::EMPTY_TABLE),
    };
    write!(out, "{number}")?;
    for target in table.iter().flatten() {
        write!(out, ",{target}")?;
    }
    writeln!(out)
}

fn table_question(line: &[u8]) -> Option<(u64, u64)> {
    let mut parts = fields::body(line)?.split(|byte| *byte == b',');
    let question = (fields::number(parts.next()?)?, fields::list(parts.next()?)?);
    parts.next().is_none().then_some(question)
}

/// `0,` and the five fields as a log line, or the refusal number.
fn answer_log_line(out: &mut impl Write, line: &[u8]) -> io::Result<()> {
    match Line::read(line) {
        Ok(line) => {
            write!(out, "0,")?;
            line.put(out)
        }
        Err(number) => writeln!(out, "{number}"),
    }
}

/// Prints the file's name, its events, the seconds that they took and the events a second.
fn time(out: &mut impl Write, path: &std::ffi::OsString) -> io::Result<()> {
    let name = path.to_string_lossy();
    let plan = match plan::read(&read_run_file(std::fs::File::open(path)?)?) {
        Ok(plan) => plan,
        Err(Refusal { number, line }) => return writeln!(out, "{name}: refused {number},{line}"),
    };
    let mut platform = Platform::open(plan);
    let start = Instant::now();
    let run = platform.run(u64::MAX);
    let seconds = start.elapsed().as_secs_f64();
    let rate = run.events as f64 / seconds.max(1e-9);
    writeln!(out, "{name}: {:?}, {} events, {seconds:.3} s, {rate:.0} events/s", run.ending, run.events)
}

/// For each run file NAME.run the log NAME.log. Prints how many lines K there are, how many of them with a number above 1, and the greatest
/// number; or fails where one is missing, wrong or too many. The log of a refused file is not looked at.
fn recount(out: &mut impl Write, paths: &[std::ffi::OsString]) -> io::Result<()> {
    let mut moves = Moves::NONE;
    for path in paths {
        if let Ok(plan) = plan::read(&read_run_file(std::fs::File::open(path)?)?) {
            let log = Path::new(path).with_extension("log");
            let told = |error: String| io::Error::other(format!("{}: {error}", log.display()));
            moves.add(&recount::of_log(&plan, &std::fs::read(&log)?).map_err(told)?);
        }
    }
    writeln!(out, "{} {} {}", moves.all(), moves.passing_more(), moves.greatest())
}

/// Prints the number of reports that move a node, in all the files; a refused file has none.
fn moves(out: &mut impl Write, paths: &[std::ffi::OsString]) -> io::Result<()> {
    let mut moves = 0;
    for path in paths {
        if let Ok(plan) = plan::read(&read_run_file(std::fs::File::open(path)?)?) {
            let mut platform = Platform::open(plan);
            platform.run(u64::MAX);
            moves += platform.moves_by_report();
        }
    }
    writeln!(out, "{moves}")
}

/// Prints how many files have a crash. Then, for request 106 and for request 107, after how many events it is owed, and the tick at whose end
/// what it claims did not hold that comes nearest to its bound in proportion: the ticks after the last crash done, and the bound. Fails where
/// a claim is false. A refused file has no crash.
fn joined(out: &mut impl Write, paths: &[std::ffi::OsString]) -> io::Result<()> {
    let mut all = [(Claim::Joined, Joining::NONE), (Claim::Listed, Joining::NONE)];
    for path in paths {
        if let Ok(plan) = plan::read(&read_run_file(std::fs::File::open(path)?)?) {
            let told = |error: String| io::Error::other(format!("{}: {error}", path.to_string_lossy()));
            for (claim, joining) in &mut all {
                joining.add(&joining::of_run(&mut Platform::open(plan.clone()), *claim).map_err(told)?);
            }
        }
    }
    write!(out, "{}", all[0].1.crashed)?;
    for (_, Joining { owed, nearest, .. }) in all {
        let (ticks, bound) = nearest.map_or((0, 0), |late| (late.ticks, late.bound));
        write!(out, " {owed} {ticks} {bound}")?;
    }
    writeln!(out)
}

/// Prints the file's name, the tick at which a live node is first listed or `-`, the most live nodes that are listed at one moment, and the
/// events by which a node comes to list one. Fails where one is listed though W is at least H + D.
fn falsely(out: &mut impl Write, path: &std::ffi::OsString) -> io::Result<()> {
    let name = path.to_string_lossy();
    let plan = match plan::read(&read_run_file(std::fs::File::open(path)?)?) {
        Ok(plan) => plan,
        Err(Refusal { number, line }) => return writeln!(out, "{name} refused {number},{line}"),
    };
    let long_enough = !plan.short_timeout();
    let told = falsely::of_run(&mut Platform::open(plan));
    let Falsely { first, most, events } = told;
    let first = first.map_or("-".to_string(), |tick| tick.to_string());
    writeln!(out, "{name} {first} {most} {events}")?;
    if long_enough && told != Falsely::NONE {
        return Err(io::Error::other(format!("{name}: a live node is listed though W is at least H + D")));
    }
    Ok(())
}
