//! Calls of two versions of the library beside each other, in one process: opening, a step, the run-file writer, and the test of a store
//! that each call on an opened one begins with. It says how fast. A difference between the two is an error all the same.
//!
//! Usage: beside BEFORE NOW [ROUNDS]: BEFORE and NOW are the libraries as shared objects.
//!
//! A time is the shortest of ROUNDS, in microseconds, the clock's own taken off. All that is lent is put back before each call, untimed.
//! The two go by turns, and so do the calls and the stores, so that what else the machine does falls on all of them.

use simulator::generator::{Draft, CROWD};
use simulator::layout::Counts;
use simulator::limits::*;
use simulator::plan;
use simulator::platform::Platform;
use simulator::store;
use std::ffi::{c_char, c_int, c_void, CStr, CString};
use std::mem::transmute;
use std::process::ExitCode;
use std::time::Instant;

/// How often a call is timed where nothing is said, and how often before the next call's turn comes.
const ROUNDS: usize = 2_000;
const IN_A_ROW: usize = 10;
/// What stands in lent bytes before they are written.
const OTHER: u8 = 165;
/// The first unused byte of any store.
const FIRST_UNUSED: usize = 29;

// ---- the libraries

extern "C" {
    fn dlopen(file: *const c_char, flags: c_int) -> *mut c_void;
    fn dlsym(library: *mut c_void, name: *const c_char) -> *mut c_void;
    fn dlerror() -> *const c_char;
}

/// Without RTLD_GLOBAL a library's symbols are its own.
const RTLD_NOW: c_int = 2;

type Open = unsafe extern "C" fn(*const u8, usize, *mut u8, usize) -> u64;
type Step = unsafe extern "C" fn(*mut u8, usize, *mut u8, usize, *mut u64, *mut u64, *mut u64, *mut u64, *mut u64) -> u64;
type Write = unsafe extern "C" fn(*const u8, usize, *mut u8, usize, *mut u64) -> u64;

struct Library {
    open: Open,
    step: Step,
    write: Write,
}

impl Library {
    fn load(file: &str) -> Result<Library, String> {
        let name = CString::new(file).map_err(|error| error.to_string())?;
        let library = found(unsafe { dlopen(name.as_ptr(), RTLD_NOW) })?;
        let symbol = |name: &CStr| found(unsafe { dlsym(library, name.as_ptr()) });
        let [open, step, write] = [symbol(c"kelbraut_open")?, symbol(c"kelbraut_step")?, symbol(c"kelbraut_write")?];
        unsafe {
            Ok(Library {
                open: transmute::<*mut c_void, Open>(open),
                step: transmute::<*mut c_void, Step>(step),
                write: transmute::<*mut c_void, Write>(write),
            })
        }
    }
}

/// What dlopen or dlsym gives, or the error where that is nothing.
fn found(pointer: *mut c_void) -> Result<*mut c_void, String> {
    if pointer.is_null() {
        return Err(unsafe { CStr::from_ptr(dlerror()) }.to_string_lossy().into_owned());
    }
    Ok(pointer)
}

// ---- the calls

#[derive(Clone, Copy, PartialEq, Eq, Debug)]
enum Call {
    /// Of the store's run file, into other bytes.
    Open,
    Step,
    Write,
    /// The test of the store and no more: the part is too short for a run file, and the writer refuses it by 9.
    Test,
    /// The same with the first unused byte set, refused by 7. All ranges are tested before the unused bytes (crates/lent/src/lib.rt), and
    /// these from the first on, so that what it lacks to the test is the time of the unused bytes.
    Ranges,
}

const CALLS: [Call; 5] = [Call::Open, Call::Step, Call::Write, Call::Test, Call::Ranges];

impl Call {
    /// The number of its answer.
    fn number(self) -> u8 {
        match self {
            Call::Open | Call::Step | Call::Write => 0,
            Call::Test => REFUSED_PART,
            Call::Ranges => REFUSED_STORE,
        }
    }
}

/// All that is lent to a call.
#[repr(align(64))]
#[derive(PartialEq, Eq)]
struct Lent {
    store: [u8; STORE_BYTES],
    part: [u8; FILE_BYTES],
    numbers: [u64; 5],
}

impl Lent {
    fn new() -> Box<Lent> {
        Box::new(Lent { store: [OTHER; STORE_BYTES], part: [OTHER; FILE_BYTES], numbers: [0; 5] })
    }

    /// All as it is before the call.
    fn put_back(&mut self, call: Call, stand: &Stand) {
        self.part.fill(OTHER);
        self.numbers = [u64::MAX; 5];
        if call == Call::Open {
            self.store.fill(OTHER);
        } else {
            self.store.copy_from_slice(&stand.store);
        }
        if call == Call::Ranges {
            self.store[FIRST_UNUSED] = 1;
        }
    }

    /// The call's answer.
    fn call(&mut self, library: &Library, call: Call, stand: &Stand) -> u64 {
        let Lent { store, part, numbers: [a, b, c, d, e] } = self;
        let (s, p) = (store.as_mut_ptr(), part.as_mut_ptr());
        unsafe {
            match call {
                Call::Open => (library.open)(stand.file.as_ptr(), stand.file.len(), s, STORE_BYTES),
                Call::Step => (library.step)(s, STORE_BYTES, p, LOG_BYTES, a, b, c, d, e),
                Call::Write => (library.write)(s, STORE_BYTES, p, FILE_BYTES, a),
                Call::Test | Call::Ranges => (library.write)(s, STORE_BYTES, p, LOG_BYTES, a),
            }
        }
    }
}

// ---- the stores

/// A store that is measured, and its run file.
struct Stand {
    name: &'static str,
    file: Vec<u8>,
    store: Vec<u8>,
    /// How many of its bytes are unused.
    unused: usize,
}

/// What a store has beside its nodes.
#[derive(Clone, Copy)]
struct Has {
    ring: bool,
    crashes: bool,
    delays: bool,
    messages: bool,
}

const NOTHING: Has = Has { ring: false, crashes: false, delays: false, messages: false };
const ALL: Has = Has { ring: true, crashes: true, delays: true, messages: true };

/// The store of a ring by the simulator, just opened or with 2,048 messages in flight. All crashes are at the end tick, so that none is
/// done, and all L rows have the delay D, so that the events are the same with and without them.
fn stand(name: &'static str, nodes: u64, has: Has) -> Result<Stand, String> {
    let (period, delay, end) = (1, 32, 1_000);
    let draft = Draft {
        nodes,
        period,
        timeout: period + delay,
        delay,
        end,
        order: if has.ring { (0..nodes).map(|place| (37 * place + 5) % nodes).collect() } else { Vec::new() },
        crashes: if has.crashes { (0..nodes).map(|node| (end, node)).collect() } else { Vec::new() },
        delays: if has.delays { (0..MAX_DELAY_ROWS as u64).map(|row| (488 * row, delay)).collect() } else { Vec::new() },
    };
    let file = draft.bytes();
    let mut platform = Platform::open(plan::read(&file).map_err(|refusal| format!("{name}: {refusal:?}"))?);
    if has.messages {
        // To the start of a tick with a delivery to each node.
        platform.run(CROWD + 2 * nodes * 10);
    }
    let store = store::encode(&platform);
    let counts = Counts::read(&store).ok_or("the store's counts are out of range")?;
    let asked = if has.messages { MAX_IN_FLIGHT } else { 0 };
    if counts.messages != asked {
        return Err(format!("{name}: {} messages in flight, not {asked}", counts.messages));
    }
    Ok(Stand { name, file, store, unused: counts.unused().map(|range| range.len()).sum() })
}

/// Where the stores stand whose differences are taken. After the full one come those that lack one part each.
const ONE: usize = 0;
const BARE: usize = 1;
const FULL: usize = 6;
const LACKING: [(usize, &str); 4] = [(7, "Q line"), (8, "64 C rows"), (9, "2,048 L rows"), (10, "2,048 messages")];

fn stands() -> Result<Vec<Stand>, String> {
    let all = [
        ("one node", 1, NOTHING),
        ("64 nodes", 64, NOTHING),
        ("and a Q line", 64, Has { ring: true, ..NOTHING }),
        ("and 64 C rows", 64, Has { crashes: true, ..NOTHING }),
        ("and 2,048 L rows", 64, Has { delays: true, ..NOTHING }),
        ("and 2,048 in flight", 64, Has { messages: true, ..NOTHING }),
        ("full", 64, ALL),
        ("full, no Q line", 64, Has { ring: false, ..ALL }),
        ("full, no C rows", 64, Has { crashes: false, ..ALL }),
        ("full, no L rows", 64, Has { delays: false, ..ALL }),
        ("full, none in flight", 64, Has { messages: false, ..ALL }),
    ];
    all.into_iter().map(|(name, nodes, has)| stand(name, nodes, has)).collect()
}

// ---- comparing and timing

/// Both libraries give the answer that the call should have, and leave the same.
fn compare(libraries: &[Library; 2], stand: &Stand) -> Result<(), String> {
    for call in CALLS {
        let told = |what: String| Err(format!("{}: {call:?}: {what}", stand.name));
        let mut left = [Lent::new(), Lent::new()];
        for (library, lent) in libraries.iter().zip(&mut left) {
            lent.put_back(call, stand);
            let answer = lent.call(library, call, stand);
            if answer != u64::from(call.number()) {
                return told(format!("a library answers {answer}, not {}", call.number()));
            }
        }
        if left[0] != left[1] {
            return told("the libraries leave other bytes or numbers".to_string());
        }
    }
    Ok(())
}

/// The shortest time between two looks at the clock, in seconds.
fn clock() -> f64 {
    (0..100_000).map(|_| Instant::now().elapsed().as_secs_f64()).fold(f64::INFINITY, f64::min)
}

/// Microseconds of each call on a store, before and now.
type Times = [[f64; 2]; CALLS.len()];

/// The shortest times, by store.
fn measure(libraries: &[Library; 2], stands: &[Stand], rounds: usize, clock: f64) -> Result<Vec<Times>, String> {
    let mut best = vec![[[f64::INFINITY; 2]; CALLS.len()]; stands.len()];
    let mut lent = Lent::new();
    for pass in 0..rounds / IN_A_ROW {
        for (stand, best) in stands.iter().zip(&mut best) {
            for (call, best) in CALLS.iter().zip(best) {
                for turn in 0..2 * IN_A_ROW {
                    // Each is the first of the two as often as the other.
                    let which = (pass + turn) % 2;
                    lent.put_back(*call, stand);
                    let began = Instant::now();
                    let answer = lent.call(&libraries[which], *call, stand);
                    let seconds = began.elapsed().as_secs_f64() - clock;
                    if answer != u64::from(call.number()) {
                        return Err(format!("{}: {call:?} answers {answer}", stand.name));
                    }
                    best[which] = best[which].min(seconds * 1e6);
                }
            }
        }
    }
    Ok(best)
}

// ---- printing

/// The letter of the line that a step on the store writes.
fn letter(library: &Library, stand: &Stand) -> char {
    let mut lent = Lent::new();
    lent.put_back(Call::Step, stand);
    lent.call(library, Call::Step, stand);
    char::from(lent.part[0])
}

/// What a call takes on the store at a place: its index in `CALLS` is its place in the times.
fn time(times: &[Times], place: usize, call: Call, which: usize) -> f64 {
    times[place][call as usize][which]
}

/// What the unused bytes take of the test of the store at a place.
fn unused(times: &[Times], place: usize, which: usize) -> f64 {
    time(times, place, Call::Test, which) - time(times, place, Call::Ranges, which)
}

fn print_calls(libraries: &[Library; 2], stands: &[Stand], times: &[Times]) {
    let columns = ["opening", "step", "write", "test", "of it unused"];
    println!("{:<20} {:>6}{}  event", "", "", columns.map(|name| format!("{name:>18}")).join(""));
    println!("{:<20} {:>6}{}", "store", "unused", columns.map(|_| format!("{:>10}{:>8}", "before", "now")).join(""));
    for (place, stand) in stands.iter().enumerate() {
        let called = [Call::Open, Call::Step, Call::Write, Call::Test].map(|call| [0, 1].map(|which| time(times, place, call, which)));
        let cells = called.into_iter().chain([[0, 1].map(|which| unused(times, place, which))]);
        let cells: String = cells.map(|[before, now]| format!("{before:>10.2}{now:>8.2}")).collect();
        println!("{:<20} {:>6}{cells}  {}", stand.name, stand.unused, letter(&libraries[1], stand));
    }
}

/// What the parts of the full store take of its test.
fn print_parts(stands: &[Stand], times: &[Times]) {
    let row = |name: &str, of: &dyn Fn(usize) -> f64| {
        let [before, now] = [of(0), of(1)];
        println!("{name:<36} {before:>8.2}{now:>8.2}");
        [before, now]
    };
    let ranges = |place: usize, which: usize| time(times, place, Call::Ranges, which);
    println!("{:<36} {:>8}{:>8}", "part of the full store", "before", "now");
    let mut parts = vec![row(&format!("{} unused bytes", stands[FULL].unused), &|which| unused(times, FULL, which))];
    for (lacking, part) in LACKING {
        parts.push(row(part, &|which| ranges(FULL, which) - ranges(lacking, which)));
    }
    parts.push(row("63 nodes", &|which| ranges(BARE, which) - ranges(ONE, which)));
    parts.push(row("one node, the P line and the call", &|which| ranges(ONE, which)));
    row("the sum", &|which| parts.iter().map(|part| part[which]).sum());
    row("the test", &|which| time(times, FULL, Call::Test, which));
}

fn beside(words: &[String]) -> Result<(), String> {
    let (files, rounds) = match words {
        [before, now] => ([before, now], ROUNDS),
        [before, now, rounds] => ([before, now], rounds.parse().ok().filter(|rounds| *rounds > 0).ok_or("ROUNDS is a number from 1 on")?),
        _ => return Err("usage: beside BEFORE NOW [ROUNDS]".to_string()),
    };
    let rounds = rounds.next_multiple_of(IN_A_ROW);
    let libraries = [Library::load(files[0])?, Library::load(files[1])?];
    if libraries[0].open as usize == libraries[1].open as usize {
        return Err("both names lead to one library".to_string());
    }
    let stands = stands()?;
    for stand in &stands {
        compare(&libraries, stand)?;
    }
    let clock = clock();
    let times = measure(&libraries, &stands, rounds, clock)?;
    println!("Microseconds a call, the shortest of {rounds}, less {:.0} ns of the clock. Both leave the same.\n", clock * 1e9);
    print_calls(&libraries, &stands, &times);
    println!("\nThe test of the full store in parts. Unused bytes: what a test that ends at the first of them lacks to the whole.");
    println!("Others: such a test of the full store less that of the one without the part; nodes: of 64 nodes less that of one.\n");
    print_parts(&stands, &times);
    Ok(())
}

fn main() -> ExitCode {
    match beside(&std::env::args().skip(1).collect::<Vec<String>>()) {
        Ok(()) => ExitCode::SUCCESS,
        Err(error) => {
            eprintln!("beside: {error}");
            ExitCode::FAILURE
        }
    }
}
