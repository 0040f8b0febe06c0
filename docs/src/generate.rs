//! The generator's command line program. `small` before the other words asks for files of few events.
//!
//! - `generate [small] SEED COUNT DIR`: writes DIR/SEED-INDEX.run for each index below COUNT.
//! - `generate [small] one SEED INDEX`: writes that file to standard output.

use simulator::generator::{file, Size, SMALL, USUAL};
use std::io::{self, Write};
use std::process::ExitCode;

fn main() -> ExitCode {
    let arguments: Vec<String> = std::env::args().skip(1).collect();
    let words: Vec<&str> = arguments.iter().map(String::as_str).collect();
    let (words, size) = match &words[..] {
        ["small", rest @ ..] => (rest, SMALL),
        all => (all, USUAL),
    };
    let done = match *words {
        ["one", seed, index] => write_one(seed, index, size),
        [seed, count, directory] => write_many(seed, count, directory, size),
        _ => None,
    };
    match done {
        Some(Ok(())) => ExitCode::SUCCESS,
        Some(Err(error)) => {
            eprintln!("generate: {error}");
            ExitCode::from(1)
        }
        None => {
            eprintln!("usage: generate [small] SEED COUNT DIR | generate [small] one SEED INDEX");
            ExitCode::from(2)
        }
    }
}

fn write_one(seed: &str, index: &str, size: Size) -> Option<io::Result<()>> {
    let bytes = file(seed.parse().ok()?, index.parse().ok()?, size);
    Some(io::stdout().write_all(&bytes))
}

fn write_many(seed: &str, count: &str, directory: &str, size: Size) -> Option<io::Result<()>> {
    let (seed, count): (u64, u64) = (seed.parse().ok()?, count.parse().ok()?);
    Some((0..count).try_for_each(|index| {
        let path = std::path::Path::new(directory).join(format!("{seed}-{index}.run"));
        std::fs::write(path, file(seed, index, size))
    }))
}
