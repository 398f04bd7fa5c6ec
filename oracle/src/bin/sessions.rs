//! `sessions SEED COUNT [small]`: COUNT random trials.

use oracle::sessions::{seeds, session};
use std::io::{self, BufWriter, ErrorKind, Write};
use std::process::ExitCode;

fn main() -> ExitCode {
    let arguments: Vec<String> = std::env::args().skip(1).collect();
    let numbers: Vec<u64> = arguments.iter().map_while(|word| word.parse().ok()).collect();
    let words: Vec<&str> = arguments.iter().skip(numbers.len()).map(String::as_str).collect();

    let (seed, count, small) = match (numbers.as_slice(), words.as_slice()) {
        (&[seed, count], []) => (seed, count, false),
        (&[seed, count], ["small"]) => (seed, count, true),
        _ => {
            eprintln!("usage: sessions SEED COUNT [small]");
            return ExitCode::from(2);
        }
    };

    match write_sessions(&mut BufWriter::new(io::stdout().lock()), seed, count, small) {
        Ok(()) => ExitCode::SUCCESS,
        // A reader that has seen enough, such as `head`.
        Err(error) if error.kind() == ErrorKind::BrokenPipe => ExitCode::SUCCESS,
        Err(error) => {
            eprintln!("sessions: {error}");
            ExitCode::FAILURE
        }
    }
}

fn write_sessions(out: &mut dyn Write, seed: u64, count: u64, small: bool) -> io::Result<()> {
    for (_, seed) in (0..count).zip(seeds(seed)) {
        out.write_all(&session(seed, small).to_bytes())?;
    }

    out.flush()
}
