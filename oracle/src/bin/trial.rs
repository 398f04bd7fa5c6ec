//! `trial < TRIALS > ANSWERS`: legs driven from a file, played by the verbatim files.

use oracle::trial_file::Fault;
use oracle::trials::answer_all;
use std::io::{self, BufReader, BufWriter, ErrorKind, Write};
use std::process::ExitCode;

fn main() -> ExitCode {
    if std::env::args().len() > 1 {
        eprintln!("usage: trial < TRIALS > ANSWERS");
        return ExitCode::from(2);
    }

    let mut out = BufWriter::new(io::stdout().lock());
    let answered = answer_all(&mut BufReader::new(io::stdin().lock()), &mut out);
    // What was answered before a fault stands.
    let flushed = out.flush().map_err(Fault::Io);

    match flushed.and(answered) {
        Ok(()) => ExitCode::SUCCESS,
        // A reader that has seen enough, such as `head`.
        Err(Fault::Io(error)) if error.kind() == ErrorKind::BrokenPipe => ExitCode::SUCCESS,
        Err(fault @ Fault::Malformed(..)) => {
            eprintln!("{fault}");
            ExitCode::FAILURE
        }
        Err(Fault::Io(error)) => {
            eprintln!("trial: {error}");
            ExitCode::FAILURE
        }
    }
}
