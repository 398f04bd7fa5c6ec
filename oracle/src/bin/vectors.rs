//! `vectors SEED COUNT [SEQUENCES]`: answers of the timestamp and location calls, the edges first, then COUNT random
//! calls; and, unless SEQUENCES is 0, of the command queue, the fixed sequences first, then SEQUENCES random ones.

use oracle::answers::Op;
use oracle::command_edges::edge_sequences;
use oracle::edges::edge_calls;
use oracle::random::Random;
use oracle::rows::{write_answer, write_comment, write_sequence};
use std::io::{self, BufWriter, ErrorKind, Write};
use std::process::ExitCode;

fn main() -> ExitCode {
    let arguments: Vec<String> = std::env::args().skip(1).collect();
    let numbers: Vec<u64> = arguments.iter().map_while(|word| word.parse().ok()).collect();

    let (seed, count, sequences) = match (numbers.as_slice(), arguments.len()) {
        (&[seed, count], 2) => (seed, count, 0),
        (&[seed, count, sequences], 3) => (seed, count, sequences),
        _ => {
            eprintln!("usage: vectors SEED COUNT [SEQUENCES]");
            return ExitCode::from(2);
        }
    };

    match write_lists(&mut BufWriter::new(io::stdout().lock()), seed, count, sequences) {
        Ok(()) => ExitCode::SUCCESS,
        // A reader that has seen enough, such as `head`.
        Err(error) if error.kind() == ErrorKind::BrokenPipe => ExitCode::SUCCESS,
        Err(error) => {
            eprintln!("vectors: {error}");
            ExitCode::FAILURE
        }
    }
}

fn write_lists(out: &mut dyn Write, seed: u64, count: u64, sequences: u64) -> io::Result<()> {
    let more = if sequences == 0 { String::new() } else { format!(" {sequences}") };
    write_comment(out, &format!("made by: vectors {seed} {count}{more}"))?;
    write_calls(out, seed, count)?;

    if sequences > 0 {
        write_sequences(out, seed, sequences)?;
    }

    out.flush()
}

fn write_calls(out: &mut dyn Write, seed: u64, count: u64) -> io::Result<()> {
    let edges = edge_calls();

    let comments = [
        format!("{} edges, then {count} random calls from the seed", edges.len()),
        "number 0: rawdio's timestamp.rs and sample_location.rs, verbatim,".to_string(),
        format!("with the crate fixed {}", fixed_version()),
        "numbers 1 and 15: refusals by document 01's rules, the result is 0".to_string(),
        "op, three arguments, number, result; all in hex, floats as bits".to_string(),
    ];

    for comment in comments {
        write_comment(out, &comment)?;
    }

    for call in edges {
        write_answer(out, call)?;
    }

    let mut random = Random::new(seed);

    for (_, op) in (0..count).zip(Op::ALL.into_iter().cycle()) {
        write_answer(out, random.call(op))?;
    }

    Ok(())
}

/// The random ones are the seed's, whatever number of calls came before them.
fn write_sequences(out: &mut dyn Write, seed: u64, sequences: u64) -> io::Result<()> {
    let edges = edge_sequences();

    let comments = [
        format!("{} fixed sequences of commands, then {sequences} random ones", edges.len()),
        "op 31, numbers 9 to 13: refusals by document 01's rules".to_string(),
        "op 32: rawdio's event_processor.rs and sampler_event.rs, verbatim".to_string(),
    ];

    for comment in comments {
        write_comment(out, &comment)?;
    }

    for sequence in &edges {
        write_sequence(out, sequence)?;
    }

    let mut random = Random::new(seed);

    for _ in 0..sequences {
        write_sequence(out, &random.sequence())?;
    }

    Ok(())
}

/// As cargo resolved it for this very build.
fn fixed_version() -> &'static str {
    let lock = include_str!("../../Cargo.lock");
    let (_, entry) = lock.split_once("name = \"fixed\"\nversion = \"").expect("fixed is locked");
    entry.split('"').next().expect("a version is quoted")
}
