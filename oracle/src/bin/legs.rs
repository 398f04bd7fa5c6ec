//! `legs SEED BLOCKS PROGRAM`: random trials, answered by the Rust here and by PROGRAM, until that many blocks were
//! rendered and compared. Stops at the first field that differs.

use oracle::differences::{answers_size, difference, Difference, Totals};
use oracle::sessions::{seeds, session};
use oracle::trial_file::Trial;
use oracle::trials::answers;
use std::io::{self, ErrorKind, Read, Write};
use std::process::{Command, ExitCode, Stdio};
use std::time::{Duration, Instant};

/// So many sessions are given to the program at once.
const CHUNK: usize = 200;

const PROGRESS: Duration = Duration::from_secs(3);

/// From the repository's root, where compare_legs runs this.
const DIFFERENCE: &str = "target/difference.trl";

struct Session {
    seed: u64,
    trial: Trial,
    expected: Vec<u8>,
}

fn main() -> ExitCode {
    let arguments: Vec<String> = std::env::args().skip(1).collect();
    let numbers: Vec<u64> = arguments.iter().take(2).map_while(|word| word.parse().ok()).collect();

    let (&[seed, blocks], [_, _, program]) = (numbers.as_slice(), arguments.as_slice()) else {
        eprintln!("usage: legs SEED BLOCKS PROGRAM");
        return ExitCode::from(2);
    };

    match compare(seed, blocks, program) {
        Ok(Ok(totals)) => {
            println!("{totals}; 0 differ");
            ExitCode::SUCCESS
        }
        Ok(Err(words)) => {
            println!("{words}");
            ExitCode::FAILURE
        }
        Err(error) => {
            eprintln!("legs: {error}");
            ExitCode::FAILURE
        }
    }
}

/// The totals, or what is wrong.
fn compare(seed: u64, blocks: u64, program: &str) -> io::Result<Result<Totals, String>> {
    let mut totals = Totals::default();
    let mut seeds = seeds(seed);
    let mut said = Instant::now();

    while totals.blocks() < blocks {
        let sessions: Vec<Session> = seeds.by_ref().take(CHUNK).map(play).collect();
        // One after the other, so that only one core is busy.
        let (found, ended) = ask(program, &sessions)?;

        if let Some(words) = first_difference(&sessions, &found, totals.sessions, program)? {
            return Ok(Err(words));
        }
        if !ended {
            return Ok(Err(format!("{program} answered all, but its exit status is not 0")));
        }
        sessions.iter().for_each(|session| totals.add(&session.trial, &session.expected));

        if said.elapsed() > PROGRESS {
            said = Instant::now();
            eprintln!("{} blocks, {} sessions, {} refusals", totals.blocks(), totals.sessions, totals.refusals());
        }
    }

    Ok(Ok(totals))
}

fn play(seed: u64) -> Session {
    let trial = session(seed, false);
    let expected = answers(&trial);
    assert_eq!(expected.len(), answers_size(&trial), "an answer is as long as its step says");
    Session { seed, trial, expected }
}

/// What the program answers to the trials, and whether it ended well.
fn ask(program: &str, sessions: &[Session]) -> io::Result<(Vec<u8>, bool)> {
    let trials: Vec<u8> = sessions.iter().flat_map(|session| session.trial.to_bytes()).collect();
    run(program, trials)
}

fn run(program: &str, trials: Vec<u8>) -> io::Result<(Vec<u8>, bool)> {
    let mut child = Command::new(program).stdin(Stdio::piped()).stdout(Stdio::piped()).spawn()?;
    let mut input = child.stdin.take().expect("stdin is piped");
    let mut output = child.stdout.take().expect("stdout is piped");
    // Neither side waits for the other to be read.
    let writer = std::thread::spawn(move || input.write_all(&trials));

    let mut found = Vec::new();
    output.read_to_end(&mut found)?;
    match writer.join().expect("the writer does not panic") {
        // A program that stopped early: its answers are short, which is seen below.
        Err(error) if error.kind() != ErrorKind::BrokenPipe => return Err(error),
        _ => (),
    }
    Ok((found, child.wait()?.success()))
}

/// The session that differs, with what there is to say of it; its trial is kept.
fn first_difference(sessions: &[Session], found: &[u8], before: u64, program: &str) -> io::Result<Option<String>> {
    let mut rest = found;

    for (index, session) in sessions.iter().enumerate() {
        let last = index + 1 == sessions.len();
        let size = if last { rest.len() } else { session.expected.len().min(rest.len()) };
        let (answers, after) = rest.split_at(size);
        rest = after;

        if let Some(seen) = difference(&session.trial, &session.expected, answers) {
            return report(session, before + index as u64, &seen, program).map(Some);
        }
    }

    Ok(None)
}

fn report(session: &Session, number: u64, seen: &Difference, program: &str) -> io::Result<String> {
    std::fs::write(DIFFERENCE, session.trial.to_bytes())?;
    let mut words = format!("session {number} (seed {:#018x}), {seen}\n", session.seed);

    if let Some(narrowed) = narrowed(session, seen, program)? {
        words += &format!("its blocks one by one: {narrowed}\n");
    }
    words += &format!("the trial alone is in {DIFFERENCE}; to see both answers:\n");
    words += &format!("    {program} < {DIFFERENCE} | xxd\n");
    words += &format!("    oracle/target/release/trial < {DIFFERENCE} | xxd");
    Ok(words)
}

/// A run answers with sums only: the same blocks as steps of their own show the entry.
fn narrowed(session: &Session, seen: &Difference, program: &str) -> io::Result<Option<String>> {
    match seen.blocks {
        Some((first, last)) if first < last => (),
        _ => return Ok(None),
    }
    let trial = session.trial.in_single_blocks();
    let (found, _) = run(program, trial.to_bytes())?;
    Ok(difference(&trial, &answers(&trial), &found).map(|seen| seen.to_string()))
}
