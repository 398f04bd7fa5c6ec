//! `voices SEED COUNT`: pieces of one voice with the Rust's answers, the edges first, then COUNT random pieces.

use oracle::pieces::{edge_scenes, write_comment, write_scene};
use oracle::random::Random;
use std::io::{self, BufWriter, ErrorKind, Write};
use std::process::ExitCode;

/// So many random pieces share a recording and a table.
const PIECES_A_SCENE: u64 = 8;

fn main() -> ExitCode {
    let arguments: Vec<String> = std::env::args().skip(1).collect();
    let numbers: Vec<u64> = arguments.iter().map_while(|word| word.parse().ok()).collect();

    let (&[seed, count], 2) = (numbers.as_slice(), arguments.len()) else {
        eprintln!("usage: voices SEED COUNT");
        return ExitCode::from(2);
    };

    match write_list(&mut BufWriter::new(io::stdout().lock()), seed, count) {
        Ok(()) => ExitCode::SUCCESS,
        // A reader that has seen enough, such as `head`.
        Err(error) if error.kind() == ErrorKind::BrokenPipe => ExitCode::SUCCESS,
        Err(error) => {
            eprintln!("voices: {error}");
            ExitCode::FAILURE
        }
    }
}

fn write_list(out: &mut dyn Write, seed: u64, count: u64) -> io::Result<()> {
    let edges = edge_scenes();
    let edge_count: usize = edges.iter().map(|scene| scene.pieces.len()).sum();

    let comments = [
        format!("made by: voices {seed} {count}"),
        format!("{edge_count} edges, then {count} random pieces from the seed"),
        "by rawdio's sampler_voice.rs and sampler_fade.rs, verbatim".to_string(),
        "op, place, eight words; all in hex, floats as bits".to_string(),
        "40, 41, 42: entries of the recording, the table and the output, from place".to_string(),
        "43: phase, fade position, position, rn, n, j, k, F; place: the channels".to_string(),
        "44: the voice after it; 45: the output's entries after it".to_string(),
    ];

    for comment in comments {
        write_comment(out, &comment)?;
    }

    for scene in &edges {
        write_scene(out, scene)?;
    }

    let mut random = Random::new(seed);

    for first in (0..count).step_by(PIECES_A_SCENE as usize) {
        write_scene(out, &random.scene(PIECES_A_SCENE.min(count - first)))?;
    }

    out.flush()
}
