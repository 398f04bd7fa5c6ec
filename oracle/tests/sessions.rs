//! What a reader of random sessions, and of their comparison, relies on.

use oracle::differences::{answers_size, difference, Totals};
use oracle::leg::LEG_BYTES;
use oracle::sessions::{seeds, session};
use oracle::trial_file::{Step, Trial};
use oracle::trials::answers;
use std::os::unix::fs::PermissionsExt;
use std::path::PathBuf;
use std::process::{Command, Output};

fn list(arguments: &[&str]) -> Vec<u8> {
    let sessions = env!("CARGO_BIN_EXE_sessions");
    Command::new(sessions).args(arguments).output().expect("sessions runs").stdout
}

fn sessions(seed: u64, count: usize, small: bool) -> Vec<Trial> {
    seeds(seed).take(count).map(|seed| session(seed, small)).collect()
}

fn totals(trials: &[Trial]) -> Totals {
    let mut totals = Totals::default();
    trials.iter().for_each(|trial| totals.add(trial, &answers(trial)));
    totals
}

#[test]
fn a_seed_makes_one_list() {
    assert_eq!(list(&["1", "20"]), list(&["1", "20"]));
    assert_ne!(list(&["1", "20"]), list(&["2", "20"]));
    assert_ne!(list(&["1", "20", "small"]), list(&["1", "20"]));
    assert!(list(&["1", "20"]).starts_with(&list(&["1", "10"])));
}

#[test]
fn a_list_is_its_sessions() {
    let trials: Vec<u8> = sessions(5, 20, true).iter().flat_map(Trial::to_bytes).collect();
    assert_eq!(list(&["5", "20", "small"]), trials);
}

/// The list that is stored.
#[test]
fn the_small_list_reaches_every_number() {
    let trials = sessions(1, 300, true);
    let totals = totals(&trials);
    assert!(totals.numbers[..=14].iter().all(|times| *times > 0), "{totals}");
    assert_eq!(totals.numbers[15], 0);

    let size: usize = trials.iter().map(|trial| trial.to_bytes().len()).sum();
    let answered: usize = trials.iter().map(answers_size).sum();
    assert!(size < 1_000_000 && answered < 1_000_000, "{size} {answered}");
}

#[test]
fn sessions_reach_every_number() {
    let totals = totals(&sessions(1, 400, false));
    assert!(totals.numbers[..=14].iter().all(|times| *times > 4), "{totals}");
    assert!(totals.single > 1_000 && totals.in_runs > 1_000 && totals.pieces > 2_000, "{totals}");
}

/// A byte changed in the number, the pieces, an output entry and the leg is named by its field.
#[test]
fn a_difference_is_named() {
    let trials = sessions(1, 300, true);
    let has_output = |step: &Step| matches!(step, Step::Block { frames: 2.., output, .. } if output.len() > 4);
    let trial = trials.iter().find(|trial| trial.steps.iter().any(has_output)).expect("some block");
    let step = trial.steps.iter().position(has_output).expect("some block");
    let Step::Block { frames, output, .. } = &trial.steps[step] else { unreachable!() };

    let expected = answers(trial);
    let before = Trial { steps: trial.steps[..step].to_vec(), ..trial.clone() };
    let at = answers_size(&before);
    let leg = at + 9 + 4 * output.len();
    let entry = format!("output entry 4 (channel {}, frame {})", 4 / frames, 4 % frames);

    for (byte, name) in [
        (0, "the trial's number"),
        (at, "number"),
        (at + 8, "pieces"),
        (at + 9 + 4 * 4, entry.as_str()),
        (leg, "leg's rate"),
        (leg + 13 + 17 + 16, "leg's voice 1 position"),
        (leg + 73, "leg's start position"),
        (leg + LEG_BYTES - 1, "leg's event 15 second"),
    ] {
        let mut found = expected.clone();
        found[byte] ^= 1;
        let seen = difference(trial, &expected, &found).expect("a byte differs");
        assert_eq!(seen.field.name, name);
        assert_eq!(seen.field.step, (byte > 0).then_some(step));

        // The same field where the answers end there.
        let seen = difference(trial, &expected, &expected[..byte]).expect("the end differs");
        assert_eq!(seen.field.name, name);
    }

    assert_eq!(difference(trial, &expected, &expected), None);
}

/// `legs` in a folder of its own, where it may leave its file.
fn legs(name: &str, program: &str) -> (Output, PathBuf) {
    let folder = PathBuf::from(env!("CARGO_TARGET_TMPDIR")).join(name);
    std::fs::create_dir_all(folder.join("target")).expect("a folder");
    let legs = Command::new(env!("CARGO_BIN_EXE_legs")).args(["1", "500", program]).current_dir(&folder).output();
    (legs.expect("legs runs"), folder)
}

#[test]
fn the_rust_agrees_with_itself() {
    let (output, _) = legs("agreeing", env!("CARGO_BIN_EXE_trial"));
    assert!(output.status.success());
    assert!(String::from_utf8(output.stdout).unwrap().ends_with("; 0 differ\n"));
}

/// A program that changes one byte of what the Rust answers.
#[test]
fn a_program_that_differs_is_seen() {
    let folder = PathBuf::from(env!("CARGO_TARGET_TMPDIR"));
    let program = folder.join("one_byte_off");
    let trial = env!("CARGO_BIN_EXE_trial");
    let script = format!(
        "#!/bin/sh\nfile=$(mktemp) && '{trial}' > \"$file\"\nprintf '\\377' | dd of=\"$file\" bs=1 seek=100000 conv=notrunc \
         2> /dev/null\ncat \"$file\" && rm \"$file\"\n"
    );
    std::fs::write(&program, script).expect("a script");
    std::fs::set_permissions(&program, std::fs::Permissions::from_mode(0o755)).expect("a script that runs");

    let (output, folder) = legs("differing", program.to_str().expect("a plain name"));
    let words = String::from_utf8(output.stdout).unwrap();
    assert_eq!(output.status.code(), Some(1), "{words}");
    assert!(words.starts_with("session ") && words.contains(" by the Rust, "), "{words}");

    // The trial that was kept is one of the list's, alone.
    let kept = std::fs::read(folder.join("target/difference.trl")).expect("a trial is kept");
    assert!(sessions(1, 200, false).iter().any(|trial| trial.to_bytes() == kept));
}
