//! Files that are not trials: the answers before the fault stand, and one line names the byte. TRIAL names another program
//! to hold to this than our own; the proved one has no exit status.

use oracle::commands::{Record, START, START_IMMEDIATE, STOP};
use oracle::effects::sampler::VoicePhase;
use oracle::leg::{Leg, Sizes, LEG_BYTES};
use oracle::trial_file::{Head, Step, Trial};
use std::env;
use std::io::{Error, ErrorKind, Write};
use std::process::{Command, Output, Stdio};

/// What a trial answers, and whether it read all of the input.
fn started(input: &[u8]) -> (Output, Result<(), Error>) {
    let ours = || env!("CARGO_BIN_EXE_trial").to_string();
    let trial = Command::new(env::var("TRIAL").unwrap_or_else(|_| ours()))
        .stdin(Stdio::piped())
        .stdout(Stdio::piped())
        .stderr(Stdio::piped())
        .spawn();
    let mut trial = trial.expect("trial runs");
    // Small enough for a pipe, or nearly, whatever is answered meanwhile.
    let written = trial.stdin.take().expect("stdin is piped").write_all(input);
    (trial.wait_with_output().expect("trial ends"), written)
}

fn run(input: &[u8]) -> Output {
    let (output, written) = started(input);
    written.expect("trial reads");
    output
}

/// A trial that has seen what is malformed may end before the longest input is all in its pipe.
fn run_malformed(input: &[u8]) -> Output {
    match started(input) {
        (output, Err(ended)) if ended.kind() == ErrorKind::BrokenPipe => output,
        (output, written) => {
            written.expect("trial reads");
            output
        }
    }
}

/// So many answered bytes, then this line and, of ours, status 1.
fn assert_malformed(input: &[u8], answered: usize, words: &str) {
    let output = run_malformed(input);
    assert_eq!(String::from_utf8(output.stderr).unwrap(), format!("{words}\n"));
    let status = if env::var("TRIAL").is_ok() { 0 } else { 1 };
    assert_eq!(output.status.code(), Some(status), "{words}");
    assert_eq!(output.stdout.len(), answered, "{words}");
}

fn sizes() -> Sizes {
    Sizes { rate: 48_000, channels: 1, frames: 3, fade: 2 }
}

const HEAD: usize = 4 + 12 + 2 + 12 + 4 * 5;

fn head(steps: u32) -> Vec<u8> {
    Head { sizes: sizes(), channels: 1, recording: vec![1.0; 3], fade: vec![0.0, 0.5], steps }.to_bytes()
}

fn bytes_of(step: Step) -> Vec<u8> {
    let mut bytes = Vec::new();
    step.write(&mut bytes);
    bytes
}

fn stop() -> Step {
    Step::Command(Record::new(STOP, 9, 0, 0).to_bytes())
}

fn whole() -> Vec<u8> {
    [head(1), bytes_of(stop())].concat()
}

/// A sound step, then this one.
fn after_a_step(step: &[u8]) -> Vec<u8> {
    [head(2), bytes_of(stop()), step.to_vec()].concat()
}

fn assert_step_malformed(step: &[u8]) {
    let at = HEAD + bytes_of(stop()).len();
    assert_malformed(&after_a_step(step), 1 + 491, &format!("malformed step at byte {at}"));
}

#[test]
fn nothing_and_whole_trials_end_well() {
    for (input, answered) in [(vec![], 0), (whole(), 492), ([whole(), whole()].concat(), 984), (head(0), 1)] {
        let output = run(&input);
        assert!(output.status.success() && output.stderr.is_empty());
        assert_eq!(output.stdout.len(), answered);
    }
}

#[test]
fn a_trial_cut_short() {
    assert_eq!(head(1).len(), HEAD);

    for length in 1..HEAD {
        assert_malformed(&head(1)[..length], 0, "malformed trial at byte 0");
    }
    for length in [1, 3, 4, 20, HEAD - 1] {
        let input = [&whole()[..], &head(1)[..length]].concat();
        assert_malformed(&input, 492, &format!("malformed trial at byte {}", whole().len()));
    }
}

#[test]
fn a_step_cut_short() {
    let steps = [
        stop(),
        Step::Block { start: 0, frames: 2, output: vec![0.0; 2] },
        Step::Leg(Box::new(Leg::fresh(sizes()))),
        Step::Blocks { start: 0, frames: 2, count: 3 },
    ];

    for step in steps.map(bytes_of) {
        for length in [0, 1, 2, 5, step.len() / 2, step.len() - 1] {
            assert_step_malformed(&step[..length.min(step.len() - 1)]);
        }
    }
}

#[test]
fn another_mark() {
    for (place, byte) in [(0, b't'), (3, b'2'), (1, 0)] {
        let mut second = whole();
        second[place] = byte;
        assert_malformed(&second, 0, "malformed trial at byte 0");
        let at = whole().len();
        assert_malformed(&[whole(), second].concat(), 492, &format!("malformed trial at byte {at}"));
    }
}

/// The counts stand at 18 and 22 of a head. Past a limit, nothing of what would follow is waited for.
#[test]
fn past_the_limits_of_a_head() {
    for (place, count) in [(18, 524_289_u32), (18, u32::MAX), (22, 8_193), (22, u32::MAX)] {
        let mut input = whole();
        input[place..place + 4].copy_from_slice(&count.to_le_bytes());
        assert_malformed(&input, 0, "malformed trial at byte 0");
    }
}

/// With entries up to the limits all is read, and the leg has others.
#[test]
fn at_the_limits() {
    let recording = vec![0.5; 524_288];
    let fade = vec![0.5; 8_192];
    let head = Head { sizes: sizes(), channels: 1, recording, fade, steps: 4 };
    let steps = vec![
        Step::Command(vec![7; 64]),
        Step::Block { start: 0, frames: 65_535, output: vec![0.0; 16_384] },
        Step::Blocks { start: 0, frames: 4_096, count: u32::MAX },
        stop(),
    ];
    let answers = oracle::trials::answers(&Trial { head, steps });
    let mut at = 0;
    let numbers = [1, 491, 499 + 4 * 16_384, 515, 491].map(|size| {
        at += size;
        answers[at - size]
    });
    assert_eq!((numbers, at), ([0, 13, 4, 4, 0], answers.len()));
}

#[test]
fn past_the_limits_of_a_step() {
    assert_step_malformed(&[&[1, 65, 0][..], &[0; 65]].concat());

    let mut block = bytes_of(Step::Block { start: 0, frames: 1, output: vec![0.0; 16_384] });
    block[11..13].copy_from_slice(&16_385_u16.to_le_bytes());
    block.extend([0; 4]);
    assert_step_malformed(&block);

    assert_step_malformed(&bytes_of(Step::Blocks { start: 0, frames: 4_097, count: 0 }));
}

#[test]
fn an_unknown_step() {
    for byte in [0, 5, 255] {
        assert_step_malformed(&[byte; 600]);
    }
}

/// A leg with a loop, a voice in each kind of phase, and one event, with some bytes changed.
fn leg_with(changes: &[(usize, u8)]) -> Vec<u8> {
    let leg = Leg {
        voices: [(VoicePhase::FadingIn(1), 5), (VoicePhase::Stopped, 6)],
        active: Some(0),
        ..Leg::fresh(sizes())
    };
    let mut bytes = bytes_of(Step::Leg(Box::new(leg.with_events(vec![Record::new(START, 1, 2, 0)]))));
    assert_eq!(bytes.len(), 1 + LEG_BYTES);
    changes.iter().for_each(|(place, byte)| bytes[1 + place] = *byte);
    bytes
}

/// "A value that the leg's own types can't hold is a malformed file". Places are those of TRIAL.md's layout.
#[test]
fn a_leg_that_no_leg_can_be() {
    let (voice, active, looped, count, place) = (13, 47, 48, 89, 90);
    let unholdable: [&[(usize, u8)]; 16] = [
        // A phase past the last; a fade position where the phase has none.
        &[(voice, 4)],
        &[(voice, 255)],
        &[(voice, 0)],
        &[(voice, 2)],
        &[(voice + 17 + 8, 1)],
        // No such voice.
        &[(active, 3)],
        // No such loop, and points without one.
        &[(looped, 2), (looped + 9, 9)],
        &[(looped + 1, 1)],
        &[(looped + 16, 1)],
        // No such kind; a field that the kind does not have.
        &[(place, 0), (place + 1, 0), (place + 9, 0)],
        &[(place, 7)],
        &[(place, 3)],
        &[(place + 24, 1)],
        // Past the count.
        &[(count, 0)],
        &[(LEG_BYTES - 1, 1)],
        &[(count, 17)],
    ];
    unholdable.iter().for_each(|changes| assert_step_malformed(&leg_with(changes)));
}

/// Damaged, but a leg: held as it stands.
#[test]
fn a_leg_that_is_only_damaged() {
    let (rate, voice, active, looped, position, place) = (0, 13, 47, 48, 65, 90);
    let holdable: [&[(usize, u8)]; 9] = [
        &[],
        &[(rate + 3, 255)],
        &[(voice + 8, 255), (voice + 16, 255)],
        &[(voice, 3)],
        &[(active, 2)],
        &[(looped, 1), (looped + 8, 128)],
        &[(position + 7, 128)],
        &[(place + 8, 128)],
        &[(place, 6), (place + 9, 0)],
    ];

    for changes in holdable {
        let output = run(&after_a_step(&leg_with(changes)));
        assert!(output.status.success(), "{changes:?}");
        assert_eq!(output.stdout[492 + 1..], leg_with(changes)[1..], "{changes:?}");
    }

    // Sixteen places below a count of 255, a kind in each.
    let full = vec![Record::new(START_IMMEDIATE, 0, 0, 0); 16];
    let leg = Leg { count: 255, events: full, ..Leg::fresh(sizes()) };
    let step = bytes_of(Step::Leg(Box::new(leg)));
    let output = run(&after_a_step(&step));
    assert!(output.status.success());
    assert_eq!(output.stdout[492 + 1..], step[1..]);
}
