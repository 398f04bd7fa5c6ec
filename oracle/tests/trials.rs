//! The form of trials and of their answers, and rows m10 to m12 of document 01 as trials.

use oracle::commands::{Record, CANCEL_ALL, ENABLE_LOOP, START, START_IMMEDIATE, STOP};
use oracle::differences::answers_size;
use oracle::effects::sampler::VoicePhase;
use oracle::leg::{fields, Leg, Sizes, LEG_BYTES};
use oracle::sessions::{seeds, session};
use oracle::trial_file::{Head, Source, Step, Trial};
use oracle::trials::answers;

const RATE: u32 = 48_000;
const FADE: [f32; 4] = [0.0, 0.25, 0.5, 0.75];

fn t(frames: u64) -> i64 {
    Sizes { rate: RATE, ..Sizes::default() }.time_of(frames)
}

/// One channel of ones, and the fade of m10 and m11.
fn trial(frames: u32, steps: Vec<Step>) -> Trial {
    let sizes = Sizes { rate: RATE, channels: 1, frames, fade: 4 };
    let recording = vec![1.0; frames as usize];
    let head = Head { sizes, channels: 1, recording, fade: FADE.to_vec(), steps: steps.len() as u32 };
    Trial { head, steps }
}

fn command(record: Record) -> Step {
    Step::Command(record.to_bytes())
}

fn block(start: i64, frames: u16) -> Step {
    Step::Block { start, frames, output: vec![0.0; frames.into()] }
}

/// The last step's answer, a block: number, pieces, entries and leg.
fn last_block(trial: &Trial) -> (u8, u64, Vec<f32>, Leg) {
    let Some(Step::Block { output, .. }) = trial.steps.last() else { panic!("the last step is a block") };
    let answers = answers(trial);
    let answer = &answers[answers.len() - (1 + 8 + 4 * output.len() + LEG_BYTES)..];
    let (entries, leg) = answer[9..].split_at(4 * output.len());
    let entries = entries.chunks(4).map(|entry| f32::from_le_bytes(entry.try_into().unwrap())).collect();
    (answer[0], u64::from_le_bytes(answer[1..9].try_into().unwrap()), entries, last_leg(leg))
}

fn last_leg(answers: &[u8]) -> Leg {
    Leg::from_bytes(answers.last_chunk().expect("a leg comes last")).expect("a leg is answered as one can be given")
}

#[test]
fn m10_fade_out() {
    let start = command(Record::new(START_IMMEDIATE, 0, 0, 0));
    let stop = command(Record::new(STOP, 0, 0, 0));
    let (number, pieces, output, leg) = last_block(&trial(8, vec![start, stop, block(0, 5)]));
    assert_eq!((number, pieces, output), (0, 1, vec![1.0, 0.75, 0.5, 0.25, 0.0]));
    assert_eq!(leg.voices[0], (VoicePhase::Stopped, 4));
    assert_eq!((leg.active, leg.position, leg.count), (None, t(5), 0));
}

#[test]
fn m11_loop_without_a_seam() {
    let looped = command(Record::new(ENABLE_LOOP, 0, t(50), t(150)));
    let start = command(Record::new(START_IMMEDIATE, 0, 0, 0));
    let (number, pieces, output, leg) = last_block(&trial(200, vec![looped, start, block(0, 200)]));
    assert_eq!((number, pieces), (0, 2));
    assert_eq!(output[150..154], [1.0; 4]);
    assert_eq!(leg.voices, [(VoicePhase::Stopped, 154), (VoicePhase::Playing, 100)]);
    assert_eq!((leg.active, leg.completed, leg.loop_points), (Some(1), 1, Some((t(50), t(150)))));
}

#[test]
fn m12_empty_block() {
    let (number, pieces, _, leg) = last_block(&trial(8, vec![command(Record::new(STOP, 0, 0, 0)), block(0, 0)]));
    assert_eq!((number, pieces), (0, 0));
    let fresh = Leg::fresh(Sizes { rate: RATE, channels: 1, frames: 8, fade: 4 });
    assert_eq!(leg, fresh.with_events(vec![Record::new(STOP, 0, 0, 0)]));
}

/// A leg with something in every field.
fn full_leg() -> Leg {
    let events = vec![
        Record::new(START_IMMEDIATE, 0, 0, 0),
        Record::new(START, 0x0102_0304_0506, 0x0203_0405, 0),
        Record::new(ENABLE_LOOP, 0x0102_0304_0507, 1, 0x01_0203_0405),
    ];
    Leg {
        sizes: Sizes { rate: 44_100, channels: 2, frames: 1_234_567, fade: 2_205 },
        voices: [(VoicePhase::FadingOut(258), 0x01_0203_0405), (VoicePhase::FadingIn(2_204), 77)],
        active: Some(1),
        loop_points: Some((0x0102_0304, 0x02_0304_0506)),
        position: -3,
        start_position: 0x0301_0203,
        completed: 0x0102_0304,
        ..Leg::fresh(Sizes::default())
    }
    .with_events(events)
}

#[test]
fn a_leg_is_490_bytes() {
    assert_eq!(fields().iter().map(|(_, size)| size).sum::<usize>(), LEG_BYTES);
    assert_eq!(Leg::blank().to_bytes(), [0; LEG_BYTES]);

    let bytes = full_leg().to_bytes();
    assert_eq!(bytes.len(), LEG_BYTES);
    assert_eq!(Leg::from_bytes(bytes.first_chunk().unwrap()), Some(full_leg()));
}

/// TRIAL.md's order, a byte or two of each field.
#[test]
fn the_fields_of_a_leg() {
    let bytes = full_leg().to_bytes();
    let at = |place: usize, field: &[u8]| assert_eq!(&bytes[place..place + field.len()], field, "{place}");
    at(0, &44_100_u32.to_le_bytes());
    at(4, &[2]);
    at(5, &1_234_567_u32.to_le_bytes());
    at(9, &2_205_u32.to_le_bytes());
    at(13, &[3, 2, 1, 0, 0, 0, 0, 0, 0, 5, 4, 3, 2, 1, 0, 0, 0]);
    at(30, &[1, 156, 8, 0, 0, 0, 0, 0, 0, 77, 0, 0, 0, 0, 0, 0, 0]);
    at(47, &[2, 1, 4, 3, 2, 1, 0, 0, 0, 0, 6, 5, 4, 3, 2, 0, 0, 0]);
    at(65, &[0xfd, 0xff, 0xff, 0xff, 0xff, 0xff, 0xff, 0xff, 3, 2, 1, 3, 0, 0, 0, 0, 4, 3, 2, 1, 0, 0, 0, 0]);
    at(89, &[3, 2, 0, 0]);
    at(115, &[1, 6, 5, 4, 3, 2, 1, 0, 0, 5, 4, 3, 2, 0, 0, 0, 0, 0]);
    at(140, &[4, 7, 5, 4, 3, 2, 1, 0, 0, 1, 0, 0, 0, 0, 0, 0, 0, 5, 4, 3, 2, 1, 0, 0, 0]);
    at(165, &[0; LEG_BYTES - 165]);
}

/// What is damaged, but can be held, comes back as it was given; then all is refused, and nothing changes.
#[test]
fn a_damaged_leg_is_held() {
    let sound = Leg::fresh(Sizes { rate: RATE, channels: 1, frames: 8, fade: 4 });
    let full = vec![Record::new(STOP, 7, 0, 0); 16];
    let legs = [
        Leg { count: 17, events: full.clone(), ..sound.clone() },
        Leg { count: 255, events: full, ..sound.clone() },
        Leg { position: i64::MIN, completed: u64::MAX, ..sound.clone() },
        Leg { voices: [(VoicePhase::FadingOut(usize::MAX), u64::MAX); 2], ..sound.clone() },
        Leg { loop_points: Some((i64::MAX, i64::MIN)), ..sound.clone() },
        sound.clone().with_events(vec![Record::new(CANCEL_ALL, 1, 0, 0)]),
        sound.clone().with_events(vec![Record::new(START_IMMEDIATE, -1, 0, 0)]),
        Leg { active: Some(1), ..sound },
    ];

    for leg in legs {
        let cancel = command(Record::new(CANCEL_ALL, 0, 0, 0));
        let trial = trial(8, vec![Step::Leg(Box::new(leg.clone())), cancel, block(0, 2)]);
        let answers = answers(&trial);
        let (held, refused) = answers[1..].split_at(1 + LEG_BYTES);
        assert_eq!((held[0], last_leg(held)), (0, leg.clone()));
        assert_eq!((refused[0], refused[1 + LEG_BYTES]), (14, 14));
        assert_eq!(last_leg(refused), leg);
    }
}

/// What was given is played on from.
#[test]
fn a_sound_leg_takes_the_place() {
    let sizes = Sizes { rate: RATE, channels: 1, frames: 8, fade: 4 };
    let leg = Leg {
        voices: [(VoicePhase::FadingIn(1), 3), (VoicePhase::FadingOut(2), 1)],
        active: Some(0),
        ..Leg::fresh(sizes)
    };
    let (number, pieces, output, leg) = last_block(&trial(8, vec![Step::Leg(Box::new(leg)), block(0, 3)]));
    assert_eq!((number, pieces, output), (0, 1, vec![0.75, 0.75, 0.75]));
    assert_eq!(leg.voices, [(VoicePhase::Playing, 6), (VoicePhase::Stopped, 3)]);
}

/// "After a refusal the blank leg goes through the steps"
#[test]
fn a_leg_that_is_not_made_is_blank() {
    let mut trial = trial(8, vec![command(Record::new(STOP, 0, 0, 0)), block(0, 2)]);
    trial.head.sizes.rate = 7_999;
    let answers = answers(&trial);
    assert_eq!((answers[0], answers[1], answers[2 + LEG_BYTES]), (1, 14, 14));
    assert_eq!(last_leg(&answers), Leg::blank());
}

#[test]
fn a_nan_is_written_as_one_pattern() {
    let output = vec![f32::from_bits(0xffa0_0001), -0.0];
    let answers = answers(&trial(8, vec![Step::Block { start: 0, frames: 2, output }]));
    assert_eq!((answers[0], answers[1]), (0, 6));
    assert_eq!(answers[10..18], [0, 0, 0xc0, 0x7f, 0, 0, 0, 0x80]);
}

/// A run's number, counts and leg are those of its blocks one by one.
#[test]
fn a_run_is_its_blocks() {
    let mut runs = 0;

    for trial in seeds(3).take(200).map(|seed| session(seed, true)) {
        for (index, step) in trial.steps.iter().enumerate() {
            if let Step::Blocks { count, .. } = step {
                runs += u64::from(*count > 1);
                let steps = trial.steps[..=index].to_vec();
                let head = Head { steps: steps.len() as u32, ..trial.head.clone() };
                assert_run_is_its_blocks(&Trial { head, steps });
            }
        }
    }

    assert!(runs > 20);
}

/// The last step of the trial is the run.
fn assert_run_is_its_blocks(trial: &Trial) {
    let run = answers(trial);
    let run = &run[run.len() - (25 + LEG_BYTES)..];

    let singles = trial.in_single_blocks();
    let before = trial.steps.len() - 1;
    let before = Trial { steps: trial.steps[..before].to_vec(), ..trial.clone() }.in_single_blocks();
    let mut rest = &answers(&singles)[answers_size(&before)..];
    let (mut number, mut counts) = (0, [0_u64; 3]);

    for step in &singles.steps[before.steps.len()..] {
        let Step::Block { output, .. } = step else { panic!("a run is blocks") };
        let (answer, after) = rest.split_at(9 + 4 * output.len() + LEG_BYTES);
        rest = after;
        number = answer[0];
        counts[0] += u64::from(number == 0);
        counts[1] += u64::from_le_bytes(answer[1..9].try_into().unwrap());
        let entries = answer[9..9 + 4 * output.len()].chunks(4);
        counts[2] += entries.map(|entry| u64::from(u32::from_le_bytes(entry.try_into().unwrap()))).sum::<u64>();
        assert_eq!(rest.is_empty(), std::ptr::eq(step, singles.steps.last().unwrap()));
        if rest.is_empty() {
            assert_eq!(answer[answer.len() - LEG_BYTES..], run[25..]);
        }
    }

    assert_eq!(run[0], number);
    assert_eq!(run[1..25], counts.map(u64::to_le_bytes).concat());
}

#[test]
fn a_run_of_none_answers_zeros() {
    let answers = answers(&trial(8, vec![Step::Blocks { start: -1, frames: 4_096, count: 0 }]));
    assert_eq!(answers[..26], [0; 26]);
}

/// What is written is read as it was.
#[test]
fn trials_are_read_as_written() {
    for trial in seeds(4).take(100).map(|seed| session(seed, true)) {
        let bytes = trial.to_bytes();
        let mut input = bytes.as_slice();
        let mut source = Source::new(&mut input);
        let head = source.head().unwrap().expect("a trial");
        let steps = (0..head.steps).map(|_| source.step().unwrap()).collect();
        assert!(source.head().unwrap().is_none());
        assert_eq!(Trial { head, steps }.to_bytes(), bytes);
    }
}
