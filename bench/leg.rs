//! Step 4 of the proved program `trial` against the same blocks by the Rust, in one run: what a block of 480 stereo frames
//! costs either, after the blocks, pieces and sums of both are seen to be the same.

mod noise;

use noise::noise;
use oracle::commands::{Record, ENABLE_LOOP, START, START_IMMEDIATE};
use oracle::effects::sampler::{EventTransmitter, Fade, SamplerDspProcess};
use oracle::effects::Channel;
use oracle::graph::{DspProcessor, ProcessContext};
use oracle::leg::{Leg, Sizes};
use oracle::trial_file::{Head, Step};
use oracle::{OwnedAudioBuffer, Timestamp};
use std::fs::{self, File};
use std::io;
use std::process::{Command, ExitCode, Stdio};
use std::time::{Duration, Instant};

const PROGRAM: &str = "crates/trial/out/trial";
const RATE: usize = 48_000;
const BLOCK: u16 = 480;
const ENTRIES: usize = 2 * BLOCK as usize;
const LEGS: usize = 64;
/// Stereo frames: all that a trial's recording may have.
const RECORDED: u32 = 262_144;
/// The best of so many runs counts.
const RUNS: usize = 7;
/// The last block start.
const LAST: i64 = 1 << 48;
/// The blocks that fit into the recording.
const PLAYED: u32 = RECORDED / BLOCK as u32;

/// A leg is put in place, or goes on as it is; it is told, and renders its blocks.
struct Visit {
    leg: Option<Leg>,
    commands: Vec<Record>,
    start: i64,
    blocks: u32,
}

struct Row {
    name: &'static str,
    fade: usize,
    visits: Vec<Visit>,
    /// The visits that the Rust makes: a late block takes it seconds.
    rust_visits: usize,
}

/// Blocks, pieces, and the sum of the bits of every output entry.
type Answer = [u64; 3];

// ---- the rows

fn time_of(frames: usize) -> i64 {
    Timestamp::from_samples(frames as f64, RATE).units()
}

fn sizes(fade: usize) -> Sizes {
    Sizes { rate: RATE as u32, channels: 2, frames: RECORDED, fade: fade as u32 }
}

fn start_at(time: i64, i: usize) -> Record {
    Record::new(START, time, time_of(1_000 * (i + 1)), 0)
}

/// So many legs, one after the other.
fn steady(name: &'static str, leg: &Leg, legs: usize, blocks: u32) -> Row {
    let visit = || Visit { leg: Some(leg.clone()), commands: Vec::new(), start: 0, blocks };
    Row { name, fade: 2_400, visits: (0..legs).map(|_| visit()).collect(), rust_visits: legs }
}

/// Sixteen Starts in each block, spread over it, each at a place of its own.
fn commanded() -> Row {
    let block_time = time_of(BLOCK.into());
    let visit = |i: usize| {
        let start = i as i64 * block_time;
        let commands = (0..16).map(|i| start_at(start + time_of(30 * i), i)).collect();
        Visit { leg: (i == 0).then(|| Leg::fresh(sizes(2_400))), commands, start, blocks: 1 }
    };
    let visits = (0..LEGS).flat_map(|_| (0..100).map(visit)).collect();
    Row { name: "16 commands a block, told and rendered", fade: 2_400, visits, rust_visits: LEGS * 100 }
}

/// A block in the shortest loop, with as many Starts as a queue has places.
fn worst(name: &'static str, start: i64, time: fn(usize) -> i64, rust_visits: usize) -> Row {
    let events = (0..16).map(|i| start_at(time(i), i)).collect();
    let loop_points = Some((time_of(100), time_of(164)));
    let leg = Leg { loop_points, ..Leg::fresh(sizes(64)) }.with_events(events);
    let visit = |_| Visit { leg: Some(leg.clone()), commands: Vec::new(), start, blocks: 1 };
    Row { name, fade: 64, visits: (0..20_000).map(visit).collect(), rust_visits }
}

fn rows() -> Vec<Row> {
    let idle = Leg::fresh(sizes(2_400));
    let begun = Record::new(START_IMMEDIATE, 0, 0, 0);
    let playing = idle.clone().with_events(vec![begun]);
    let points = Record::new(ENABLE_LOOP, 0, time_of(1_000), time_of(5_800));
    let looping = idle.clone().with_events(vec![points, begun]);
    vec![
        steady("idle", &idle, LEGS, 20_000),
        steady("playing", &playing, 32 * LEGS, PLAYED),
        steady("looping every 100 ms, fades of 2,400", &looping, LEGS, 4_000),
        commanded(),
        worst("worst: 16 Starts on time, loop of 64 frames", 0, |i| time_of(30 * i), 2_000),
        worst("worst: 16 Starts 18 hours late, loop of 64 frames", LAST, |i| i as i64, 1),
    ]
}

// ---- the proved program

/// The row as a file; `empty` leaves out the commands and the blocks, so that what it takes is reading and writing.
fn trial(row: &Row, recording: &[f32], fade: &[f32], empty: bool) -> Vec<u8> {
    let mut steps = Vec::new();
    for visit in &row.visits {
        steps.extend(visit.leg.iter().map(|leg| Step::Leg(Box::new(leg.clone()))));
        if !empty {
            steps.extend(visit.commands.iter().map(|command| Step::Command(command.to_bytes())));
        }
        let count = if empty { 0 } else { visit.blocks };
        steps.push(Step::Blocks { start: visit.start, frames: BLOCK, count });
    }

    let (recording, fade) = (recording.to_vec(), fade.to_vec());
    let head = Head { sizes: sizes(row.fade), channels: 2, recording, fade, steps: steps.len() as u32 };
    let mut bytes = head.to_bytes();
    steps.iter().for_each(|step| step.write(&mut bytes));
    bytes
}

fn program_time(file: &str) -> io::Result<Duration> {
    let start = Instant::now();
    let status = Command::new(PROGRAM).stdin(File::open(file)?).stdout(Stdio::null()).status()?;
    assert!(status.success());
    Ok(start.elapsed())
}

/// What the program answered at each visit.
fn program_answers(row: &Row, file: &str) -> io::Result<Vec<Answer>> {
    let answered = Command::new(PROGRAM).stdin(File::open(file)?).output()?.stdout;
    let mut rest = &answered[1..];
    let mut answers = Vec::new();

    for visit in &row.visits {
        let told = usize::from(visit.leg.is_some()) + visit.commands.len();
        rest = &rest[491 * told..];
        assert_eq!(rest[0], 0, "a block is refused");
        let word = |i: usize| u64::from_le_bytes(rest[1 + 8 * i..][..8].try_into().expect("eight bytes"));
        answers.push([word(0), word(1), word(2)]);
        rest = &rest[515..];
    }

    assert!(rest.is_empty());
    Ok(answers)
}

// ---- the Rust

struct Rust {
    process: SamplerDspProcess,
    commands: EventTransmitter,
    output: OwnedAudioBuffer,
}

impl Rust {
    fn new(recording: &[f32], fade: &[f32]) -> Self {
        let (commands, receiver) = Channel::channel();
        let recording = OwnedAudioBuffer::from_planar(recording.to_vec(), 2, RATE);
        let process = SamplerDspProcess::new_wth_fade(RATE, recording, receiver, Fade::from_entries(fade));
        Self { process, commands, output: OwnedAudioBuffer::from_planar(vec![0.0; ENTRIES], 2, RATE) }
    }

    fn visit(&mut self, visit: &Visit) -> (Duration, Answer) {
        visit.leg.iter().for_each(|leg| leg.put_into(&mut self.process));
        let pieces = self.output.pieces();
        let mut sum = 0_u64;

        let begins = Instant::now();
        let mut start = visit.start;
        for command in &visit.commands {
            self.commands.send(command.event()).expect("the leg listens");
        }
        for _ in 0..visit.blocks {
            self.output.entries_mut().fill(0.0);
            let start_time = &Timestamp::from_units(start);
            self.process.process_audio(&mut ProcessContext { output_buffer: &mut self.output, start_time });
            sum = self.output.entries().iter().fold(sum, |sum, entry| sum.wrapping_add(entry.to_bits().into()));
            start += time_of(BLOCK.into());
        }
        let time = begins.elapsed();

        (time, [visit.blocks.into(), self.output.pieces() - pieces, sum])
    }

    /// The time of all visits, and their answers.
    fn run(&mut self, row: &Row) -> (Duration, Vec<Answer>) {
        let visits = row.visits[..row.rust_visits].iter().map(|visit| self.visit(visit));
        let (times, answers): (Vec<_>, Vec<_>) = visits.unzip();
        (times.iter().sum(), answers)
    }
}

// ---- both

fn blocks(visits: &[Visit]) -> f64 {
    visits.iter().map(|visit| f64::from(visit.blocks)).sum()
}

/// ns a block: the program's, and the Rust's.
fn measure(row: &Row, recording: &[f32], table: &[f32]) -> io::Result<(f64, f64)> {
    let fade = &table[..row.fade];
    let (full, empty) = ("target/bench/full.trl", "target/bench/empty.trl");
    fs::write(full, trial(row, recording, fade, false))?;
    fs::write(empty, trial(row, recording, fade, true))?;
    let mut rust = Rust::new(recording, fade);
    let expected = program_answers(row, full)?;

    let [mut ours, mut idle, mut theirs] = [Duration::MAX; 3];
    for _ in 0..RUNS {
        ours = ours.min(program_time(full)?);
        idle = idle.min(program_time(empty)?);
        let (time, answers) = rust.run(row);
        theirs = theirs.min(time);
        assert!(answers == expected[..row.rust_visits], "{}: the answers differ", row.name);
    }

    let ours = ours.saturating_sub(idle).as_secs_f64() * 1e9 / blocks(&row.visits);
    let theirs = theirs.as_secs_f64() * 1e9 / blocks(&row.visits[..row.rust_visits]);
    Ok((ours, theirs))
}

fn main() -> io::Result<ExitCode> {
    let recording = noise(2 * RECORDED as usize);
    let fade = Fade::new(Duration::from_millis(50), RATE);
    let table: Vec<f32> = (0..fade.len()).map(|position| fade.value(position)).collect();

    println!(
        "| {LEGS} legs, blocks of {BLOCK} stereo frames, ns a block | proved | Rust | Rust/proved | legs a core |"
    );
    println!("|---|---|---|---|---|");
    for row in rows() {
        let (ours, theirs) = measure(&row, &recording, &table)?;
        let legs = 1e9 * f64::from(BLOCK) / RATE as f64 / ours;
        println!("| {} | {ours:.0} | {theirs:.0} | {:.2} | {legs:.0} |", row.name, theirs / ours);
    }

    Ok(ExitCode::SUCCESS)
}
