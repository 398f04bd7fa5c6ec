//! The run of a leg: document 01's numbers first, and what they let through is played by the verbatim files.

use crate::commands::Record;
use crate::effects::sampler::{EventTransmitter, Fade, Player, SamplerDspProcess};
use crate::effects::Channel;
use crate::graph::{DspProcessor, ProcessContext};
use crate::leg::{Leg, Sizes};
use crate::leg_numbers::{self as numbers, Lent};
use crate::{OwnedAudioBuffer, Timestamp};

/// A leg, and what it is lent at every block.
pub struct LegRun {
    recording: Vec<f32>,
    fade: Vec<f32>,
    channels: u8,
    leg: Leg,
    /// None while the leg is damaged, or blank: the Rust would render it all the same.
    played: Option<Played>,
}

/// The leg in the Rust.
struct Played {
    sizes: Sizes,
    process: SamplerDspProcess,
    commands: EventTransmitter,
}

/// What a run of blocks answers.
#[derive(Clone, Copy, Debug, Default, PartialEq, Eq)]
pub struct Blocks {
    pub number: u8,
    pub rendered: u64,
    pub pieces: u64,
    /// Of the bits of every output entry, mod 2^64.
    pub sum: u64,
}

impl LegRun {
    /// With the number of making the leg.
    pub fn new(sizes: Sizes, channels: u8, recording: &[f32], fade: &[f32]) -> (Self, u8) {
        let recording = recording.iter().map(|entry| heard(*entry)).collect();
        let fade = fade.iter().map(|entry| gain(*entry)).collect();
        let mut run = Self { recording, fade, channels, leg: Leg::blank(), played: None };
        let number = run.make(sizes);
        (run, number)
    }

    fn make(&mut self, sizes: Sizes) -> u8 {
        if let Err(number) = numbers::making(&sizes) {
            return number;
        }

        let played = Played::new(sizes, &self.recording, &self.fade);
        self.leg = played.leg();
        self.played = Some(played);
        0
    }

    pub fn leg(&self) -> &Leg {
        &self.leg
    }

    /// The given leg takes this one's place.
    pub fn hold(&mut self, leg: &Leg) {
        self.leg = leg.clone();
        self.played = None;

        if !numbers::is_damaged(leg) {
            let mut played = Played::new(leg.sizes, &self.recording, &self.fade);
            leg.put_into(&mut played.process);
            self.leg = played.leg();
            self.played = Some(played);
        }
    }

    pub fn submit(&mut self, record: &[u8]) -> u8 {
        let record = Record::from_bytes(record);

        if let Err(number) = numbers::command(&self.leg, &record) {
            return number;
        }

        let played = self.played.as_mut().expect("a sound leg is played");
        played.submit(&record);
        self.leg = played.leg();
        0
    }

    /// The number a block would be answered with.
    pub fn number(&self, start: i64, frames: u16, output: &[f32]) -> u8 {
        let (recording, fade) = (self.recording.len(), self.fade.len());
        let lent = Lent { recording, fade, channels: self.channels, start, frames };
        numbers::render(&self.leg, &lent, output).err().unwrap_or(0)
    }

    /// The number, and the pieces.
    pub fn render(&mut self, start: i64, frames: u16, output: &mut Vec<f32>) -> (u8, u64) {
        let number = self.number(start, frames, output);
        if number != 0 {
            return (number, 0);
        }

        let played = self.played.as_mut().expect("a sound leg is played");
        let pieces = played.render(start, self.channels, output);
        self.leg = played.leg();
        (0, pieces)
    }

    /// Blocks over zeros, each T(frames) after the one before, until one is refused.
    pub fn render_blocks(&mut self, start: i64, frames: u16, count: u32) -> Blocks {
        let mut blocks = Blocks::default();
        let mut output = vec![0.0; usize::from(self.channels) * usize::from(frames)];
        let mut start = start;

        for _ in 0..count {
            output.fill(0.0);
            let (number, pieces) = self.render(start, frames, &mut output);
            if number != 0 {
                return Blocks { number, ..blocks };
            }

            blocks.rendered += 1;
            blocks.pieces += pieces;
            blocks.sum = output.iter().fold(blocks.sum, |sum, entry| sum.wrapping_add(bits(*entry).into()));
            start += self.leg.sizes.time_of(frames.into());
        }

        blocks
    }
}

impl Sizes {
    /// T, at this rate.
    pub fn time_of(&self, frames: u64) -> i64 {
        Timestamp::from_samples(frames as f64, self.rate as usize).units()
    }
}

impl Leg {
    /// The Rust's process stands as this leg does.
    pub fn put_into(&self, process: &mut SamplerDspProcess) {
        let time = Timestamp::from_units;
        let player = Player {
            voices: self.voices.iter().map(|(phase, position)| (*phase, *position as usize)).collect(),
            active: self.active,
            loop_points: self.loop_points.map(|(start, end)| (time(start), time(end))),
            position: time(self.position),
            start_position: time(self.start_position),
            completed_loops: self.completed as usize,
        };
        process.hold(player, self.events.iter().map(Record::event).collect());
    }
}

impl Played {
    fn new(sizes: Sizes, recording: &[f32], fade: &[f32]) -> Self {
        let entries = usize::from(sizes.channels) * sizes.frames as usize;
        // With another recording or table than its own a leg takes commands, but no block.
        let recording = if entries == recording.len() { recording.to_vec() } else { Vec::new() };
        let rate = sizes.rate as usize;
        let recording = OwnedAudioBuffer::from_planar(recording, sizes.channels.into(), rate);
        let (commands, receiver) = Channel::channel();
        let process = SamplerDspProcess::new_wth_fade(rate, recording, receiver, Fade::from_entries(fade));
        Self { sizes, process, commands }
    }

    fn leg(&self) -> Leg {
        let player = self.process.player();
        let voice = |index: usize| (player.voices[index].0, player.voices[index].1 as u64);

        Leg {
            voices: [voice(0), voice(1)],
            active: player.active,
            loop_points: player.loop_points.map(|(start, end)| (start.units(), end.units())),
            position: player.position.units(),
            start_position: player.start_position.units(),
            completed: player.completed_loops as u64,
            ..Leg::fresh(self.sizes)
        }
        .with_events(self.process.pending().iter().map(Record::from).collect())
    }

    fn submit(&mut self, record: &Record) {
        self.commands.send(record.event()).expect("the leg listens");
        // "sorted by time, equal times by submission": a batch that waits for the block gets the same order.
        self.process.receive_events();
    }

    fn render(&mut self, start: i64, channels: u8, output: &mut Vec<f32>) -> u64 {
        let entries = std::mem::take(output);
        let mut block = OwnedAudioBuffer::from_planar(entries, channels.into(), self.sizes.rate as usize);
        let start_time = &Timestamp::from_units(start);
        self.process.process_audio(&mut ProcessContext { output_buffer: &mut block, start_time });

        let pieces = block.pieces();
        *output = block.into_entries();
        pieces
    }
}

/// "A recording entry not finite or above 16 in magnitude counts as 0.0"
fn heard(entry: f32) -> f32 {
    if entry.abs() <= 16.0 {
        entry
    } else {
        0.0
    }
}

/// "a fade entry that is NaN or outside 0 to 1 as 1.0"
fn gain(entry: f32) -> f32 {
    if (0.0..=1.0).contains(&entry) {
        entry
    } else {
        1.0
    }
}

/// As a trial has them: every NaN is one.
pub fn bits(entry: f32) -> u32 {
    if entry.is_nan() {
        0x7fc0_0000
    } else {
        entry.to_bits()
    }
}
