//! Pieces of one voice: what the verbatim `Voice::render` makes of given buffers, as rows of 78 bytes.

use crate::effects::sampler::{Fade, Voice, VoicePhase};
use crate::random::Random;
use crate::{AudioBuffer, MutableBorrowedAudioBuffer, OwnedAudioBuffer};
use std::io::{Result, Write};

/// The rows' ops.
const RECORDING: u8 = 0x40;
const FADE: u8 = 0x41;
const OUTPUT: u8 = 0x42;
const PIECE: u8 = 0x43;
const VOICE: u8 = 0x44;
const EXPECTED: u8 = 0x45;

/// What the program that reads the rows has room for.
const MOST_FRAMES: u64 = 64;
const MOST_ENTRIES: u64 = 16;

/// No buffer is asked for its rate.
const RATE: usize = 48_000;

/// A recording and a fade table, and pieces over them.
pub struct Scene {
    pub recording: Planar,
    pub fade: Vec<f32>,
    pub pieces: Vec<Piece>,
}

/// "channel 0's frames, then channel 1's"
#[derive(Clone)]
pub struct Planar {
    pub channels: usize,
    pub frames: usize,
    pub entries: Vec<f32>,
}

/// A voice over the frames of a window on an output.
pub struct Piece {
    pub phase: VoicePhase,
    pub position: usize,
    pub output: Planar,
    pub first: usize,
    pub frames: usize,
}

impl Planar {
    fn buffer(&self) -> OwnedAudioBuffer {
        OwnedAudioBuffer::from_planar(self.entries.clone(), self.channels, RATE)
    }
}

// ---- the rows

pub fn write_comment(out: &mut dyn Write, words: &str) -> Result<()> {
    let row = format!("# {words}");
    assert!(row.is_ascii() && row.len() <= 77, "comment too long: {words}");
    writeln!(out, "{row:<77}")
}

fn write_row(out: &mut dyn Write, op: u8, at: usize, words: [u32; 8]) -> Result<()> {
    write!(out, "{op:02x} {:02x}", u8::try_from(at).expect("a row's place is a byte"))?;
    words.iter().try_for_each(|word| write!(out, " {word:08x}"))?;
    writeln!(out)
}

/// Eight a row, with zeros after the last.
fn write_entries(out: &mut dyn Write, op: u8, entries: &[f32]) -> Result<()> {
    for (row, chunk) in entries.chunks(8).enumerate() {
        let mut words = [0; 8];
        words.iter_mut().zip(chunk).for_each(|(word, entry)| *word = entry.to_bits());
        write_row(out, op, 8 * row, words)?;
    }

    Ok(())
}

/// The voice's phase, its fade position, its position.
fn numbers(phase: VoicePhase, position: usize) -> [u32; 3] {
    let (kind, fade_position) = match phase {
        VoicePhase::Stopped => (0, 0),
        VoicePhase::FadingIn(fade_position) => (1, fade_position),
        VoicePhase::Playing => (2, 0),
        VoicePhase::FadingOut(fade_position) => (3, fade_position),
    };

    [kind, fade_position, position].map(word)
}

fn word(number: usize) -> u32 {
    u32::try_from(number).expect("a number is a word")
}

pub fn write_scene(out: &mut dyn Write, scene: &Scene) -> Result<()> {
    write_entries(out, RECORDING, &scene.recording.entries)?;
    write_entries(out, FADE, &scene.fade)?;
    scene.pieces.iter().try_for_each(|piece| write_piece(out, scene, piece))
}

fn write_piece(out: &mut dyn Write, scene: &Scene, piece: &Piece) -> Result<()> {
    let recording = &scene.recording;
    let channels = 16 * recording.channels + piece.output.channels;
    let [kind, fade_position, position] = numbers(piece.phase, piece.position);
    let sizes = [recording.frames, piece.output.frames, piece.first, piece.frames, scene.fade.len()];
    let [rn, n, j, k, f] = sizes.map(word);

    write_entries(out, OUTPUT, &piece.output.entries)?;
    write_row(out, PIECE, channels, [kind, fade_position, position, rn, n, j, k, f])?;

    let (voice, rendered) = rendered(scene, piece);
    let [kind, fade_position, position] = numbers(voice.phase(), voice.get_position());
    write_row(out, VOICE, 0, [kind, fade_position, position, 0, 0, 0, 0, 0])?;
    write_entries(out, EXPECTED, rendered.entries())
}

/// The Rust's answer.
fn rendered(scene: &Scene, piece: &Piece) -> (Voice, OwnedAudioBuffer) {
    let mut voice = Voice::in_phase(piece.phase, piece.position);
    let mut output = piece.output.buffer();
    let mut window = MutableBorrowedAudioBuffer::slice_frames(&mut output, piece.first, piece.frames);
    voice.render(&mut window, &scene.recording.buffer(), &Fade::from_entries(&scene.fade));
    assert_eq!(window.frame_count(), piece.frames);
    (voice, output)
}

// ---- the edges

/// Every phase at each edge of its fade, at each edge of the recording, with each pair of channel counts.
pub fn edge_scenes() -> Vec<Scene> {
    let mut random = Random::new(0);
    let mut scenes = Vec::new();

    for length in [0, 1, 2, 3, 5] {
        for channels in [1, 2] {
            let recording = random.recording(channels, 9);
            let fade = random.fade(length);
            let pieces = edge_pieces(&mut random, &recording, length);
            scenes.push(Scene { recording, fade, pieces });
        }
    }

    scenes
}

/// The recording ends after none, one or three of a piece's frames; a fade of 1, 2, 3 or 5 before that, with it or after.
fn edge_pieces(random: &mut Random, recording: &Planar, length: usize) -> Vec<Piece> {
    let end = recording.frames;
    let mut pieces = Vec::new();

    for channels in [1, 2] {
        for phase in edge_phases(length) {
            for position in [0, end - 3, end - 1, end, end + 2] {
                pieces.push(Piece { phase, position, output: random.output(channels, 8), first: 0, frames: 8 });
            }

            // a piece within the block: of one frame, of none, and one with frames on either side
            for (first, frames) in [(3, 1), (2, 0), (1, 5)] {
                let output = random.output(channels, 8);
                pieces.push(Piece { phase, position: end - 3, output, first, frames });
            }
        }
    }

    pieces
}

/// A fade at 0, in its middle, at its last frame, and just over.
fn edge_phases(length: usize) -> Vec<VoicePhase> {
    let mut places = vec![0, length / 2, length.saturating_sub(1), length];
    places.sort();
    places.dedup();

    let fading_in = places.iter().map(|place| VoicePhase::FadingIn(*place));
    let fading_out = places.iter().map(|place| VoicePhase::FadingOut(*place));
    [VoicePhase::Stopped, VoicePhase::Playing].into_iter().chain(fading_in).chain(fading_out).collect()
}

// ---- random pieces

impl Random {
    /// A recording and a table of any size, and so many pieces.
    pub fn scene(&mut self, pieces: u64) -> Scene {
        let channels = self.pick(&[1, 2]);
        let frames = self.up_to(MOST_FRAMES) as usize;
        let recording = self.recording(channels, frames);
        let length = self.up_to(MOST_ENTRIES) as usize;
        let fade = self.fade(length);
        let pieces = (0..pieces).map(|_| self.piece(frames, length)).collect();
        Scene { recording, fade, pieces }
    }

    fn up_to(&mut self, most: u64) -> u64 {
        self.below(most + 1)
    }

    fn piece(&mut self, recorded: usize, length: usize) -> Piece {
        let channels = self.pick(&[1, 2]);
        let block = self.up_to(MOST_FRAMES);
        let any = self.up_to(block);
        let first = self.pick(&[0, any]);
        let any = self.up_to(block - first);
        let frames = self.pick(&[block - first, any]);
        let output = self.output(channels, block as usize);

        Piece {
            phase: self.voice_phase(length),
            position: self.start(recorded),
            output,
            first: first as usize,
            frames: frames as usize,
        }
    }

    fn voice_phase(&mut self, length: usize) -> VoicePhase {
        let any = self.up_to(length as u64) as usize;
        let place = self.pick(&[0, any, any, any, length.saturating_sub(1), length]);

        match self.below(8) {
            0 => VoicePhase::Stopped,
            1..=2 => VoicePhase::Playing,
            3..=4 => VoicePhase::FadingIn(place),
            _ => VoicePhase::FadingOut(place),
        }
    }

    fn start(&mut self, recorded: usize) -> usize {
        let any = self.up_to(recorded as u64 + 8) as usize;
        let far = self.below(1 << 31) as usize;
        self.pick(&[any, any, any, any, 0, recorded.saturating_sub(1), recorded, far])
    }

    fn planar(&mut self, channels: usize, frames: usize, entry: fn(&mut Self) -> f32) -> Planar {
        let entries = (0..channels * frames).map(|_| entry(self)).collect();
        Planar { channels, frames, entries }
    }

    fn recording(&mut self, channels: usize, frames: usize) -> Planar {
        self.planar(channels, frames, Self::sample)
    }

    fn output(&mut self, channels: usize, frames: usize) -> Planar {
        self.planar(channels, frames, Self::mixed)
    }

    fn fade(&mut self, length: usize) -> Vec<f32> {
        (0..length).map(|_| self.gain()).collect()
    }

    /// The first of random patterns that will do.
    pub(crate) fn float(&mut self, good: fn(f32) -> bool) -> f32 {
        std::iter::repeat_with(|| f32::from_bits(self.bits() as u32)).find(|x| good(*x)).expect("half of them will do")
    }

    /// A recording's entry: finite, and at most 16 in magnitude.
    pub(crate) fn sample(&mut self) -> f32 {
        match self.below(8) {
            0 => self.pick(&[0.0, -0.0, 16.0, -16.0, 1.0, -1.0, f32::MIN_POSITIVE, -f32::from_bits(1)]),
            1..=2 => self.float(|x| x.abs() <= 16.0),
            _ => 2.0 * self.fraction() as f32 - 1.0,
        }
    }

    /// A table's entry: from 0 to 1.
    pub(crate) fn gain(&mut self) -> f32 {
        match self.below(8) {
            0 => self.pick(&[0.0, -0.0, 1.0, f32::from_bits(0x3f7f_ffff), f32::MIN_POSITIVE, f32::from_bits(1)]),
            1 => self.float(|x| x.abs() <= 1.0).abs(),
            _ => self.fraction() as f32,
        }
    }

    /// What stands in an output: any finite value.
    fn mixed(&mut self) -> f32 {
        match self.below(8) {
            0 => self.pick(&[0.0, -0.0, f32::MAX, f32::MIN, f32::MIN_POSITIVE, -f32::from_bits(1)]),
            1..=2 => self.float(f32::is_finite),
            3 => 0.0,
            _ => 2.0 * self.fraction() as f32 - 1.0,
        }
    }
}
