//! One block of 480 stereo frames by the proved voice, by the Rust's `Voice::render` and by a plain C loop, in turn and in
//! the same memory. Prints the best time of each, after it has seen that all make the same bits.

mod noise;

use noise::noise;
use oracle::effects::sampler::{Fade, Voice, VoicePhase};
use oracle::{AudioBuffer, OwnedAudioBuffer, SampleLocation};
use std::hint::black_box;
use std::process::ExitCode;
use std::time::{Duration, Instant};

const RATE: usize = 48_000;
const BLOCK: usize = 480;
const RECORDED: usize = RATE;

/// Where a voice stands: within the recording, and the block within the table of 2,400 entries.
const POSITION: usize = 1_000;
const OTHER_POSITION: usize = 20_000;
const PLACE: usize = 100;

/// A time is that of so many blocks in a row; the best of so many counts.
const BLOCKS: u32 = 100;
const TIMES: usize = 2_000;

// libvoice_bench.a: a slice is a pointer and a length.
extern "C" {
    fn voice_render(
        kind: usize,
        i: usize,
        p: usize,
        out: *mut f32,
        out_length: usize,
        n: usize,
        j: usize,
        k: usize,
        rec: *const f32,
        rec_length: usize,
        rn: usize,
        fade: *const f32,
        fade_length: usize,
        recording: usize,
        output: usize,
    ) -> usize;
    fn voices_render(
        i: usize,
        p: usize,
        f: usize,
        q: usize,
        out: *mut f32,
        out_length: usize,
        n: usize,
        j: usize,
        k: usize,
        rec: *const f32,
        rec_length: usize,
        rn: usize,
        fade: *const f32,
        fade_length: usize,
        recording: usize,
        output: usize,
    );
}

// plain.c
extern "C" {
    fn plain_play(out: *mut f32, n: usize, rec: *const f32, rn: usize, p: usize);
    fn plain_fade_in(out: *mut f32, n: usize, rec: *const f32, rn: usize, p: usize, fade: *const f32, f: usize);
    fn plain_fade_out(
        out: *mut f32,
        n: usize,
        rec: *const f32,
        rn: usize,
        p: usize,
        fade: *const f32,
        all: usize,
        f: usize,
    );
}

#[derive(Clone, Copy)]
enum Case {
    Playing,
    FadingIn,
    FadingOut,
    Both,
}

/// A buffer that reaches an entry by one index, which is the least that a `dyn AudioBuffer` can do; the oracle's own goes
/// through the channel's slice.
struct Lean<'a> {
    entries: &'a mut [f32],
    frames: usize,
}

impl AudioBuffer for Lean<'_> {
    fn channel_count(&self) -> usize {
        2
    }

    fn frame_count(&self) -> usize {
        self.frames
    }

    fn sample_rate(&self) -> usize {
        RATE
    }

    fn channel(&self, channel: usize) -> &[f32] {
        &self.entries[channel * self.frames..][..self.frames]
    }

    fn channel_mut(&mut self, channel: usize) -> &mut [f32] {
        &mut self.entries[channel * self.frames..][..self.frames]
    }

    fn get_sample(&self, location: SampleLocation) -> f32 {
        self.entries[location.channel * self.frames + location.frame]
    }

    fn set_sample(&mut self, location: SampleLocation, value: f32) {
        self.entries[location.channel * self.frames + location.frame] = value;
    }
}

/// The Rust's voices over a block.
fn rust_block(output: &mut dyn AudioBuffer, recording: &dyn AudioBuffer, fade: &Fade, case: Case) {
    let mut voice = |phase, position| {
        let mut voice = Voice::in_phase(phase, position);
        voice.render(output, recording, fade);
        black_box(voice.get_position());
    };

    match case {
        Case::Playing => voice(VoicePhase::Playing, POSITION),
        Case::FadingIn => voice(VoicePhase::FadingIn(PLACE), POSITION),
        Case::FadingOut => voice(VoicePhase::FadingOut(PLACE), POSITION),
        Case::Both => {
            voice(VoicePhase::FadingOut(PLACE), POSITION);
            voice(VoicePhase::FadingIn(PLACE), OTHER_POSITION);
        }
    }
}

struct Buffers {
    output: OwnedAudioBuffer,
    recording: OwnedAudioBuffer,
    fade: Fade,
    table: Vec<f32>,
}

impl Buffers {
    fn new() -> Self {
        let fade = Fade::new(Duration::from_millis(50), RATE);

        Self {
            output: OwnedAudioBuffer::from_planar(vec![0.0; 2 * BLOCK], 2, RATE),
            recording: OwnedAudioBuffer::from_planar(noise(2 * RECORDED), 2, RATE),
            table: (0..fade.len()).map(|position| fade.value(position)).collect(),
            fade,
        }
    }

    fn ours(&mut self, case: Case) {
        let (out, rec, table) = (self.output.entries_mut(), self.recording.entries(), &self.table);
        let (out_length, rec_length, all) = (out.len(), rec.len(), table.len());
        let (out, rec, table) = (out.as_mut_ptr(), rec.as_ptr(), table.as_ptr());

        let voice = |kind| unsafe {
            let (i, p) = (PLACE, POSITION);
            voice_render(kind, i, p, out, out_length, BLOCK, 0, BLOCK, rec, rec_length, RECORDED, table, all, 2, 2);
        };

        match case {
            Case::Playing => voice(2),
            Case::FadingIn => voice(1),
            Case::FadingOut => voice(3),
            Case::Both => unsafe {
                let (i, p, q) = (PLACE, POSITION, OTHER_POSITION);
                voices_render(
                    i, p, i, q, out, out_length, BLOCK, 0, BLOCK, rec, rec_length, RECORDED, table, all, 2, 2,
                );
            },
        }
    }

    fn rust(&mut self, case: Case) {
        rust_block(&mut self.output, &self.recording, &self.fade, case);
    }

    fn lean(&mut self, case: Case) {
        let mut output = Lean { entries: self.output.entries_mut(), frames: BLOCK };
        let recording = Lean { entries: self.recording.entries_mut(), frames: RECORDED };
        rust_block(&mut output, &recording, &self.fade, case);
    }

    fn plain(&mut self, case: Case) {
        let out = self.output.entries_mut().as_mut_ptr();
        let (rec, table, all) = (self.recording.entries().as_ptr(), self.table.as_ptr(), self.table.len());

        unsafe {
            match case {
                Case::Playing => plain_play(out, BLOCK, rec, RECORDED, POSITION),
                Case::FadingIn => plain_fade_in(out, BLOCK, rec, RECORDED, POSITION, table, PLACE),
                Case::FadingOut => plain_fade_out(out, BLOCK, rec, RECORDED, POSITION, table, all, PLACE),
                Case::Both => {
                    plain_fade_out(out, BLOCK, rec, RECORDED, POSITION, table, all, PLACE);
                    plain_fade_in(out, BLOCK, rec, RECORDED, OTHER_POSITION, table, PLACE);
                }
            }
        }
    }

    /// The time of a block, and the bits after all of them.
    fn timed(&mut self, by: fn(&mut Self, Case), case: Case) -> (f64, Vec<u32>) {
        self.output.entries_mut().fill(0.0);
        let start = Instant::now();
        (0..BLOCKS).for_each(|_| by(black_box(&mut *self), black_box(case)));
        let time = start.elapsed().as_secs_f64() * 1e9 / f64::from(BLOCKS);
        (time, self.output.entries().iter().map(|entry| entry.to_bits()).collect())
    }
}

fn main() -> ExitCode {
    let mut buffers = Buffers::new();
    let contenders: [fn(&mut Buffers, Case); 4] = [Buffers::ours, Buffers::rust, Buffers::lean, Buffers::plain];
    let cases = [
        ("playing", Case::Playing),
        ("fading in", Case::FadingIn),
        ("fading out", Case::FadingOut),
        ("both voices, out and in", Case::Both),
    ];

    println!(
        "| {BLOCK} stereo frames, ns a block | proved | Rust | Rust, lean | C | Rust/proved | lean/proved | C/proved |"
    );
    println!("|---|---|---|---|---|---|---|---|");

    for (name, case) in cases {
        let mut best = [f64::MAX; 4];

        for _ in 0..TIMES {
            let results = contenders.map(|by| buffers.timed(by, case));

            if results.iter().any(|(_, bits)| *bits != results[0].1) {
                eprintln!("{name}: the outputs differ");
                return ExitCode::FAILURE;
            }

            best.iter_mut().zip(results).for_each(|(best, (time, _))| *best = best.min(time));
        }

        let [ours, rust, lean, plain] = best;
        let ratios = format!("{:.1} | {:.1} | {:.2}", rust / ours, lean / ours, plain / ours);
        println!("| {name} | {ours:.0} | {rust:.0} | {lean:.0} | {plain:.0} | {ratios} |");
    }

    ExitCode::SUCCESS
}
