//! The second half of demand 3, tried with the verbatim files: a run agrees with whole-frame arithmetic while
//! (k + 2c + 4)·R < 2^32, and some runs slip soon after. k counts the pieces, c the completed loops.

use oracle::buffer::{MutableBorrowedAudioBuffer, OwnedAudioBuffer};
use oracle::effects::sampler::{Fade, Player, SamplerDspProcess, SamplerEvent, Voice};
use oracle::effects::Channel;
use oracle::graph::{DspProcessor, ProcessContext};
use oracle::Timestamp;
use std::time::Duration;

/// A loop between two frames, played from frame 0 in blocks of one size.
#[derive(Clone, Copy)]
struct Case {
    rate: usize,
    block: usize,
    from: usize,
    to: usize,
    fade: Duration,
}

/// The Rust's own.
const FADE: Duration = Duration::from_millis(50);

impl Case {
    /// The largest k + 2c that demand 3 speaks of.
    fn limit(&self) -> usize {
        ((1 << 32) - 1) / self.rate - 4
    }

    /// The timestamp nearest to a frame, in whole numbers.
    fn nearest(&self, frame: usize) -> Timestamp {
        Timestamp::from_units((((frame << 33) + self.rate) / (2 * self.rate)) as i64)
    }

    /// Neighbouring frames differ, so that a turn on another frame is heard. A fade out goes on past the loop's end.
    fn recording(&self) -> OwnedAudioBuffer {
        let frames = self.to + self.fade().len() + self.block;
        self.buffer((0..frames).map(|frame| (frame * 389 % 1_021 + 1) as f32 / 1_024.0).collect())
    }

    fn fade(&self) -> Fade {
        Fade::new(self.fade, self.rate)
    }

    fn buffer(&self, entries: Vec<f32>) -> OwnedAudioBuffer {
        OwnedAudioBuffer::from_planar(entries, 1, self.rate)
    }
}

/// Document 01's whole-frame arithmetic. The voices are the Rust's own: they know frames only.
struct Whole {
    case: Case,
    recording: OwnedAudioBuffer,
    fade: Fade,
    voices: [Voice; 2],
    active: Option<usize>,
    position: usize,
    completed: usize,
    pieces: usize,
    /// T of each piece's frames, added up: the Rust's position, if its pieces are these.
    time: Timestamp,
}

impl Whole {
    fn new(case: Case) -> Self {
        let mut whole = Self {
            case,
            recording: case.recording(),
            fade: case.fade(),
            voices: Default::default(),
            active: None,
            position: 0,
            completed: 0,
            pieces: 0,
            time: Timestamp::zero(),
        };
        whole.assign(0);
        whole
    }

    fn assign(&mut self, frame: usize) {
        if self.active.is_some_and(|active| self.voices[active].get_position() == frame) {
            return;
        }
        self.voices.iter_mut().for_each(Voice::stop);
        self.active = self.voices.iter().position(Voice::is_stopped);
        if let Some(active) = self.active {
            self.voices[active].start_from_position(frame);
        }
    }

    fn render(&mut self, output: &mut OwnedAudioBuffer) {
        let Case { rate, block, from, to, .. } = self.case;
        let mut done = 0;
        while done < block {
            let end = to + (to - from) * self.completed;
            let piece = (block - done).min(end.saturating_sub(self.position));
            if piece == 0 {
                self.completed += 1;
                self.assign(from);
                continue;
            }
            for voice in &mut self.voices {
                let mut window = MutableBorrowedAudioBuffer::slice_frames(output, done, piece);
                voice.render(&mut window, &self.recording, &self.fade);
            }
            done += piece;
            self.position += piece;
            self.pieces += 1;
            self.time = self.time.incremented_by_samples(piece, rate);
        }
    }

    fn spent(&self) -> usize {
        self.pieces + 2 * self.completed
    }

    /// What the Rust keeps, if nothing is off.
    fn player(&self) -> Player {
        Player {
            voices: self.voices.iter().map(|voice| (voice.phase(), voice.get_position())).collect(),
            active: self.active,
            loop_points: Some((self.case.nearest(self.case.from), self.case.nearest(self.case.to))),
            position: self.time,
            start_position: Timestamp::zero(),
            completed_loops: self.completed,
        }
    }

    /// The first half: 2·|P·R − n·2^32| ≤ k·R.
    fn drifts_within_half_a_unit_a_piece(&self) -> bool {
        let rate = self.case.rate as i128;
        let off = i128::from(self.time.units()) * rate - ((self.position as i128) << 32);
        2 * off.abs() <= self.pieces as i128 * rate
    }
}

/// Renders until a block differs or k + 2c is above `most`. Gives k and c after the last block within the limit; then,
/// for the first block that differs, k and c after it by whole frames and the Rust's c.
fn run(case: Case, most: usize) -> ((usize, usize), Option<(usize, usize, usize)>) {
    let (commands, receiver) = Channel::channel();
    let mut rust = SamplerDspProcess::new_wth_fade(case.rate, case.recording(), receiver, case.fade());
    let (from, to) = (case.nearest(case.from), case.nearest(case.to));
    commands.send(SamplerEvent::enable_loop(from, to)).expect("the leg listens");
    commands.send(SamplerEvent::start_now()).expect("the leg listens");

    let mut whole = Whole::new(case);
    let mut inside = (0, 0);
    while whole.spent() <= most {
        let start = case.nearest(whole.position);
        let mut played = case.buffer(vec![0.0; case.block]);
        rust.process_audio(&mut ProcessContext { output_buffer: &mut played, start_time: &start });

        let mut expected = case.buffer(vec![0.0; case.block]);
        whole.render(&mut expected);
        assert!(whole.drifts_within_half_a_unit_a_piece());

        let same = bits(&played) == bits(&expected) && rust.player() == whole.player();
        if whole.spent() <= case.limit() {
            assert!(same, "off within the limit: k {}, c {}", whole.pieces, whole.completed);
            inside = (whole.pieces, whole.completed);
        }
        if !same {
            return (inside, Some((whole.pieces, whole.completed, rust.player().completed_loops)));
        }
    }
    (inside, None)
}

fn bits(buffer: &OwnedAudioBuffer) -> Vec<u32> {
    buffer.entries().iter().map(|entry| entry.to_bits()).collect()
}

/// T(1) is 89,478 units for 89,478.485, so a piece is off by nearly the half unit that the bound allows for. The
/// position falls behind, until a turn comes late.
#[test]
fn blocks_of_one_frame_slip_soon_after_the_limit() {
    let case = |from, to| Case { rate: 48_000, block: 1, from, to, fade: FADE };
    assert_eq!(case(0, 9_600).limit(), 89_474);

    assert_eq!(run(case(0, 9_600), 100_000), ((89_456, 9), Some((96_001, 10, 9))));
    // The last block within the limit is the one after a turn: 89,456 + 2·9 = 89,474.
    assert_eq!(run(case(3_055, 12_655), 100_000), ((89_456, 9), Some((99_056, 10, 9))));
    // A turn soon after the limit.
    assert_eq!(run(case(5_850, 15_450), 100_000), ((89_458, 8), Some((92_251, 9, 8))));
}

/// 2^33 + 1 is a multiple of 45,761, so T(1) is off by half a unit but for 1/91,522.
#[test]
fn at_45761_the_limit_is_nearly_reached() {
    let case = Case { rate: 45_761, block: 1, from: 0, to: 93_860, fade: FADE };
    assert_eq!(case.limit(), 93_852);
    assert_eq!(run(case, 100_000), ((93_852, 0), Some((93_861, 1, 0))));
}

/// A loop whose ends are rounded towards each other, by 0.978 units together. At the slip k alone is below the limit.
#[test]
fn completed_loops_count() {
    let case = Case { rate: 95_873, block: 1, from: 1, to: 66, fade: Duration::from_micros(500) };
    assert_eq!(case.limit(), 44_794);
    assert_eq!(run(case, 50_000), ((43_458, 668), Some((44_136, 678, 679))));
}

/// The rows of docs/DRIFT.md that have a loop, to the limit.
#[test]
fn usual_blocks_agree_to_the_limit() {
    for (rate, block, to, inside) in [
        (48_000, 480, 1_440_000, (89_416, 29)),
        (48_000, 480, 48_000, (87_720, 877)),
        (48_000, 480, 2_400, (63_910, 12_781)),
        (48_000, 4_096, 1_440_000, (88_970, 252)),
        (8_000, 160, 240_000, (536_152, 357)),
        (96_000, 1, 9_600, (44_727, 4)),
    ] {
        let case = Case { rate, block, from: 0, to, fade: FADE };
        assert_eq!(run(case, case.limit()), (inside, None), "{rate} {block} {to}");
    }
}

/// T(480) is 0.04 units too long, so the position gets ahead slowly: after 3 h 6 min a turn comes early.
#[test]
fn blocks_of_480_frames_slip_much_later() {
    let case = Case { rate: 48_000, block: 480, from: 0, to: 48_000, fade: FADE };
    assert_eq!(run(case, 2_000_000), ((87_720, 877), Some((1_118_500, 11_184, 11_185))));
}
