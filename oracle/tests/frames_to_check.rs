//! Rows m1 to m12 of document 01, "Frames to check", as the verbatim files compute them.
//! Rate 48,000 unless said.

use oracle::buffer::OwnedAudioBuffer;
use oracle::effects::sampler::{EventTransmitter, Fade, SamplerDspProcess, SamplerEvent, VoicePhase};
use oracle::effects::utility::EventProcessor;
use oracle::effects::Channel;
use oracle::graph::{DspProcessor, ProcessContext};
use oracle::Timestamp;

const RATE: usize = 48_000;

fn t(frames: usize) -> Timestamp {
    t_at(frames, RATE)
}

fn t_at(frames: usize, rate: usize) -> Timestamp {
    Timestamp::from_samples(frames as f64, rate)
}

fn units(units: i64) -> Timestamp {
    Timestamp::from_units(units)
}

/// A fresh leg of one channel, and the end that its commands go in by.
struct Leg {
    process: SamplerDspProcess,
    commands: EventTransmitter,
}

impl Leg {
    fn new(recording: Vec<f32>, fade: &[f32]) -> Self {
        let (commands, receiver) = Channel::channel();
        let recording = OwnedAudioBuffer::from_planar(recording, 1, RATE);
        let fade = Fade::from_entries(fade);
        let process = SamplerDspProcess::new_wth_fade(RATE, recording, receiver, fade);
        Self { process, commands }
    }

    fn submit(&self, event: SamplerEvent) {
        self.commands.send(event).expect("the leg listens");
    }

    /// One block over zeros.
    fn render(&mut self, start: Timestamp, frames: usize) -> Vec<f32> {
        let mut output = OwnedAudioBuffer::from_planar(vec![0.0; frames], 1, RATE);
        self.process.process_audio(&mut ProcessContext { output_buffer: &mut output, start_time: &start });
        output.entries().to_vec()
    }
}

/// The frame that an event is taken at in a block from 0, if it is taken.
fn event_frame(time: i64, block: usize) -> Option<usize> {
    let (commands, receiver) = Channel::channel();
    let mut queue = EventProcessor::with_capacity(16, receiver, RATE);
    commands.send(SamplerEvent::stop(units(time))).expect("the queue listens");
    queue.receive_events();

    let start = Timestamp::zero();
    let (frame, event) = queue.next_event(&start, &start, block);
    event.map(|_| frame)
}

/// The frame that a Start is first heard at in a block from 0, over a recording of ones and without a fade.
fn heard_from(time: i64, block: usize) -> Option<usize> {
    let mut leg = Leg::new(vec![1.0; 1_000], &[]);
    leg.submit(SamplerEvent::start(units(time), Timestamp::zero()));
    let output = leg.render(Timestamp::zero(), block);
    output.iter().position(|entry| *entry != 0.0)
}

#[test]
fn m1_one_frame() {
    assert_eq!(t(1).units(), 89_478);
}

#[test]
fn m2_480_frames() {
    assert_eq!(t(480).units(), 42_949_673);
}

#[test]
fn m3_one_second() {
    assert_eq!(t(48_000).units(), 4_294_967_296);
}

#[test]
fn m4_one_frame_at_other_rates() {
    assert_eq!(t_at(1, 8_000).units(), 536_871);
    assert_eq!(t_at(1, 44_100).units(), 97_392);
}

#[test]
fn m5_event_a_rounding_before_frame_1() {
    assert_eq!(event_frame(89_478, 480), Some(0));
    assert_eq!(heard_from(89_478, 480), Some(0));
}

#[test]
fn m6_event_in_frame_1_with_delay_below_zero() {
    assert_eq!(event_frame(89_479, 480), Some(1));
    assert_eq!(heard_from(89_479, 480), Some(1));

    // Over an empty recording nothing moves the position on from the delay.
    let mut leg = Leg::new(vec![], &[]);
    leg.submit(SamplerEvent::start(units(89_479), Timestamp::zero()));
    leg.render(Timestamp::zero(), 480);
    assert_eq!(leg.process.player().position, units(-1));
}

#[test]
fn m7_last_event_of_a_block() {
    assert_eq!(event_frame(42_949_672, 480), Some(479));
    assert_eq!(heard_from(42_949_672, 480), Some(479));

    assert_eq!(event_frame(42_949_673, 480), None);
    assert_eq!(heard_from(42_949_673, 480), None);
}

#[test]
fn m8_voice_begins_at_99() {
    assert_eq!(t(100).units(), 8_947_849);

    // Each frame of the recording holds its own number, so the output tells where the voice began.
    let recording = (0..200).map(|frame| frame as f32).collect();
    let mut leg = Leg::new(recording, &[]);
    leg.submit(SamplerEvent::start(units(89_478), t(100)));
    assert_eq!(leg.render(Timestamp::zero(), 3), [99.0, 100.0, 101.0]);
    assert_eq!(leg.process.player().voices[0], (VoicePhase::Playing, 102));
}

#[test]
fn m9_late_start() {
    let start = |leg: &mut Leg| {
        leg.submit(SamplerEvent::start(units(1 << 31), Timestamp::zero()));
        leg.render(units(1 << 32), 1);
        leg.process.player()
    };

    // The recording has ended by then: the leg stays as it is once the event is applied.
    let applied = start(&mut Leg::new(vec![1.0; 8], &FADE));
    assert_eq!(applied.voices[0], (VoicePhase::FadingIn(0), 24_000));
    assert_eq!(applied.active, Some(0));
    assert_eq!(applied.position, units(1 << 31));

    // With a longer one the block's only frame is rendered after it.
    let rendered = start(&mut Leg::new(vec![1.0; 48_000], &FADE));
    assert_eq!(rendered.voices[0], (VoicePhase::FadingIn(1), 24_001));
    assert_eq!(rendered.position, units(1 << 31) + t(1));
}

const FADE: [f32; 4] = [0.0, 0.25, 0.5, 0.75];

#[test]
fn m10_fade_out() {
    let mut leg = Leg::new(vec![1.0; 8], &FADE);
    leg.submit(SamplerEvent::start_now());
    leg.submit(SamplerEvent::stop_now());
    assert_eq!(leg.render(Timestamp::zero(), 5), [1.0, 0.75, 0.5, 0.25, 0.0]);
}

#[test]
fn m11_loop_without_a_seam() {
    let mut leg = Leg::new(vec![1.0; 200], &FADE);
    leg.submit(SamplerEvent::enable_loop(t(50), t(150)));
    leg.submit(SamplerEvent::start_now());
    let output = leg.render(Timestamp::zero(), 200);
    assert_eq!(output[150..154], [1.0; 4]);

    // The loop was taken: without it the recording would still have given ones.
    let player = leg.process.player();
    assert_eq!(player.completed_loops, 1);
    assert_eq!(player.voices, [(VoicePhase::Stopped, 154), (VoicePhase::Playing, 100)]);
}

/// The Rust counts no pieces; what it shows is that nothing is applied.
#[test]
fn m12_empty_block() {
    let mut leg = Leg::new(vec![1.0; 8], &FADE);
    let fresh = leg.process.player();
    leg.submit(SamplerEvent::start_now());
    leg.render(Timestamp::zero(), 0);
    assert_eq!(leg.process.player(), fresh);
    assert_eq!(leg.process.pending().len(), 1);
}
