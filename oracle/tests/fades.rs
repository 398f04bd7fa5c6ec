//! The session of the program `fades`, as the verbatim files play it with the fade that they make for 48,000 themselves.

use oracle::buffer::OwnedAudioBuffer;
use oracle::effects::sampler::{EventTransmitter, SamplerDspProcess, SamplerEvent};
use oracle::effects::Channel;
use oracle::graph::{DspProcessor, ProcessContext};
use oracle::Timestamp;

const RATE: usize = 48_000;
const FRAMES: u32 = 16_000;
const BLOCK: usize = 4_096;

/// Before, in and after a fade of 2,400 frames that begins at 105.
const CHOSEN: [usize; 7] = [104, 105, 106, 1_305, 2_503, 2_504, 2_505];

fn t(frames: usize) -> Timestamp {
    Timestamp::from_samples(frames as f64, RATE)
}

/// A fresh leg with the three commands.
fn ready() -> (SamplerDspProcess, EventTransmitter) {
    let recording = (0..FRAMES).map(|frame| f32::from_bits(0x3f00_0000 + 97 * frame)).collect();
    let (commands, receiver) = Channel::channel();
    let leg = SamplerDspProcess::new(RATE, OwnedAudioBuffer::from_planar(recording, 1, RATE), receiver);
    let starts = [SamplerEvent::start(t(105), t(1_000)), SamplerEvent::start(t(4_201), t(6_000))];
    for event in starts.into_iter().chain([SamplerEvent::stop(t(8_297))]) {
        commands.send(event).expect("the leg listens");
    }
    (leg, commands)
}

fn sum(entries: &[f32]) -> u64 {
    entries.iter().fold(0, |sum, entry| (sum * 31 + u64::from(entry.to_bits())) % 4_294_967_291)
}

/// What the program prints, with 0 for a call that is not refused.
fn lines() -> String {
    let (mut leg, _commands) = ready();
    let mut text = String::new();
    for start in [0, BLOCK, 2 * BLOCK] {
        let mut output = OwnedAudioBuffer::from_planar(vec![0.0; BLOCK], 1, RATE);
        leg.process_audio(&mut ProcessContext { output_buffer: &mut output, start_time: &t(start) });
        let entries = output.entries();
        text += &format!("00\n{:02x}\n", output.pieces());
        for frame in CHOSEN {
            text += &format!("{:08x}\n", entries[frame].to_bits());
        }
        text += &format!("{:08x}\n", sum(entries));
    }
    text
}

#[test]
fn the_program_prints_what_the_rust_plays() {
    let stored = concat!(env!("CARGO_MANIFEST_DIR"), "/../crates/fades/stdout");
    assert_eq!(std::fs::read_to_string(stored).expect("the program's lines are stored"), lines());
}
