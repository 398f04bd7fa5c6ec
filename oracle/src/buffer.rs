//! sample_location.rs, and buffers as document 01 words them: planar, `add_from` one f32 addition an entry,
//! `slice_frames` a window. rawdio's own buffers use nightly SIMD and are not among the seven files.

mod sample_location {
    include!("../rawdio/src/buffer/sample_location.rs");
}

pub use sample_location::{SampleLocation, SampleRange};

/// What the files ask of a buffer; an entry is reached through its channel.
pub trait AudioBuffer {
    fn channel_count(&self) -> usize;
    fn frame_count(&self) -> usize;
    fn sample_rate(&self) -> usize;
    fn channel(&self, channel: usize) -> &[f32];
    fn channel_mut(&mut self, channel: usize) -> &mut [f32];

    /// Told of each window on it: 1 for one of its own, 2 for a window on such a window, and so on.
    fn window_made(&mut self, _depth: usize) {}

    fn get_sample(&self, location: SampleLocation) -> f32 {
        self.channel(location.channel)[location.frame]
    }

    fn set_sample(&mut self, location: SampleLocation, value: f32) {
        self.channel_mut(location.channel)[location.frame] = value;
    }

    fn add_from(
        &mut self,
        source: &dyn AudioBuffer,
        source_location: SampleLocation,
        destination_location: SampleLocation,
        channel_count: usize,
        frame_count: usize,
    ) {
        for channel in 0..channel_count {
            let from = source.channel(source_location.channel + channel);
            let from = &from[source_location.frame..][..frame_count];

            let to = self.channel_mut(destination_location.channel + channel);
            let to = &mut to[destination_location.frame..][..frame_count];

            for (entry, added) in to.iter_mut().zip(from) {
                *entry += added;
            }
        }
    }
}

/// A recording, or an output: "channel 0's frames, then channel 1's".
pub struct OwnedAudioBuffer {
    entries: Vec<f32>,
    channel_count: usize,
    frame_count: usize,
    sample_rate: usize,
    pieces: u64,
}

impl OwnedAudioBuffer {
    pub fn from_planar(entries: Vec<f32>, channel_count: usize, sample_rate: usize) -> Self {
        let frame_count = entries.len() / channel_count;
        assert_eq!(entries.len(), channel_count * frame_count);

        Self { entries, channel_count, frame_count, sample_rate, pieces: 0 }
    }

    /// How many pieces were rendered into it. The Rust counts none, but sampler_processor.rs lays a window on the block
    /// for each segment, and a window on that one for each piece, and lays none elsewhere.
    pub fn pieces(&self) -> u64 {
        self.pieces
    }

    pub fn into_entries(self) -> Vec<f32> {
        self.entries
    }

    pub fn entries(&self) -> &[f32] {
        &self.entries
    }

    pub fn entries_mut(&mut self) -> &mut [f32] {
        &mut self.entries
    }
}

impl AudioBuffer for OwnedAudioBuffer {
    fn channel_count(&self) -> usize {
        self.channel_count
    }

    fn frame_count(&self) -> usize {
        self.frame_count
    }

    fn sample_rate(&self) -> usize {
        self.sample_rate
    }

    fn channel(&self, channel: usize) -> &[f32] {
        &self.entries[channel * self.frame_count..][..self.frame_count]
    }

    fn channel_mut(&mut self, channel: usize) -> &mut [f32] {
        &mut self.entries[channel * self.frame_count..][..self.frame_count]
    }

    fn window_made(&mut self, depth: usize) {
        self.pieces += u64::from(depth == 2);
    }
}

/// A window on some frames of another buffer; writing to it writes there.
pub struct MutableBorrowedAudioBuffer<'a> {
    buffer: &'a mut dyn AudioBuffer,
    first_frame: usize,
    frame_count: usize,
}

impl<'a> MutableBorrowedAudioBuffer<'a> {
    pub fn slice_frames(buffer: &'a mut dyn AudioBuffer, first_frame: usize, frame_count: usize) -> Self {
        buffer.window_made(1);
        Self { buffer, first_frame, frame_count }
    }
}

impl AudioBuffer for MutableBorrowedAudioBuffer<'_> {
    fn channel_count(&self) -> usize {
        self.buffer.channel_count()
    }

    fn frame_count(&self) -> usize {
        self.frame_count
    }

    fn sample_rate(&self) -> usize {
        self.buffer.sample_rate()
    }

    fn channel(&self, channel: usize) -> &[f32] {
        &self.buffer.channel(channel)[self.first_frame..][..self.frame_count]
    }

    fn channel_mut(&mut self, channel: usize) -> &mut [f32] {
        &mut self.buffer.channel_mut(channel)[self.first_frame..][..self.frame_count]
    }

    fn window_made(&mut self, depth: usize) {
        self.buffer.window_made(depth + 1);
    }
}
