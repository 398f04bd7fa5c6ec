//! Blocks: one with what its output holds before, or a run of them over zeros.

use super::weight::is_heavy;
use super::Session;
use crate::random::Random;
use crate::trial_file::Step;

const LAST_START: i64 = 1 << 48;

impl Session {
    pub(super) fn block(&mut self) {
        let rests = self.leg().active.is_none() && self.leg().events.is_empty();
        if rests && self.random.below(2) == 0 {
            self.start_soon();
        }
        let (start, frames) = (self.block_start(), self.block_frames());
        let output = self.output(frames);
        self.render(start, frames, output);
    }

    pub(super) fn blocks(&mut self) {
        // A leg at its end plays nothing for the whole of a run.
        if self.leg().loop_points.is_none() && self.random.below(4) > 0 {
            let points = self.points();
            self.enable_loop_now(points);
            self.start_soon();
        }
        let start = self.block_start();
        let (frames, count) = self.run_length();
        let output = vec![0.0; self.entries(frames)];

        if self.is_heavy(start, frames, count, &output) {
            return self.start_over();
        }
        let blocks = self.run.render_blocks(start, frames, count);
        self.go_on(start, frames, blocks.rendered);
        self.steps.push(Step::Blocks { start, frames, count });
    }

    /// Several rules broken at once, at times, so that the order of the numbers matters.
    pub(super) fn spoilt_block(&mut self) {
        let (mut start, mut frames) = (self.block_start(), self.block_frames());
        let mut output = self.output(frames);

        if self.random.below(2) == 0 {
            start = self.random.pick(&[-1, LAST_START, LAST_START + 1, i64::MIN, i64::MAX]);
        }
        if self.random.below(2) == 0 && !output.is_empty() {
            let place = self.random.below(output.len() as u64) as usize;
            output[place] = self.random.bad_output();
        }
        match self.random.below(8) {
            0 => output.push(0.0),
            1 => drop(output.pop()),
            2 => frames = frames.wrapping_sub(1),
            3 => frames = self.random.pick(&[4_096, 4_097, 8_192, 65_535]),
            4 if !self.small || self.random.below(3) == 0 => (frames, output) = self.too_long(),
            _ => (),
        }
        self.render(start, frames, output);
    }

    /// One frame more than a block may have, and an output as long.
    fn too_long(&mut self) -> (u16, Vec<f32>) {
        (4_097, vec![0.25; self.entries(4_097)])
    }

    fn output(&mut self, frames: u16) -> Vec<f32> {
        let entries = self.entries(frames);
        self.random.output_entries(entries)
    }

    /// With more channels than two the length is not looked at, and a trial has no room for all.
    fn entries(&self, frames: u16) -> usize {
        usize::from(self.head.channels.min(3)) * usize::from(frames)
    }

    fn render(&mut self, start: i64, frames: u16, output: Vec<f32>) {
        if self.is_heavy(start, frames, 1, &output) {
            return self.start_over();
        }
        let (number, _) = self.run.render(start, frames, &mut output.clone());
        self.go_on(start, frames, u64::from(number == 0));
        self.steps.push(Step::Block { start, frames, output });
    }

    /// Of a block that is refused nothing is asked.
    fn is_heavy(&self, start: i64, frames: u16, count: u32, output: &[f32]) -> bool {
        let span = i64::from(count) * (self.time_of(frames.into()) + 1);
        self.run.number(start, frames, output) == 0 && is_heavy(self.leg(), start, span)
    }

    fn go_on(&mut self, start: i64, frames: u16, rendered: u64) {
        if rendered > 0 {
            self.now = start + rendered as i64 * self.time_of(frames.into());
        }
        // Past the last start there is nothing more to hear.
        if self.now > LAST_START && self.random.below(4) == 0 {
            self.now = self.random.of_any_size(40) as i64;
        }
    }

    /// Mostly where the block before ended; at times beside it, after a gap, or back.
    fn block_start(&mut self) -> i64 {
        let frames = self.random.below(1_000);
        let start = match self.random.below(64) {
            0..=47 => return self.now,
            48..=50 => self.now + 1,
            51..=53 => self.now - 1,
            54..=56 => self.now + self.time_of(frames),
            57..=58 => self.now - self.time_of(frames),
            59 => self.now + self.random.of_any_size(34) as i64,
            60 => self.now - self.random.of_any_size(34) as i64,
            61 => self.random.of_any_size(48) as i64,
            62 => LAST_START - self.random.of_any_size(4) as i64,
            _ => self.random.of_any_size(40) as i64,
        };
        start.clamp(0, LAST_START)
    }

    fn block_frames(&mut self) -> u16 {
        let frames = match (self.small, self.random.below(64)) {
            (_, 0..=1) => 0,
            (_, 2..=9) => 1 + self.random.below(3),
            (true, _) => 1 + self.random.below(40),
            (false, 10..=33) => 1 + self.random.below(32),
            (false, 34..=57) => 1 + self.random.below(256),
            (false, 58..=61) => self.random.pick(&[160, 441, 480, 512, 1_024]),
            (false, 62) => self.random.below(4_097),
            (false, _) => self.random.pick(&[4_095, 4_096]),
        };
        frames as u16
    }

    /// Frames and count: mostly a few blocks, at times thousands.
    fn run_length(&mut self) -> (u16, u32) {
        let any = 1 + self.random.below(60) as u16;
        let frames = match self.small {
            true => self.random.pick(&[0, 1, 2, 7, any, any, any]),
            false => self.random.pick(&[0, 1, 2, 3, 7, any, any, any, 64, 100, 160, 441, 480, 512, 4_096]),
        };
        let most = match (self.small, self.random.below(256)) {
            (true, _) => 60,
            (false, 0) => 2_000,
            (false, 1..=15) => 100,
            (false, _) => 12,
        };
        let count = self.random.below(most + 1).min(60_000 / u64::from(frames.max(1)));
        (frames, count as u32)
    }
}

impl Random {
    /// What an output holds before: zeros, or anything that rule 6 takes.
    fn output_entries(&mut self, count: usize) -> Vec<f32> {
        match self.below(4) {
            0..=1 => vec![0.0; count],
            2 => (0..count).map(|_| 2.0 * self.fraction() as f32 - 1.0).collect(),
            _ => (0..count).map(|_| self.output_entry()).collect(),
        }
    }

    fn output_entry(&mut self) -> f32 {
        match self.below(8) {
            0 => self.pick(&[0.0, -0.0, 65_536.0, -65_536.0, f32::MIN_POSITIVE, -f32::from_bits(1)]),
            1 => self.float(|entry| entry.abs() <= 65_536.0),
            _ => self.sample(),
        }
    }

    fn bad_output(&mut self) -> f32 {
        let above = f32::from_bits(65_536.0_f32.to_bits() + 1);
        let signalling = f32::from_bits(0x7f80_0001);
        self.pick(&[above, -above, f32::MAX, f32::INFINITY, f32::NEG_INFINITY, f32::NAN, -f32::NAN, signalling])
    }
}
