//! Heads of trials: what the leg is made from, the recording and the table.

use crate::leg::Sizes;
use crate::random::Random;
use crate::trial_file::Head;

impl Random {
    pub(super) fn head(&mut self, small: bool) -> Head {
        let rate = self.leg_rate();
        let channels = self.pick(&[1, 2]);
        let frames = self.recorded(small);
        let fade = self.table_length(rate, small);

        let mut head = Head {
            sizes: Sizes { rate, channels, frames, fade },
            channels: self.pick(&[1, 2]),
            recording: self.recording_entries(usize::from(channels) * frames as usize),
            fade: self.table_entries(fade as usize),
            steps: 0,
        };

        if self.below(if small { 5 } else { 8 }) == 0 {
            self.spoil_head(&mut head);
        }
        head
    }

    pub(super) fn leg_rate(&mut self) -> u32 {
        let any = self.rate_in_range();
        // At a power of two whole frames and halves of them are whole units.
        let rate = self.pick(&[8_000, 16_000, 22_050, 44_100, 48_000, 48_000, 96_000, 8_192, 65_536, any, any, any]);
        rate as u32
    }

    fn recorded(&mut self, small: bool) -> u32 {
        let frames = match (small, self.below(16)) {
            (_, 0) => self.below(3),
            (true, 1..=9) => self.below(48),
            (true, _) => 64 + self.below(32),
            (false, 1..=6) => self.below(200),
            (false, 7..=13) => 64 + self.below(800),
            (false, 14) => self.below(4_000),
            (false, _) => self.below(12_000),
        };
        frames as u32
    }

    fn table_length(&mut self, rate: u32, small: bool) -> u32 {
        let few = self.below(9) as u32;
        let more = self.below(65) as u32;
        let any = self.below(4_801) as u32;

        match small {
            true => self.pick(&[0, few, few, few, few, few, few, more]),
            // "The fade length is the ceiling of R/20."
            false => self.pick(&[0, few, few, few, few, few, more, 64, 65, 400, 2_400, rate.div_ceil(20), any]),
        }
    }

    /// Neither rule needs a sine or a voice: what is drawn are entries at the limits and between them, at times bad ones.
    fn recording_entries(&mut self, count: usize) -> Vec<f32> {
        let bad = self.below(4) == 0;
        (0..count).map(|_| if bad && self.below(8) == 0 { self.bad_sample() } else { self.sample() }).collect()
    }

    fn table_entries(&mut self, count: usize) -> Vec<f32> {
        let bad = self.below(4) == 0;
        (0..count).map(|_| if bad && self.below(4) == 0 { self.bad_gain() } else { self.gain() }).collect()
    }

    fn bad_sample(&mut self) -> f32 {
        let above = f32::from_bits(16.0_f32.to_bits() + 1);
        let any = self.float(|entry| !(entry.abs() <= 16.0));
        let signalling = f32::from_bits(0xffa0_0001);
        self.pick(&[above, -above, f32::NAN, signalling, f32::INFINITY, f32::NEG_INFINITY, f32::MAX, any, any])
    }

    fn bad_gain(&mut self) -> f32 {
        let above = f32::from_bits(1.0_f32.to_bits() + 1);
        let below = -f32::from_bits(1);
        let any = self.float(|entry| !(0.0..=1.0).contains(&entry));
        self.pick(&[above, below, -1.0, 2.0, f32::NAN, -f32::NAN, f32::INFINITY, f32::NEG_INFINITY, any])
    }

    /// Several at once, so that the order of the numbers matters.
    fn spoil_head(&mut self, head: &mut Head) {
        match self.below(2) {
            0 => self.spoil_sizes(head),
            _ => self.spoil_lent(head),
        }
    }

    fn spoil_sizes(&mut self, head: &mut Head) {
        if self.below(3) == 0 {
            head.sizes.rate = self.pick(&[0, 7_999, 96_001, u32::MAX]);
        }
        if self.below(3) == 0 {
            head.sizes.channels = self.pick(&[0, 3, 255, 1, 2]);
        }
        if self.below(3) == 0 {
            head.sizes.frames = self.pick(&[4_194_304, 4_194_305, u32::MAX, 1]);
        }
        if self.below(3) == 0 {
            head.sizes.fade = self.pick(&[4_800, 4_801, u32::MAX, 1]);
        }
    }

    /// What a render is lent beside the block.
    fn spoil_lent(&mut self, head: &mut Head) {
        if self.below(2) == 0 {
            head.channels = self.pick(&[0, 3, 255]);
        }
        match self.below(6) {
            0 => head.recording.push(0.5),
            1 => drop(head.recording.pop()),
            2 => head.recording.clear(),
            _ => (),
        }
        match self.below(8) {
            0 => head.fade.push(0.5),
            1 => drop(head.fade.pop()),
            2 => head.fade.clear(),
            _ => (),
        }
    }
}
