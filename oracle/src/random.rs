//! Random calls: bit patterns of any kind, values of the size a player meets, and values built to land on ties.

use crate::answers::{Call, Op};

/// splitmix64: the same seed gives the same calls everywhere.
pub struct Random {
    state: u64,
}

impl Random {
    pub fn new(seed: u64) -> Self {
        Self { state: seed }
    }

    pub(crate) fn bits(&mut self) -> u64 {
        self.state = self.state.wrapping_add(0x9e37_79b9_7f4a_7c15);
        let mixed = (self.state ^ (self.state >> 30)).wrapping_mul(0xbf58_476d_1ce4_e5b9);
        let mixed = (mixed ^ (mixed >> 27)).wrapping_mul(0x94d0_49bb_1331_11eb);
        mixed ^ (mixed >> 31)
    }

    /// A number below a bound; that it is not quite even does no harm here.
    pub(crate) fn below(&mut self, bound: u64) -> u64 {
        self.bits() % bound
    }

    pub(crate) fn pick<T: Copy>(&mut self, values: &[T]) -> T {
        values[self.below(values.len() as u64) as usize]
    }

    /// 0 or more and below 1, in steps of 2^-53.
    pub(crate) fn fraction(&mut self) -> f64 {
        (self.bits() >> 11) as f64 / (1_u64 << 53) as f64
    }

    fn signed(&mut self, value: f64) -> f64 {
        if self.below(4) == 0 {
            -value
        } else {
            value
        }
    }

    /// Up to `width` bits, every size as likely as another.
    pub(crate) fn of_any_size(&mut self, width: u32) -> u64 {
        let size = self.below(width as u64 + 1) as u32;
        self.bits().checked_shr(64 - size).unwrap_or(0)
    }

    /// Exponents spread from `low` up to `high`, not included.
    fn of_any_exponent(&mut self, low: i32, high: i32) -> f64 {
        let exponent = low + self.below((high - low) as u64) as i32;
        let value = (1.0 + self.fraction()) * two_to(exponent);
        self.signed(value)
    }

    /// A float near `value`, by a few steps to either side.
    fn beside(&mut self, value: f64) -> f64 {
        let steps = self.below(9) as i64 - 4;
        f64::from_bits(value.to_bits().wrapping_add_signed(steps))
    }

    fn time(&mut self) -> u64 {
        match self.below(8) {
            0 => self.bits(),
            // The reach of the leg's own times, and some beyond.
            1..=3 => self.of_any_size(49),
            4..=5 => self.of_any_size(63),
            6 => self.of_any_size(63).wrapping_neg(),
            // The two ends, and what a sum may just reach.
            _ => (i64::MAX as u64).wrapping_add(self.of_any_size(12)).wrapping_sub(self.of_any_size(12)),
        }
    }

    pub(crate) fn rate_in_range(&mut self) -> u64 {
        match self.below(2) {
            0 => self.pick(&[8_000, 11_025, 16_000, 22_050, 32_000, 44_100, 48_000, 88_200, 96_000]),
            _ => 8_000 + self.below(88_001),
        }
    }

    fn rate(&mut self) -> u64 {
        match self.below(16) {
            0 => self.of_any_size(64),
            1 => self.pick(&[0, 7_999, 96_001, 176_400, 192_000]),
            _ => self.rate_in_range(),
        }
    }

    /// An odd number of halves, so that this many half units is a tie.
    fn odd(&mut self) -> f64 {
        (self.of_any_size(53) | 1) as f64
    }

    /// Seconds, scaled so that one of them is `second`: samples by the rate, beats by the tempo.
    fn seconds(&mut self, second: f64) -> f64 {
        match self.below(10) {
            0 => f64::from_bits(self.bits()),
            1..=2 => self.of_any_exponent(-40, 40) * second,
            3 => self.of_any_exponent(-36, -28) * second,
            4..=6 => {
                let tie = self.odd() / (1_u64 << 33) as f64 * second;
                self.signed(tie)
            }
            7 => {
                let tie = self.odd() / (1_u64 << 33) as f64 * second;
                self.beside(tie)
            }
            8 => {
                let limit = 2_147_483_648.0 * second;
                let limit = self.signed(limit);
                self.beside(limit)
            }
            _ => 3_600.0 * self.fraction() * second,
        }
    }

    fn samples(&mut self, rate: u64) -> f64 {
        match self.below(3) {
            0 => self.of_any_size(53) as f64,
            _ => self.seconds(rate as f64),
        }
    }

    fn tempo(&mut self) -> f64 {
        match self.below(16) {
            0 => f64::from_bits(self.bits()),
            1 => self.pick(&[0.0, -0.0, -60.0, f64::NAN, f64::INFINITY, f64::NEG_INFINITY]),
            2 => f64::from_bits(self.of_any_size(53)),
            3..=4 => self.of_any_exponent(-40, 40).abs(),
            // A sixtieth of these is exact, which keeps a tie a tie.
            5..=8 => 60.0 * two_to(self.below(9) as i32 - 4),
            9..=11 => (20 + self.below(281)) as f64,
            _ => 20.0 + 280.0 * self.fraction(),
        }
    }

    fn beats(&mut self, tempo: f64) -> f64 {
        match self.below(3) {
            0 => self.of_any_size(20) as f64 / 4.0,
            _ => self.seconds(tempo / 60.0),
        }
    }

    fn count(&mut self, rate: u64) -> u64 {
        match self.below(4) {
            0 => self.below(4_097),
            1 => self.of_any_size(64),
            2 => self.of_any_size(48),
            // Whether T of it still fits turns here.
            _ => rate.wrapping_shl(31).wrapping_add(self.of_any_size(16)).wrapping_sub(self.of_any_size(16)),
        }
    }

    /// A time at half a frame or at a whole one, or a unit beside it.
    fn time_near_frame(&mut self, rate: u64) -> u64 {
        let half_frames = self.of_any_size(30);
        let time = (half_frames << 31) / rate + self.below(3);
        let exact_half = (self.of_any_size(20) | 1) << (31 - rate.trailing_zeros());
        self.pick(&[time, time.wrapping_sub(1), exact_half, exact_half.wrapping_neg()])
    }

    fn frames_time(&mut self, rate: u64) -> u64 {
        match self.below(2) {
            0 => self.time(),
            _ => self.time_near_frame(rate),
        }
    }

    fn place(&mut self) -> u64 {
        match self.below(4) {
            0 => self.bits(),
            1 => u64::MAX - self.of_any_size(64),
            _ => self.of_any_size(64),
        }
    }

    pub fn call(&mut self, op: Op) -> Call {
        let arguments = match op {
            Op::FromSeconds => [self.seconds(1.0).to_bits(), 0, 0],
            Op::FromSamples => {
                let rate = self.rate();
                [self.samples(rate).to_bits(), rate, 0]
            }
            Op::FromBeats => {
                let tempo = self.tempo();
                [self.beats(tempo).to_bits(), tempo.to_bits(), 0]
            }
            Op::AsSeconds => [self.time(), 0, 0],
            Op::AsSamples => [self.time(), self.rate(), 0],
            Op::AsBeats => [self.time(), self.tempo().to_bits(), 0],
            Op::IncrementedBySamples => {
                let rate = self.rate();
                [self.time(), self.count(rate), rate]
            }
            Op::IncrementedBySeconds => [self.time(), self.seconds(1.0).to_bits(), 0],
            Op::IncrementedByBeats => {
                let tempo = self.tempo();
                [self.time(), self.beats(tempo).to_bits(), tempo.to_bits()]
            }
            Op::Add | Op::Sub => [self.time(), self.time(), 0],
            Op::Cmp => {
                let time = self.time();
                let beside = time.wrapping_add(self.below(3)).wrapping_sub(1);
                let other = self.time();
                [time, self.pick(&[time, beside, other, other]), 0]
            }
            Op::FloorFrames | Op::RoundFrames => {
                let rate = self.rate_in_range();
                [self.frames_time(rate), rate, 0]
            }
            Op::TimeOfFrames => {
                let rate = self.rate_in_range();
                let block = self.below(4_097);
                let any = self.of_any_size(40);
                [self.pick(&[block, any, any]), rate, 0]
            }
            Op::OffsetFrames | Op::OffsetChannels | Op::ChannelRange | Op::FrameRange => {
                [self.place(), self.place(), 0]
            }
        };

        Call { op, arguments }
    }
}

/// From its bits: std's power need not be exact everywhere.
fn two_to(exponent: i32) -> f64 {
    f64::from_bits(((1_023 + exponent) as u64) << 52)
}
