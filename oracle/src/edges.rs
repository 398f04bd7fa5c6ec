//! The fixed list of edge calls that every list of answers begins with.

use crate::answers::{Call, Op};
use std::collections::HashSet;

const RATES_IN_RANGE: [u64; 6] = [8_000, 8_001, 44_100, 48_000, 95_999, 96_000];
const RATES_OUT_OF_RANGE: [u64; 4] = [0, 7_999, 96_001, u64::MAX];

/// Half a unit of time, 2^-33 seconds: odd multiples of it are ties.
const HALF_UNIT: f64 = 1.0 / (1_u64 << 33) as f64;

/// 2^31 seconds, the first that no longer fit.
const LIMIT: f64 = 2_147_483_648.0;

const SMALLEST: f64 = 5e-324;

/// Every call once, in a fixed order.
pub fn edge_calls() -> Vec<Call> {
    let mut edges = Edges::default();
    edges.from_floats();
    edges.to_floats();
    edges.increments();
    edges.between_times();
    edges.frames();
    edges.locations();
    edges.calls
}

#[derive(Default)]
struct Edges {
    calls: Vec<Call>,
    seen: HashSet<Call>,
}

impl Edges {
    fn add(&mut self, op: Op, a: u64, b: u64, c: u64) {
        let arguments = [a, b, c];
        let call = Call { op, arguments };
        if self.seen.insert(call) {
            self.calls.push(call);
        }
    }

    fn from_floats(&mut self) {
        for seconds in seconds() {
            self.add(Op::FromSeconds, seconds.to_bits(), 0, 0);
        }

        for rate in RATES_IN_RANGE {
            for samples in samples(rate) {
                self.add(Op::FromSamples, samples.to_bits(), rate, 0);
            }
        }

        // A rate out of range is 1 whatever else is wrong.
        for rate in RATES_OUT_OF_RANGE {
            for samples in [0.0, 1.0, -1.0, 1e300, f64::INFINITY, f64::NAN] {
                self.add(Op::FromSamples, samples.to_bits(), rate, 0);
            }
        }

        for beats in beats() {
            for tempo in tempos_above_zero() {
                self.add(Op::FromBeats, beats.to_bits(), tempo.to_bits(), 0);
            }
        }

        for beats in [0.0, 4.0, f64::MAX, f64::NAN] {
            for tempo in tempos_refused() {
                self.add(Op::FromBeats, beats.to_bits(), tempo.to_bits(), 0);
            }
        }
    }

    fn to_floats(&mut self) {
        for time in times() {
            self.add(Op::AsSeconds, time as u64, 0, 0);

            for rate in RATES_IN_RANGE {
                self.add(Op::AsSamples, time as u64, rate, 0);
            }
        }

        for time in [0, 1 << 32, i64::MAX, i64::MIN] {
            for rate in RATES_OUT_OF_RANGE {
                self.add(Op::AsSamples, time as u64, rate, 0);
            }

            for tempo in tempos_refused() {
                self.add(Op::AsBeats, time as u64, tempo.to_bits(), 0);
            }
        }

        for time in few_times() {
            for tempo in tempos_above_zero() {
                self.add(Op::AsBeats, time as u64, tempo.to_bits(), 0);
            }
        }
    }

    fn increments(&mut self) {
        // The third leaves room for one frame at 48,000 and not a unit more.
        for time in [0, -1, i64::MAX - 89_478, i64::MAX, i64::MIN] {
            for rate in [8_000, 44_100, 48_000, 96_000] {
                for count in counts(rate) {
                    self.add(Op::IncrementedBySamples, time as u64, count, rate);
                }
            }
        }

        for time in [0, -1, i64::MAX - 1, i64::MAX, i64::MIN] {
            for seconds in seconds() {
                self.add(Op::IncrementedBySeconds, time as u64, seconds.to_bits(), 0);
            }
        }

        for rate in [8_001, 95_999] {
            for count in counts(rate) {
                self.add(Op::IncrementedBySamples, 0, count, rate);
            }
        }

        for rate in RATES_OUT_OF_RANGE {
            for count in [0, 480, u64::MAX] {
                self.add(Op::IncrementedBySamples, 0, count, rate);
                self.add(Op::IncrementedBySamples, i64::MAX as u64, count, rate);
            }
        }

        for time in [0, 1 << 32, i64::MAX, i64::MIN] {
            for beats in [0.0, -0.0, 4.0, -4.0, HALF_UNIT, 3.0 * HALF_UNIT, LIMIT, f64::MAX, f64::NAN] {
                for tempo in [SMALLEST, 1e-9, 59.99, 60.0, 120.0, 1e300, f64::MAX] {
                    self.add(Op::IncrementedByBeats, time as u64, beats.to_bits(), tempo.to_bits());
                }
            }
        }

        for tempo in tempos_refused() {
            self.add(Op::IncrementedByBeats, 0, 0.0_f64.to_bits(), tempo.to_bits());
            self.add(Op::IncrementedByBeats, 1 << 32, 4.0_f64.to_bits(), tempo.to_bits());
        }
    }

    fn between_times(&mut self) {
        for a in few_times() {
            for b in few_times() {
                self.add(Op::Add, a as u64, b as u64, 0);
                self.add(Op::Sub, a as u64, b as u64, 0);
                self.add(Op::Cmp, a as u64, b as u64, 0);
            }
        }
    }

    fn frames(&mut self) {
        for rate in RATES_IN_RANGE {
            for time in few_times().into_iter().chain(times_near_frames(rate)) {
                self.add(Op::FloorFrames, time as u64, rate, 0);
                self.add(Op::RoundFrames, time as u64, rate, 0);
            }

            for frames in [0, 1, 2, 3, 100, 479, 480, 481, 2_400, 4_095, 4_096, 4_194_304] {
                self.add(Op::TimeOfFrames, frames, rate, 0);
            }

            // Below 8 seconds T is one rounding; past them it need not be.
            for frames in [rate - 1, rate, rate + 1, 8 * rate - 1, 8 * rate, 8 * rate + 1] {
                self.add(Op::TimeOfFrames, frames, rate, 0);
            }

            for frames in [(1 << 32) - 1, 1 << 32, (1 << 39) + 1, (1 << 40) - 1, 1 << 40] {
                self.add(Op::TimeOfFrames, frames, rate, 0);
            }
        }
    }

    fn locations(&mut self) {
        let places = [0, 1, (1 << 32) - 1, (1 << 63) - 1, 1 << 63, u64::MAX - 1, u64::MAX];

        for op in [Op::OffsetFrames, Op::OffsetChannels, Op::ChannelRange, Op::FrameRange] {
            for a in places {
                for b in places {
                    self.add(op, a, b, 0);
                }
            }
        }
    }
}

fn with_both_signs(values: &[f64]) -> impl Iterator<Item = f64> + '_ {
    values.iter().flat_map(|value| [*value, -value])
}

fn not_finite() -> [f64; 6] {
    let signalling = f64::from_bits(0x7ff0_0000_0000_0001);
    [f64::NAN, -f64::NAN, signalling, -signalling, f64::INFINITY, f64::NEG_INFINITY]
}

/// Odd multiples of half a unit, of both parities below the tie, from the smallest to the largest that a float holds.
fn ties() -> [f64; 8] {
    let odd = [1, 3, 5, 7, (1 << 52) + 1, (1 << 52) + 3, (1 << 53) - 3, (1_u64 << 53) - 1];
    odd.map(|halves| halves as f64 * HALF_UNIT)
}

fn seconds() -> Vec<f64> {
    let beside_ties = [1.0, 3.0].map(|halves| halves * HALF_UNIT);
    let beside_ties = beside_ties.iter().flat_map(|tie| [tie.next_down(), tie.next_up()]);
    let beside_ties: Vec<f64> = beside_ties.collect();

    let tiny = [0.0, SMALLEST, f64::MIN_POSITIVE.next_down(), f64::MIN_POSITIVE];
    let plain = [2.0 * HALF_UNIT, 0.05, 0.1, 1.0 / 3.0, 1.0, 60.0];
    let limits = [LIMIT.next_down(), LIMIT, LIMIT.next_up()];
    let huge = [2.0 * LIMIT, LIMIT * LIMIT, f64::MAX];

    with_both_signs(&ties())
        .chain(with_both_signs(&beside_ties))
        .chain(with_both_signs(&tiny))
        .chain(with_both_signs(&plain))
        .chain(with_both_signs(&limits))
        .chain(with_both_signs(&huge))
        .chain(not_finite())
        .collect()
}

/// Counts whose seconds are ties, limits and the like at this rate.
fn samples(rate: u64) -> Vec<f64> {
    let rate = rate as f64;
    let ties = [1.0, 3.0, 5.0].map(|halves| rate * halves * HALF_UNIT);
    let limit = rate * LIMIT;
    let limits = [limit.next_down().next_down(), limit.next_down(), limit, limit.next_up()];
    let two_to_53 = (1_u64 << 53) as f64;
    let whole = [0.0, 1.0, 480.0, 4_194_304.0, two_to_53, two_to_53 + 2.0];
    let others = [0.5, 1.0 / 3.0, SMALLEST, f64::MIN_POSITIVE, 1e300, f64::MAX];

    with_both_signs(&ties)
        .chain(with_both_signs(&limits))
        .chain(with_both_signs(&whole))
        .chain(with_both_signs(&others))
        .chain(not_finite())
        .collect()
}

/// At a tempo of 60 a beat is a second.
fn beats() -> Vec<f64> {
    let values = [0.0, SMALLEST, HALF_UNIT, 3.0 * HALF_UNIT, 1.0 / 3.0, 4.0, LIMIT.next_down(), LIMIT, f64::MAX];
    let beyond = [-LIMIT.next_up(), f64::NAN, f64::INFINITY, f64::NEG_INFINITY];
    with_both_signs(&values).chain(beyond).collect()
}

fn tempos_above_zero() -> [f64; 14] {
    [
        // A sixtieth of these is 0, by underflow or as a tie; of the next, the smallest float.
        SMALLEST,
        30.0 * SMALLEST,
        31.0 * SMALLEST,
        f64::MIN_POSITIVE,
        1e-9,
        1.0,
        59.99,
        60.0,
        60.0_f64.next_up(),
        120.0,
        174.6,
        1e9,
        1e300,
        f64::MAX,
    ]
}

fn tempos_refused() -> [f64; 8] {
    [0.0, -0.0, -SMALLEST, -120.0, -f64::MAX, f64::NAN, f64::INFINITY, f64::NEG_INFINITY]
}

/// Times of every size; past 2^53 units some are ties between two floats.
fn times() -> Vec<i64> {
    let sizes = [
        1,
        2,
        89_477,
        89_478,
        89_479,
        1 << 31,
        1 << 32,
        1 << 42,
        1 << 48,
        (1 << 53) - 1,
        1 << 53,
        (1 << 53) + 1,
        (1 << 53) + 3,
        (1 << 54) + 2,
        (1 << 54) + 6,
        1 << 62,
        i64::MAX - 512,
        i64::MAX - 511,
        i64::MAX - 1,
        i64::MAX,
    ];
    let signed = sizes.into_iter().flat_map(|size| [size, -size]);
    [0, i64::MIN].into_iter().chain(signed).collect()
}

fn few_times() -> [i64; 13] {
    let two_to_53 = 1 << 53;
    [
        0,
        1,
        -1,
        1 << 32,
        -(1 << 32),
        1 << 48,
        two_to_53 + 1,
        -two_to_53 - 1,
        1 << 62,
        -(1 << 62),
        i64::MAX - 1,
        i64::MAX,
        i64::MIN,
    ]
}

/// Times where floor and round of S change: whole frames, and exact halves of a frame.
fn times_near_frames(rate: u64) -> Vec<i64> {
    let whole = [1, 480].map(|frames: i64| (frames << 32) / rate as i64);
    // With the rate's even part taken out, an odd multiple of this time is an odd number of half frames.
    let half = 1_i64 << (31 - rate.trailing_zeros());
    let halves = [half, 3 * half];

    let near = whole.into_iter().chain(halves).flat_map(|time| [time - 1, time, time + 1]);
    let whole_above = whole.map(|time| time + 2);
    near.chain(whole_above).chain([-half, -1 - half]).collect()
}

fn counts(rate: u64) -> Vec<u64> {
    let limit = rate << 31;
    let two_to_53 = 1 << 53;
    vec![
        0,
        1,
        480,
        4_096,
        4_194_304,
        1 << 40,
        limit - 1,
        limit,
        limit + 1,
        two_to_53 - 1,
        two_to_53,
        two_to_53 + 1,
        two_to_53 + 3,
        1 << 63,
        u64::MAX,
    ]
}
