//! Sequences of commands and takes, and random ones: few different times, so that many are equal, and ends beside
//! them; queues that fill up; now and then a record that some rule refuses.

use crate::commands::{Record, CANCEL_ALL, CANCEL_LOOP, ENABLE_LOOP, START, START_IMMEDIATE, STOP};
use crate::random::Random;
use crate::Timestamp;

#[derive(Clone, Copy, Debug)]
pub enum Step {
    Command(Record),
    /// The first event before an end.
    Take(i64),
    /// Takes at the last of all ends, until nothing is left: what waits, in order.
    Drain,
}

/// From an empty queue on.
#[derive(Clone, Debug)]
pub struct Sequence {
    pub rate: u64,
    pub fade: u64,
    pub steps: Vec<Step>,
}

/// What one random sequence keeps to.
struct Habits {
    rate: u64,
    fade: u64,
    times: Vec<i64>,
    /// In 16 steps, how many are commands, and of 64 commands, how many are CancelAll.
    commands: u64,
    cancels: u64,
}

impl Random {
    pub fn sequence(&mut self) -> Sequence {
        let rate = self.rate_in_range();
        // At a power of two half a frame is a whole number of units, which rule 12 can meet with nothing to spare.
        let rate = self.pick(&[rate, rate, rate, 8_192, 16_384, 65_536]);
        let fade = self.fade_length(rate);
        let times = self.few_times(rate);
        let commands = self.pick(&[8, 11, 14, 15]);
        let cancels = self.pick(&[0, 0, 2, 8]);
        let habits = Habits { rate, fade, times, commands, cancels };

        let length = 1 + self.below(40);
        let steps = (0..length).map(|_| self.step(&habits)).chain([Step::Drain]).collect();
        Sequence { rate, fade, steps }
    }

    fn fade_length(&mut self, rate: u64) -> u64 {
        let any = self.below(4_801);
        // The fourth is the leg's own: "The fade length is the ceiling of R/20."
        self.pick(&[0, 64, 65, rate.div_ceil(20), rate.div_ceil(20), any])
    }

    fn few_times(&mut self, rate: u64) -> Vec<i64> {
        let any = self.of_any_size(48) as i64;
        let last = (1 << 48) - self.of_any_size(3) as i64;
        let base = self.pick(&[0, 1, any, any, any, last]);

        let frame = (1_i64 << 32) / rate as i64;
        let steps = [0, 0, 1, 2, frame, frame + 1, 480 * frame];
        let count = 1 + self.below(5);
        let mut times: Vec<i64> = (0..count).map(|_| base + self.pick(&steps)).collect();
        // Where the "now" forms and kinds 2 and 6 stand.
        times.push(0);
        times
    }

    fn step(&mut self, habits: &Habits) -> Step {
        if self.below(16) < habits.commands {
            Step::Command(self.record(habits))
        } else {
            Step::Take(self.end(habits))
        }
    }

    fn end(&mut self, habits: &Habits) -> i64 {
        let beside = self.pick(&habits.times) + self.below(3) as i64 - 1;
        match self.below(8) {
            0 => self.bits() as i64,
            1 => self.of_any_size(49) as i64,
            _ => beside,
        }
    }

    fn record(&mut self, habits: &Habits) -> Record {
        let record = self.well_meant(habits);
        if self.below(8) == 0 {
            self.spoilt(record)
        } else {
            record
        }
    }

    fn well_meant(&mut self, habits: &Habits) -> Record {
        if self.below(64) < habits.cancels {
            return Record::new(CANCEL_ALL, 0, 0, 0);
        }

        let time = self.pick(&habits.times);
        match self.below(8) {
            // Different positions tell events of one time apart.
            0..=3 => Record::new(START, time, self.position(), 0),
            4 => Record::new(START_IMMEDIATE, 0, 0, 0),
            5 => Record::new(STOP, time, 0, 0),
            6 => {
                let (start, end) = self.loop_points(habits);
                Record::new(ENABLE_LOOP, time, start, end)
            }
            _ => Record::new(CANCEL_LOOP, time, 0, 0),
        }
    }

    fn position(&mut self) -> i64 {
        self.of_any_size(42) as i64
    }

    /// Points that lie about as far apart as a loop has to be long, or farther.
    fn loop_points(&mut self, habits: &Habits) -> (i64, i64) {
        let start = self.of_any_size(40) as i64;
        let least = habits.fade.max(64);
        let any = self.of_any_size(22);
        let frames = self.pick(&[least, least, least + 1, least + any, least + any, least - 1]);
        let length = Timestamp::from_samples(frames as f64, habits.rate as usize).units();
        let half_frame = (1_i64 << 31) / habits.rate as i64;
        // Half a frame short is where rule 12 turns.
        let less = self.pick(&[0, 0, 0, half_frame - 1, half_frame, half_frame + 1]);
        (start, start + length - less)
    }

    /// The record with one thing changed, mostly to what a rule refuses.
    pub(crate) fn spoilt(&mut self, mut record: Record) -> Record {
        let bit = 1_i64 << self.below(64);
        match self.below(8) {
            0 => record.length = self.pick(&[0, 1, 2, 10, 18, 25, 27, 28, 34, 52, 64]),
            1 => record.kind = self.pick(&[0, 1, 2, 3, 4, 5, 6, 7, 8, 255, 256, 257, 1_024, 32_769, 65_535]),
            2 => record.kind = self.bits() as u16,
            3 => record.time ^= bit,
            4 => record.first ^= bit,
            5 => record.second ^= bit,
            6 => record.time = (1 << 48) + self.below(3) as i64 - 1,
            _ => record.first = (1 << 42) + self.below(3) as i64 - 1,
        }
        record
    }
}
