//! Commands, aimed at the blocks to come.

use super::Session;
use crate::commands::{Record, CANCEL_ALL, CANCEL_LOOP, ENABLE_LOOP, START, START_IMMEDIATE, STOP};
use crate::trial_file::Step;

const LAST_TIME: i64 = 1 << 48;
const LAST_POSITION: i64 = 1 << 42;

impl Session {
    pub(super) fn submit(&mut self, record: Vec<u8>) {
        self.run.submit(&record);
        self.steps.push(Step::Command(record));
    }

    fn submit_record(&mut self, record: Record) {
        self.times.push(record.time);
        self.submit(record.to_bytes());
    }

    pub(super) fn command(&mut self) {
        let record = self.record();
        self.submit_record(record);
    }

    pub(super) fn enable_loop_now(&mut self, (start, end): (i64, i64)) {
        self.submit_record(Record::new(ENABLE_LOOP, 0, start, end));
    }

    pub(super) fn start_soon(&mut self) {
        let record = match self.random.below(3) {
            0 => Record::new(START_IMMEDIATE, 0, 0, 0),
            _ => Record::new(START, self.soon(), self.position(), 0),
        };
        self.submit_record(record);
    }

    /// The queue filled, and more.
    pub(super) fn flood(&mut self) {
        let count = self.random.pick(&[3, 8, 17, 18, 20]);
        (0..count).for_each(|_| self.command());

        if self.random.below(2) == 0 {
            self.submit_record(Record::new(CANCEL_ALL, 0, 0, 0));
        }
    }

    pub(super) fn spoilt_command(&mut self) {
        let record = self.record();
        let record = self.random.spoilt(record);
        let mut bytes = record.to_bytes();

        if self.random.below(8) == 0 {
            bytes.iter_mut().for_each(|byte| *byte = self.random.bits() as u8);
        }
        self.submit(bytes);
    }

    pub(super) fn record(&mut self) -> Record {
        match self.random.below(24) {
            0..=8 => Record::new(START, self.time(), self.position(), 0),
            9..=10 => Record::new(START_IMMEDIATE, 0, 0, 0),
            11..=13 => Record::new(STOP, self.time(), 0, 0),
            14..=19 => {
                let (start, end) = self.points();
                Record::new(ENABLE_LOOP, self.time(), start, end)
            }
            20..=21 => Record::new(CANCEL_LOOP, self.time(), 0, 0),
            22 => Record::new(CANCEL_ALL, 0, 0, 0),
            _ => self.start_in_step(),
        }
    }

    /// A Start at the very frame that the active voice will be at: document 01 has it do nothing.
    fn start_in_step(&mut self) -> Record {
        let playing = self.leg().active.map_or(0, |voice| self.leg().voices[voice].1);
        let frames = self.random.below(16);
        let time = self.now + self.time_of(frames);
        let off = self.random.pick(&[0, 0, 0, 1]);
        let position = self.time_of(playing.saturating_add(frames + off).min(1 << 25));
        Record::new(START, time.min(LAST_TIME), position.min(LAST_POSITION), 0)
    }

    /// Within the next blocks: on a frame as the leg counts them, on one as numbers have it, and beside it.
    fn soon(&mut self) -> i64 {
        let reach = if self.small { 48 } else { self.random.pick(&[4, 64, 64, 512]) };
        let frames = self.random.below(reach);
        let rate = i64::from(self.leg().sizes.rate.max(1));
        let exact = self.now + ((frames as i64) << 32) / rate;
        let counted = self.now + self.time_of(frames);
        let between = self.now + self.random.below(self.time_of(reach) as u64) as i64;
        let time = self.random.pick(&[exact, counted, counted, between]);
        self.beside(time).clamp(0, LAST_TIME)
    }

    pub(super) fn time(&mut self) -> i64 {
        let frames = self.random.below(64);
        let time = match self.random.below(16) {
            0..=8 => return self.soon(),
            // The limit, and one past it at times.
            9 if self.random.below(4) == 0 => return LAST_TIME + self.random.pick(&[-1, 0, 1]),
            9..=10 if !self.times.is_empty() => self.random.pick(&self.times),
            11 => self.now - self.time_of(frames),
            12 => self.now - self.random.of_any_size(36) as i64,
            13 => self.now + self.random.of_any_size(34) as i64,
            _ => 0,
        };
        time.clamp(0, LAST_TIME)
    }

    pub(super) fn position(&mut self) -> i64 {
        let frames = self.frames();
        let frame = self.random.below(frames + 8);
        let half = (1_i64 << 31) / i64::from(self.leg().sizes.rate.max(1));
        let (start, end) = self.leg().loop_points.unwrap_or((0, self.time_of(frames)));

        let position = match self.random.below(16) {
            0..=2 => 0,
            3..=7 => self.time_of(frame),
            // Where the voice's frame turns.
            8 => self.time_of(frame) + half,
            9 => self.time_of(frames),
            10 => start,
            11 => end.saturating_sub(self.time_of(frame.min(8))),
            12 => end.saturating_add(self.time_of(frame)),
            13 => self.random.of_any_size(42) as i64,
            14 if self.random.below(8) == 0 => return LAST_POSITION + self.random.pick(&[-1, 0, 1]),
            _ => self.random.below(self.time_of(frames + 8) as u64) as i64,
        };
        self.beside(position.clamp(0, LAST_POSITION)).clamp(0, LAST_POSITION)
    }

    /// Loop points: whole frames, a unit beside them, any units; lengths from the shortest that rule 12 takes.
    pub(super) fn points(&mut self) -> (i64, i64) {
        let first = self.random.below(self.frames() + 1);
        let least = u64::from(self.leg().sizes.fade.clamp(64, 4_800));
        let any = self.random.below(self.frames() + 64);
        let frames = self.random.pick(&[least, least, least + 1, least + any, least + any, 2 * least]);

        let whole = (self.time_of(first), self.time_of(first + frames));
        let start = self.random.of_any_size(36) as i64;
        let (start, end) = match self.random.below(12) {
            0..=4 => whole,
            5..=6 => (self.beside(whole.0), self.beside(whole.1) + 1),
            7 => (start, start + self.shortest_loop()),
            8 => (whole.0, whole.0 + self.shortest_loop()),
            // Rule 12 refuses this one.
            9 if self.random.below(4) == 0 => (whole.0, whole.0 + self.shortest_loop() - 1),
            10 => (start, start + self.time_of(frames) + self.random.below(1 << 20) as i64),
            // A leg that is late by hours catches up in some thousand turns.
            11 => (start, start + self.now / 4_096 + self.time_of(frames)),
            _ => (whole.0, whole.1 + self.random.below(self.time_of(1) as u64) as i64),
        };
        (start.clamp(0, LAST_POSITION), end.clamp(0, LAST_POSITION))
    }

    /// The least end − start with (end − start)·R + 2^31 at least M·2^32.
    pub(super) fn shortest_loop(&self) -> i64 {
        let rate = i64::from(self.leg().sizes.rate.clamp(8_000, 96_000));
        let least = i64::from(self.leg().sizes.fade.clamp(64, 4_800));
        ((least << 32) - (1 << 31) + rate - 1) / rate
    }
}
