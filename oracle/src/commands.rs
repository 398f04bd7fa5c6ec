//! Commands and their queue: the number that document 01 answers a record with, and the verbatim queue behind it.
//!
//! What is refused is not sent. The order of the events that wait, and which of them is taken, are the file's.

use crate::effects::sampler::{EventTransmitter, SampleEventType, SamplerEvent};
use crate::effects::utility::{EventProcessor, EventProcessorEvent};
use crate::effects::Channel;
use crate::Timestamp;

/// "16 events pending and the new one isn't CancelAll"
pub const FULL: u8 = 9;

/// "event time outside 0 to 2^48"
pub const TIME: u8 = 10;

/// "a start or loop position outside 0 to 2^42"
pub const POSITION: u8 = 11;

/// "loop with (end−start)·R + 2^31 below M·2^32, M the larger of F and 64"
pub const LOOP: u8 = 12;

/// "record not 26 bytes, unknown kind, or a field not used isn't zero"
pub const RECORD: u8 = 13;

pub const START: u16 = 1;
pub const START_IMMEDIATE: u16 = 2;
pub const STOP: u16 = 3;
pub const ENABLE_LOOP: u16 = 4;
pub const CANCEL_LOOP: u16 = 5;
pub const CANCEL_ALL: u16 = 6;

pub const PLACES: usize = 16;

/// "Record, little-endian: kind u16, time, first, second as i64."
pub const RECORD_BYTES: usize = 26;

/// "Record, little-endian: kind u16, time, first, second as i64". One of another length than 26 is these bytes cut
/// short, or followed by zeros.
#[derive(Clone, Copy, Debug, PartialEq, Eq)]
pub struct Record {
    pub length: u16,
    pub kind: u16,
    pub time: i64,
    pub first: i64,
    pub second: i64,
}

impl Record {
    pub fn new(kind: u16, time: i64, first: i64, second: i64) -> Self {
        Self { length: RECORD_BYTES as u16, kind, time, first, second }
    }

    /// Of another length than 26 no byte is looked at: the length alone is refused.
    pub fn from_bytes(bytes: &[u8]) -> Self {
        let Ok(bytes) = <&[u8; RECORD_BYTES]>::try_from(bytes) else {
            return Self { length: bytes.len() as u16, ..Self::new(0, 0, 0, 0) };
        };

        let field = |at: usize| i64::from_le_bytes(bytes[at..at + 8].try_into().expect("eight bytes"));
        Self::new(u16::from_le_bytes([bytes[0], bytes[1]]), field(2), field(10), field(18))
    }

    pub fn to_bytes(&self) -> Vec<u8> {
        let mut bytes = self.kind.to_le_bytes().to_vec();
        [self.time, self.first, self.second].iter().for_each(|field| bytes.extend(field.to_le_bytes()));
        bytes.resize(self.length.into(), 0);
        bytes
    }

    /// Whether time, first and second are used; `None` for a kind that is not known.
    pub fn used(kind: u16) -> Option<[bool; 3]> {
        match kind {
            START => Some([true, true, false]),
            STOP | CANCEL_LOOP => Some([true, false, false]),
            ENABLE_LOOP => Some([true, true, true]),
            // "Kinds 2 and 6 have time 0, another time there is 13"
            START_IMMEDIATE | CANCEL_ALL => Some([false, false, false]),
            _ => None,
        }
    }

    fn well_formed(&self) -> bool {
        let fields = [self.time, self.first, self.second];
        let used = Self::used(self.kind);
        let zeros = used.is_some_and(|used| used.iter().zip(fields).all(|(used, field)| *used || field == 0));
        self.length == 26 && zeros
    }

    /// The start or loop positions: a field that is none counts as 0, which no rule refuses.
    fn positions(&self) -> [i64; 2] {
        match self.kind {
            START => [self.first, 0],
            ENABLE_LOOP => [self.first, self.second],
            _ => [0, 0],
        }
    }

    /// "13, 10, 11, 12": the rules that a record meets by itself, at a leg's rate and fade length.
    pub fn admissible(&self, rate: u64, fade: u64) -> Result<(), u8> {
        if !self.well_formed() {
            return Err(RECORD);
        }

        if !(0..=1 << 48).contains(&self.time) {
            return Err(TIME);
        }

        if !self.positions().iter().all(|position| (0..=1 << 42).contains(position)) {
            return Err(POSITION);
        }

        if self.kind == ENABLE_LOOP && is_short(self.first, self.second, rate, fade) {
            return Err(LOOP);
        }

        Ok(())
    }

    /// "Command: 14, 13, 10, 11, 12, 9", but for 14, with so many events pending.
    pub fn taken(&self, rate: u64, fade: u64, waiting: usize) -> Result<(), u8> {
        self.admissible(rate, fade)?;

        if waiting == PLACES && self.kind != CANCEL_ALL {
            return Err(FULL);
        }

        Ok(())
    }

    pub fn event(&self) -> SamplerEvent {
        let [time, first, second] = [self.time, self.first, self.second].map(Timestamp::from_units);

        match (self.kind, self.time) {
            (START, _) => SamplerEvent::start(time, first),
            (START_IMMEDIATE, _) => SamplerEvent::start_now(),
            // "a "now" form of 3 to 5 is time 0"
            (STOP, 0) => SamplerEvent::stop_now(),
            (STOP, _) => SamplerEvent::stop(time),
            (ENABLE_LOOP, 0) => SamplerEvent::enable_loop(first, second),
            (ENABLE_LOOP, _) => SamplerEvent::enable_loop_at_time(time, first, second),
            (CANCEL_LOOP, 0) => SamplerEvent::cancel_loop(),
            (CANCEL_LOOP, _) => SamplerEvent::cancel_loop_at_time(time),
            (CANCEL_ALL, _) => SamplerEvent::cancel_all(),
            (kind, _) => panic!("kind {kind} is refused"),
        }
    }
}

fn is_short(start: i64, end: i64, rate: u64, fade: u64) -> bool {
    let least = i128::from(fade.max(64));
    (i128::from(end) - i128::from(start)) * i128::from(rate) + (1 << 31) < least << 32
}

/// The record that an event of the queue stands for.
impl From<&SamplerEvent> for Record {
    fn from(event: &SamplerEvent) -> Self {
        let (kind, first, second) = match event.get_event_type() {
            SampleEventType::Start(position) => (START, position.units(), 0),
            SampleEventType::StartImmediate => (START_IMMEDIATE, 0, 0),
            SampleEventType::Stop => (STOP, 0, 0),
            SampleEventType::EnableLoop(start, end) => (ENABLE_LOOP, start.units(), end.units()),
            SampleEventType::CancelLoop => (CANCEL_LOOP, 0, 0),
            SampleEventType::CancelAll => (CANCEL_ALL, 0, 0),
        };
        Self::new(kind, event.get_time().units(), first, second)
    }
}

/// The queue of a leg with this rate and fade length.
pub struct Queue {
    rate: u64,
    fade: u64,
    transmitter: EventTransmitter,
    processor: EventProcessor<SamplerEvent>,
    waiting: usize,
}

impl Queue {
    pub fn new(rate: u64, fade: u64) -> Self {
        let (transmitter, receiver) = Channel::channel();
        let processor = EventProcessor::with_capacity(PLACES, receiver, rate as usize);
        Self { rate, fade, transmitter, processor, waiting: 0 }
    }

    /// 0, or the number of the refusal.
    pub fn submit(&mut self, record: &Record) -> u8 {
        // There is no leg here that 14 could refuse.
        if let Err(number) = record.taken(self.rate, self.fade, self.waiting) {
            return number;
        }

        // "CancelAll empties the queue, then enters it."
        self.waiting = if record.kind == CANCEL_ALL { 1 } else { self.waiting + 1 };
        self.transmitter.send(record.event()).expect("the processor holds the other end");
        0
    }

    /// The first event before an end. As in a block, what was sent since the last time is received first, in one go.
    pub fn take_before(&mut self, end: i64) -> Option<Record> {
        self.processor.receive_events();
        assert_eq!(self.processor.pending().len(), self.waiting, "the rules count what the queue holds");

        let event = self.processor.take_before(&Timestamp::from_units(end))?;
        self.waiting -= 1;
        Some(Record::from(&event))
    }
}
