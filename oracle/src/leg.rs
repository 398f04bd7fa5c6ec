//! A leg as plain numbers, and its 490 bytes. What the leg's own types can hold stands here, damaged or not.

use crate::commands::{Record, PLACES};
use crate::effects::sampler::VoicePhase;

pub const LEG_BYTES: usize = 490;

/// "A leg is made from four numbers and keeps them"
#[derive(Clone, Copy, Debug, Default, PartialEq, Eq)]
pub struct Sizes {
    pub rate: u32,
    pub channels: u8,
    pub frames: u32,
    pub fade: u32,
}

#[derive(Clone, Debug, PartialEq)]
pub struct Leg {
    pub sizes: Sizes,
    /// Phase and position.
    pub voices: [(VoicePhase, u64); 2],
    pub active: Option<usize>,
    pub loop_points: Option<(i64, i64)>,
    pub position: i64,
    pub start_position: i64,
    pub completed: u64,
    /// Above 16 the leg is damaged, and all sixteen places are in use.
    pub count: u8,
    /// The places below the count.
    pub events: Vec<Record>,
}

impl Leg {
    /// "a blank leg, rate 0 and all else zero or none"
    pub fn blank() -> Self {
        Self::fresh(Sizes::default())
    }

    pub fn fresh(sizes: Sizes) -> Self {
        Self {
            sizes,
            voices: [(VoicePhase::Stopped, 0); 2],
            active: None,
            loop_points: None,
            position: 0,
            start_position: 0,
            completed: 0,
            count: 0,
            events: Vec::new(),
        }
    }

    pub fn with_events(self, events: Vec<Record>) -> Self {
        let count = u8::try_from(events.len()).expect("a queue is short");
        Self { count, events, ..self }
    }

    pub fn to_bytes(&self) -> Vec<u8> {
        let mut bytes = Vec::with_capacity(LEG_BYTES);
        let Sizes { rate, channels, frames, fade } = self.sizes;
        bytes.extend(rate.to_le_bytes());
        bytes.push(channels);
        [frames, fade].iter().for_each(|size| bytes.extend(size.to_le_bytes()));

        for (phase, position) in self.voices {
            let (kind, fade_position) = phase_numbers(phase);
            bytes.push(kind);
            bytes.extend(fade_position.to_le_bytes());
            bytes.extend(position.to_le_bytes());
        }

        bytes.push(self.active.map_or(0, |voice| voice as u8 + 1));
        let (start, end) = self.loop_points.unwrap_or((0, 0));
        bytes.push(u8::from(self.loop_points.is_some()));
        [start, end, self.position, self.start_position].iter().for_each(|time| bytes.extend(time.to_le_bytes()));
        bytes.extend(self.completed.to_le_bytes());

        bytes.push(self.count);
        self.events.iter().for_each(|event| write_place(&mut bytes, event));
        bytes.resize(LEG_BYTES, 0);
        bytes
    }

    /// `None` for what the leg's own types can't hold.
    pub fn from_bytes(bytes: &[u8; LEG_BYTES]) -> Option<Self> {
        let mut fields = Fields { bytes };
        let sizes = Sizes { rate: fields.u32(), channels: fields.u8(), frames: fields.u32(), fade: fields.u32() };
        let voices = [fields.voice()?, fields.voice()?];
        let active = match fields.u8() {
            0 => None,
            voice @ 1..=2 => Some(usize::from(voice) - 1),
            _ => return None,
        };
        let loop_points = fields.loop_points()?;
        let (position, start_position, completed) = (fields.i64(), fields.i64(), fields.u64());
        let count = fields.u8();
        let events = fields.events(usize::from(count).min(PLACES))?;

        Some(Self { sizes, voices, active, loop_points, position, start_position, completed, count, events })
    }
}

fn phase_numbers(phase: VoicePhase) -> (u8, u64) {
    match phase {
        VoicePhase::Stopped => (0, 0),
        VoicePhase::FadingIn(fade_position) => (1, fade_position as u64),
        VoicePhase::Playing => (2, 0),
        VoicePhase::FadingOut(fade_position) => (3, fade_position as u64),
    }
}

fn write_place(bytes: &mut Vec<u8>, event: &Record) {
    bytes.push(u8::try_from(event.kind).expect("a kind is small"));
    [event.time, event.first, event.second].iter().for_each(|field| bytes.extend(field.to_le_bytes()));
}

/// The bytes not yet read.
struct Fields<'a> {
    bytes: &'a [u8],
}

impl Fields<'_> {
    fn take<const N: usize>(&mut self) -> [u8; N] {
        let (taken, rest) = self.bytes.split_first_chunk().expect("a leg has all its bytes");
        self.bytes = rest;
        *taken
    }

    fn u8(&mut self) -> u8 {
        self.take::<1>()[0]
    }

    fn u32(&mut self) -> u32 {
        u32::from_le_bytes(self.take())
    }

    fn u64(&mut self) -> u64 {
        u64::from_le_bytes(self.take())
    }

    fn i64(&mut self) -> i64 {
        i64::from_le_bytes(self.take())
    }

    fn voice(&mut self) -> Option<(VoicePhase, u64)> {
        let (kind, fade_position, position) = (self.u8(), self.u64(), self.u64());
        let phase = match (kind, fade_position) {
            (0, 0) => VoicePhase::Stopped,
            (1, _) => VoicePhase::FadingIn(fade_position as usize),
            (2, 0) => VoicePhase::Playing,
            (3, _) => VoicePhase::FadingOut(fade_position as usize),
            _ => return None,
        };
        Some((phase, position))
    }

    fn loop_points(&mut self) -> Option<Option<(i64, i64)>> {
        match (self.u8(), self.i64(), self.i64()) {
            (0, 0, 0) => Some(None),
            (1, start, end) => Some(Some((start, end))),
            _ => None,
        }
    }

    fn events(&mut self, count: usize) -> Option<Vec<Record>> {
        let events = (0..count).map(|_| self.place()).collect::<Option<Vec<Record>>>()?;
        self.bytes.iter().all(|byte| *byte == 0).then_some(events)
    }

    /// A time that kind 2 or 6 may not have is held all the same: such a leg is damaged.
    fn place(&mut self) -> Option<Record> {
        let event = Record::new(self.u8().into(), self.i64(), self.i64(), self.i64());
        let [_, first, second] = Record::used(event.kind)?;
        ((first || event.first == 0) && (second || event.second == 0)).then_some(event)
    }
}

/// The fields in their order, with how many bytes each has, for whoever has to name one.
pub fn fields() -> Vec<(String, usize)> {
    let mut fields = Vec::new();
    let mut add = |name: String, size| fields.push((name, size));

    for (name, size) in [("rate", 4), ("channels", 1), ("frames", 4), ("F", 4)] {
        add(name.into(), size);
    }
    for voice in 0..2 {
        for (name, size) in [("phase", 1), ("fade position", 8), ("position", 8)] {
            add(format!("voice {voice} {name}"), size);
        }
    }
    for (name, size) in [("active", 1), ("loop", 1), ("loop start", 8), ("loop end", 8)] {
        add(name.into(), size);
    }
    for (name, size) in [("position", 8), ("start position", 8), ("completed loops", 8), ("events", 1)] {
        add(name.into(), size);
    }
    for place in 0..PLACES {
        for (name, size) in [("kind", 1), ("time", 8), ("first", 8), ("second", 8)] {
            add(format!("event {place} {name}"), size);
        }
    }

    fields
}
