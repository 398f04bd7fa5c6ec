//! Legs that take the leg's place: sound ones in every state, and ones at an edge of "A leg is damaged unless", or past it.

use super::Session;
use crate::commands::{Record, CANCEL_ALL, ENABLE_LOOP, PLACES, START, START_IMMEDIATE, STOP};
use crate::effects::sampler::VoicePhase;
use crate::leg::{Leg, Sizes};
use crate::leg_numbers::making;
use crate::trial_file::Step;
use crate::Timestamp;

const LAST_TIME: i64 = 1 << 48;
const LAST_POSITION: i64 = 1 << 42;

impl Session {
    pub(super) fn replace(&mut self) {
        let leg = self.sound_leg();
        self.hold(leg);
    }

    /// And a call that meets it.
    pub(super) fn replace_at_an_edge(&mut self) {
        let mut leg = self.sound_leg();
        let edges = self.random.pick(&[1, 1, 1, 2]);
        (0..edges).for_each(|_| self.set_to_an_edge(&mut leg));
        self.hold(leg);

        match self.random.below(4) {
            0 => self.command(),
            1 => self.block(),
            2 => self.spoilt_block(),
            _ => self.spoilt_step(),
        }
    }

    /// A fresh leg, in the place of one that the Rust is not asked to go on with.
    pub(super) fn start_over(&mut self) {
        let sizes = self.lent_sizes();
        self.hold(Leg::fresh(sizes));
    }

    fn hold(&mut self, leg: Leg) {
        self.run.hold(&leg);
        self.steps.push(Step::Leg(Box::new(leg)));
    }

    /// Those that the recording and the table are for.
    fn lent_sizes(&mut self) -> Sizes {
        let head = self.head.sizes;
        let (recording, fade) = (self.head.recording.len(), self.head.fade.len());
        let lengths = (usize::from(head.channels) * head.frames as usize, head.fade as usize);
        let kept = if lengths == (recording, fade) { 7 } else { 2 };
        if making(&head).is_ok() && self.random.below(8) < kept {
            return head;
        }
        let channels = if recording % 2 == 0 { self.random.pick(&[1, 2]) } else { 1 };
        let frames = (recording / usize::from(channels)) as u32;
        Sizes { rate: self.random.leg_rate(), channels, frames, fade: (fade as u32).min(4_800) }
    }

    fn leg_sizes(&mut self) -> Sizes {
        let mut sizes = self.lent_sizes();
        match self.random.below(32) {
            0..=3 => sizes.rate = self.random.leg_rate(),
            4 => sizes.frames = self.random.pick(&[0, 1, sizes.frames + 1, 4_194_304]),
            5 => sizes.fade = self.random.pick(&[0, 1, 64, 4_800]),
            _ => (),
        }
        sizes
    }

    fn sound_leg(&mut self) -> Leg {
        // What is drawn below asks the leg for its sizes.
        let sizes = self.leg_sizes();
        self.run.hold(&Leg::fresh(sizes));

        let mut leg = Leg::fresh(sizes);
        self.draw_voices(&mut leg);
        let points = self.points();
        let looped = Record::new(ENABLE_LOOP, 0, points.0, points.1);
        if self.random.below(3) > 0 && admissible(sizes, &looped) {
            leg.loop_points = Some(points);
        }
        leg.start_position = self.position().min(LAST_POSITION);
        leg.completed = self.completed();
        self.draw_position(&mut leg);
        let events = self.events(sizes);
        leg.with_events(events)
    }

    fn draw_voices(&mut self, leg: &mut Leg) {
        leg.active = self.random.pick(&[None, Some(0), Some(0), Some(1), Some(1)]);

        for voice in 0..2 {
            let place = self.fade_position(leg.sizes.fade);
            let phase = match (leg.active == Some(voice), self.random.below(2)) {
                (true, 0) => VoicePhase::FadingIn(place),
                (true, _) => VoicePhase::Playing,
                (false, 0) => VoicePhase::FadingOut(place),
                (false, _) => VoicePhase::Stopped,
            };
            leg.voices[voice] = (phase, self.voice_position(phase));
        }
    }

    fn fade_position(&mut self, fade: u32) -> usize {
        let any = self.random.below(u64::from(fade.max(1))) as usize;
        self.random.pick(&[0, any, any, fade.saturating_sub(1) as usize])
    }

    fn voice_position(&mut self, phase: VoicePhase) -> u64 {
        let frames = self.frames();
        let any = self.random.below(frames + 8);
        let width = if phase == VoicePhase::Stopped { 40 } else { 39 };
        match self.random.below(16) {
            0 => 0,
            1 => frames.saturating_sub(1),
            2 => frames,
            3 => self.random.of_any_size(width),
            4 if self.random.below(4) == 0 => 1 << width,
            _ => any,
        }
    }

    fn completed(&mut self) -> u64 {
        let few = self.random.below(8);
        let any = self.random.of_any_size(27);
        self.random.pick(&[0, 0, 0, few, any, any])
    }

    /// Where the leg has some frames left to its end, none, or is past it; at times anywhere.
    fn draw_position(&mut self, leg: &mut Leg) {
        let left = self.random.below(48);
        let half = (1_i64 << 31) / i64::from(leg.sizes.rate);
        // Half a frame off is where the interval's rounding turns.
        let off = self.random.pick(&[0, 0, 0, half, half + 1, -half, -half - 1]);
        let near = end_of(leg) - leg.sizes.time_of(left) + off;
        let any = self.random.of_any_size(48) as i64;
        let small = self.random.of_any_size(32) as i64;
        let below = -(self.random.of_any_size(20) as i64);
        let position = self.random.pick(&[0, near, near, near, near, small, any, below]);
        leg.position = self.beside(position.clamp(-1 << 19, 1 << 48)).min(1 << 48);

        // The voice gets to the loop's start just as the loop ends: it plays on.
        if let (Some((start, _)), Some(active), 0) = (leg.loop_points, leg.active, self.random.below(4)) {
            leg.voices[active].1 = frames_in(leg.sizes, start).saturating_sub(left);
        }
    }

    fn events(&mut self, sizes: Sizes) -> Vec<Record> {
        let count = self.random.pick(&[0, 0, 0, 1, 2, 3, 8, PLACES]);
        let drawn = (0..count).map(|_| self.record());
        let mut events: Vec<Record> = drawn.filter(|event| admissible(sizes, event)).collect();
        events.sort_by_key(|event| event.time);
        events
    }

    /// One clause of "A leg is damaged unless": at its edge, where the leg stays sound, or past it.
    fn set_to_an_edge(&mut self, leg: &mut Leg) {
        let voice = self.random.below(2) as usize;
        let random = &mut self.random;

        match random.below(20) {
            0 => leg.sizes.rate = random.pick(&[0, 7_999, 8_000, 96_000, 96_001]),
            1 => leg.sizes.channels = random.pick(&[0, 1, 2, 3, 255]),
            2 => leg.sizes.frames = random.pick(&[4_194_304, 4_194_305, u32::MAX]),
            3 => leg.sizes.fade = random.pick(&[4_800, 4_801, u32::MAX]),
            4 => leg.active = random.pick(&[None, Some(0), Some(1)]),
            5 => leg.voices[voice].0 = self.any_phase(),
            6 | 18 => self.set_fade_position(leg, voice),
            7 | 16 => leg.voices[voice].1 = random.pick(&[1 << 39, (1 << 39) + 1, 1 << 40, (1 << 40) + 1, u64::MAX]),
            8 => leg.completed = random.pick(&[1 << 27, (1 << 27) + 1, u64::MAX]),
            9 => leg.position = random.pick(&[-1 << 20, (-1 << 20) - 1, i64::MIN]),
            10 | 17 => leg.position = random.pick(&[1 << 48, (1 << 48) + 1, 1 << 49, (1 << 49) + 1, i64::MAX]),
            11 => leg.start_position = random.pick(&[0, -1, LAST_POSITION, LAST_POSITION + 1, i64::MIN, i64::MAX]),
            12 => leg.loop_points = Some(self.edge_points()),
            13 => self.set_count(leg),
            14 => self.set_order(leg),
            _ => self.set_event(leg),
        }
    }

    fn any_phase(&mut self) -> VoicePhase {
        let phases = [VoicePhase::Stopped, VoicePhase::FadingIn(0), VoicePhase::Playing, VoicePhase::FadingOut(0)];
        self.random.pick(&phases)
    }

    fn set_fade_position(&mut self, leg: &mut Leg, voice: usize) {
        let fade = leg.sizes.fade as usize;
        let place = self.random.pick(&[fade.saturating_sub(1), fade, fade + 1, usize::MAX]);
        leg.voices[voice].0 = match leg.voices[voice].0 {
            VoicePhase::FadingIn(_) | VoicePhase::Playing => VoicePhase::FadingIn(place),
            VoicePhase::FadingOut(_) | VoicePhase::Stopped => VoicePhase::FadingOut(place),
        };
    }

    fn edge_points(&mut self) -> (i64, i64) {
        let shortest = self.shortest_loop();
        let last = LAST_POSITION;
        self.random.pick(&[
            (0, shortest),
            (0, shortest - 1),
            (last - shortest, last),
            (last - shortest + 1, last + 1),
            (-1, shortest),
            (5, 5),
            (i64::MIN, i64::MAX),
            (i64::MAX, i64::MIN),
        ])
    }

    fn set_count(&mut self, leg: &mut Leg) {
        let last = leg.events.last().map_or(0, |event| event.time);
        leg.events.resize(PLACES, Record::new(STOP, last, 0, 0));
        leg.count = self.random.pick(&[16, 16, 17, 255]);
    }

    fn set_order(&mut self, leg: &mut Leg) {
        let time = 1 + self.random.of_any_size(47) as i64;
        let other = time + self.random.pick(&[-1, 0, 0]);
        leg.events = vec![Record::new(STOP, time, 0, 0), Record::new(START, other, 0, 0)];
        leg.count = 2;
    }

    /// One event alone, that some rule takes just so, or refuses.
    fn set_event(&mut self, leg: &mut Leg) {
        let time = self.random.pick(&[-1, 0, LAST_TIME, LAST_TIME + 1, i64::MIN, i64::MAX]);
        let position = self.random.pick(&[-1, 0, LAST_POSITION, LAST_POSITION + 1, i64::MIN, i64::MAX]);
        let (start, end) = self.edge_points();
        let unused = self.random.pick(&[-1, 0, 1]);
        let event = self.random.pick(&[
            Record::new(STOP, time, 0, 0),
            Record::new(START, 0, position, 0),
            Record::new(ENABLE_LOOP, 0, start, end),
            Record::new(START_IMMEDIATE, unused, 0, 0),
            Record::new(CANCEL_ALL, unused, 0, 0),
        ]);
        (leg.events, leg.count) = (vec![event], 1);
    }
}

fn admissible(sizes: Sizes, record: &Record) -> bool {
    record.admissible(sizes.rate.into(), sizes.fade.into()).is_ok()
}

fn frames_in(sizes: Sizes, time: i64) -> u64 {
    Timestamp::from_units(time).as_samples(sizes.rate as usize).round() as u64
}

/// E, or some time past all blocks where it may not fit.
fn end_of(leg: &Leg) -> i64 {
    let rate = leg.sizes.rate as usize;
    let Some((start, end)) = leg.loop_points else {
        return leg.sizes.time_of(leg.sizes.frames.into());
    };
    let frames = |time: i64| Timestamp::from_units(time).as_samples(rate);
    let samples = frames(end - leg.start_position) + frames(end - start) * leg.completed as f64;
    if samples / rate as f64 > 1e9 {
        return 1 << 50;
    }
    Timestamp::from_samples(samples, rate).units()
}
