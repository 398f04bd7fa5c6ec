//! "Numbers a call may answer", for a leg: 0 is `Ok`. Straight from document 01; the Rust refuses nothing.

use crate::commands::{Record, ENABLE_LOOP, PLACES};
use crate::effects::sampler::VoicePhase;
use crate::leg::{Leg, Sizes};

pub const RATE: u8 = 1;
pub const CHANNELS: u8 = 2;
pub const RECORDING: u8 = 3;
pub const FADE: u8 = 4;
pub const BLOCK: u8 = 5;
pub const OUTPUT: u8 = 6;
pub const BLOCK_START: u8 = 7;
pub const FAR: u8 = 8;
pub const DAMAGED: u8 = 14;

pub const MOST_FRAMES: u32 = 4_194_304;
pub const MOST_FADE: u32 = 4_800;
pub const MOST_BLOCK: u16 = 4_096;

/// "Making a leg: 1, 2, 3, 4."
pub fn making(sizes: &Sizes) -> Result<(), u8> {
    refuse(!(8_000..=96_000).contains(&sizes.rate), RATE)?;
    refuse(!is_channel_count(sizes.channels), CHANNELS)?;
    refuse(sizes.frames > MOST_FRAMES, RECORDING)?;
    refuse(sizes.fade > MOST_FADE, FADE)
}

/// "Command: 14, 13, 10, 11, 12, 9."
pub fn command(leg: &Leg, record: &Record) -> Result<(), u8> {
    refuse(is_damaged(leg), DAMAGED)?;
    record.taken(leg.sizes.rate.into(), leg.sizes.fade.into(), leg.events.len())
}

/// What a render is lent, but for the output's entries.
#[derive(Clone, Copy, Debug)]
pub struct Lent {
    pub recording: usize,
    pub fade: usize,
    pub channels: u8,
    pub start: i64,
    pub frames: u16,
}

/// "Render: 14, 4, 3, 2, 5, 7, 8, 6."
pub fn render(leg: &Leg, lent: &Lent, output: &[f32]) -> Result<(), u8> {
    let Sizes { channels, frames, fade, .. } = leg.sizes;
    refuse(is_damaged(leg), DAMAGED)?;
    refuse(lent.fade > MOST_FADE as usize || lent.fade != fade as usize, FADE)?;
    refuse(lent.recording != usize::from(channels) * frames as usize, RECORDING)?;
    refuse(!is_channel_count(lent.channels), CHANNELS)?;
    let entries = usize::from(lent.channels) * usize::from(lent.frames);
    refuse(lent.frames > MOST_BLOCK || output.len() != entries, BLOCK)?;
    refuse(!(0..=1 << 48).contains(&lent.start), BLOCK_START)?;
    refuse(is_far(leg), FAR)?;
    refuse(!output.iter().all(|entry| entry.abs() <= 65_536.0), OUTPUT)
}

fn refuse(when: bool, number: u8) -> Result<(), u8> {
    if when {
        Err(number)
    } else {
        Ok(())
    }
}

fn is_channel_count(channels: u8) -> bool {
    matches!(channels, 1 | 2)
}

/// "position above 2^48 units, or a voice that isn't Stopped above 2^39 frames"
fn is_far(leg: &Leg) -> bool {
    let sounding = leg.voices.iter().filter(|(phase, _)| *phase != VoicePhase::Stopped);
    leg.position > 1 << 48 || sounding.into_iter().any(|(_, position)| *position > 1 << 39)
}

/// "A leg is damaged unless"
pub fn is_damaged(leg: &Leg) -> bool {
    let sound = making(&leg.sizes).is_ok()
        && names_the_active(leg)
        && leg.voices.iter().all(|(phase, position)| fades(*phase, leg.sizes.fade) && *position <= 1 << 40)
        && leg.completed <= 1 << 27
        && (-(1 << 20)..=1 << 49).contains(&leg.position)
        && (0..=1 << 42).contains(&leg.start_position)
        && leg.loop_points.is_none_or(|(start, end)| passes(leg, &Record::new(ENABLE_LOOP, 0, start, end)))
        && usize::from(leg.count) <= PLACES
        && leg.events.iter().all(|event| passes(leg, event))
        && leg.events.is_sorted_by_key(|event| event.time);
    !sound
}

/// "active names a voice that is FadingIn or Playing while the other is Stopped or FadingOut, or is none and no voice
/// is FadingIn or Playing"
fn names_the_active(leg: &Leg) -> bool {
    let plays = leg.voices.map(|(phase, _)| matches!(phase, VoicePhase::FadingIn(_) | VoicePhase::Playing));
    match leg.active {
        None => plays == [false, false],
        Some(0) => plays == [true, false],
        Some(_) => plays == [false, true],
    }
}

/// "fade positions are below F, or 0 when F is 0"
fn fades(phase: VoicePhase, fade: u32) -> bool {
    match phase {
        VoicePhase::FadingIn(place) | VoicePhase::FadingOut(place) => place < (fade as usize).max(1),
        VoicePhase::Stopped | VoicePhase::Playing => true,
    }
}

fn passes(leg: &Leg, record: &Record) -> bool {
    record.admissible(leg.sizes.rate.into(), leg.sizes.fade.into()).is_ok()
}
