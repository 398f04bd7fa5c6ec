//! What a timestamp or location call answers: document 01's number, and the result of the verbatim method.
//!
//! The files' own arithmetic wraps or panics where document 01 refuses, so a method is called only when nothing is
//! refused. Whether seconds fit is asked of `fixed`; no rounding is done here.

use crate::buffer::{SampleLocation, SampleRange};
use crate::Timestamp;
use fixed::types::I32F32;
use std::cmp::Ordering;

/// The calls, by the op of their rows. The last three of the first group are the leg's own uses of S and T.
#[derive(Clone, Copy, Debug, PartialEq, Eq, Hash)]
#[repr(u8)]
pub enum Op {
    FromSeconds = 0x01,
    FromSamples = 0x02,
    FromBeats = 0x03,
    AsSeconds = 0x04,
    AsSamples = 0x05,
    AsBeats = 0x06,
    IncrementedBySamples = 0x07,
    IncrementedBySeconds = 0x08,
    IncrementedByBeats = 0x09,
    Add = 0x0a,
    Sub = 0x0b,
    Cmp = 0x0c,
    FloorFrames = 0x0d,
    RoundFrames = 0x0e,
    TimeOfFrames = 0x0f,
    OffsetFrames = 0x20,
    OffsetChannels = 0x21,
    ChannelRange = 0x22,
    FrameRange = 0x23,
}

impl Op {
    pub const ALL: [Op; 19] = [
        Op::FromSeconds,
        Op::FromSamples,
        Op::FromBeats,
        Op::AsSeconds,
        Op::AsSamples,
        Op::AsBeats,
        Op::IncrementedBySamples,
        Op::IncrementedBySeconds,
        Op::IncrementedByBeats,
        Op::Add,
        Op::Sub,
        Op::Cmp,
        Op::FloorFrames,
        Op::RoundFrames,
        Op::TimeOfFrames,
        Op::OffsetFrames,
        Op::OffsetChannels,
        Op::ChannelRange,
        Op::FrameRange,
    ];
}

/// A call with its arguments: floats as bits, times as units in two's complement, zero where unused.
#[derive(Clone, Copy, Debug, PartialEq, Eq, Hash)]
pub struct Call {
    pub op: Op,
    pub arguments: [u64; 3],
}

/// "rate out of range"
pub const RATE: u8 = 1;

/// "timestamp input not finite, tempo not above zero, a result (a step's included) that doesn't fit 64 signed bits
/// or, as a float, isn't finite; a location or range sum past 64 bits"
pub const TIMESTAMP: u8 = 15;

/// The 64-bit result, or the number of the refusal.
pub fn answer(call: Call) -> Result<u64, u8> {
    let [a, b, c] = call.arguments;

    // The rate is read first: "Timestamps: 1, 15".
    match call.op {
        Op::FromSeconds => {
            let seconds = float(a)?;
            fitting(seconds)?;
            Ok(units(Timestamp::from_seconds(seconds)))
        }
        Op::FromSamples => {
            let rate = rate(b)?;
            let samples = float(a)?;
            fitting(samples / rate as f64)?;
            Ok(units(Timestamp::from_samples(samples, rate)))
        }
        Op::FromBeats => {
            let (beats, tempo) = (float(a)?, tempo(b)?);
            fitting(beats / (tempo / 60.0))?;
            Ok(units(Timestamp::from_beats(beats, tempo)))
        }
        Op::AsSeconds => finite(time(a).as_seconds()),
        Op::AsSamples => {
            let rate = rate(b)?;
            finite(time(a).as_samples(rate))
        }
        Op::AsBeats => finite(time(a).as_beats(tempo(b)?)),
        Op::IncrementedBySamples => {
            let rate = rate(c)?;
            let count = b as usize;
            let increment = fitting(count as f64 / rate as f64)?;
            fixed(a).checked_add(increment).ok_or(TIMESTAMP)?;
            Ok(units(time(a).incremented_by_samples(count, rate)))
        }
        Op::IncrementedBySeconds => {
            let seconds = float(b)?;
            let increment = fitting(seconds)?;
            fixed(a).checked_add(increment).ok_or(TIMESTAMP)?;
            Ok(units(time(a).incremented_by_seconds(seconds)))
        }
        Op::IncrementedByBeats => {
            let (beats, tempo) = (float(b)?, tempo(c)?);
            let increment = fitting(beats / (tempo / 60.0))?;
            fixed(a).checked_add(increment).ok_or(TIMESTAMP)?;
            Ok(units(time(a).incremented_by_beats(beats, tempo)))
        }
        Op::Add => {
            fixed(a).checked_add(fixed(b)).ok_or(TIMESTAMP)?;
            Ok(units(time(a) + time(b)))
        }
        Op::Sub => {
            fixed(a).checked_sub(fixed(b)).ok_or(TIMESTAMP)?;
            Ok(units(time(a) - time(b)))
        }
        Op::Cmp => Ok(match time(a).cmp(&time(b)) {
            Ordering::Less => 0,
            Ordering::Equal => 1,
            Ordering::Greater => 2,
        }),

        // The expressions are those of event_processor.rs and sampler_processor.rs; a leg's rate is in range.
        Op::FloorFrames => Ok(time(a).as_samples(rate(b)?).floor() as usize as u64),
        Op::RoundFrames => Ok(time(a).as_samples(rate(b)?).round() as usize as u64),
        Op::TimeOfFrames => Ok(units(Timestamp::from_samples(a as f64, rate(b)?))),

        Op::OffsetFrames => {
            a.checked_add(b).ok_or(TIMESTAMP)?;
            Ok(SampleLocation::frame(a as usize).offset_frames(b as usize).frame as u64)
        }
        Op::OffsetChannels => {
            a.checked_add(b).ok_or(TIMESTAMP)?;
            Ok(SampleLocation::channel(a as usize).offset_channels(b as usize).channel as u64)
        }
        Op::ChannelRange => {
            a.checked_add(b).ok_or(TIMESTAMP)?;
            Ok(SampleRange::new(a as usize, 0, b as usize, 0).channel_range().end as u64)
        }
        Op::FrameRange => {
            a.checked_add(b).ok_or(TIMESTAMP)?;
            Ok(SampleRange::new(0, a as usize, 0, b as usize).frame_range().end as u64)
        }
    }
}

fn rate(argument: u64) -> Result<usize, u8> {
    match argument {
        8_000..=96_000 => Ok(argument as usize),
        _ => Err(RATE),
    }
}

fn float(argument: u64) -> Result<f64, u8> {
    let value = f64::from_bits(argument);
    value.is_finite().then_some(value).ok_or(TIMESTAMP)
}

fn tempo(argument: u64) -> Result<f64, u8> {
    let tempo = float(argument)?;
    (tempo > 0.0).then_some(tempo).ok_or(TIMESTAMP)
}

/// Seconds as `fixed` rounds them, where it says that they fit.
fn fitting(seconds: f64) -> Result<I32F32, u8> {
    // A step may have made them infinite or NaN, which is refused before `fixed` is asked.
    let seconds = float(seconds.to_bits())?;
    I32F32::checked_from_num(seconds).ok_or(TIMESTAMP)
}

fn finite(result: f64) -> Result<u64, u8> {
    Ok(float(result.to_bits())?.to_bits())
}

fn fixed(argument: u64) -> I32F32 {
    I32F32::from_bits(argument as i64)
}

fn time(argument: u64) -> Timestamp {
    Timestamp::from_units(argument as i64)
}

fn units(time: Timestamp) -> u64 {
    time.units() as u64
}
