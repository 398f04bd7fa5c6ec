//! Trials as they stand in a file: read a step at a time, and written.

use crate::leg::{Leg, Sizes, LEG_BYTES};
use std::fmt;
use std::io::{self, ErrorKind, Read};

pub const MARK: [u8; 4] = *b"TRL1";

pub const MOST_RECORDING: u32 = 524_288;
pub const MOST_TABLE: u32 = 8_192;
pub const MOST_RECORD: u16 = 64;
pub const MOST_OUTPUT: u16 = 16_384;
pub const MOST_RUN_FRAMES: u16 = 4_096;

pub const COMMAND: u8 = 1;
pub const BLOCK: u8 = 2;
pub const LEG: u8 = 3;
pub const BLOCKS: u8 = 4;

/// All of a trial that comes before its steps.
#[derive(Clone, Debug)]
pub struct Head {
    pub sizes: Sizes,
    /// The output's.
    pub channels: u8,
    pub recording: Vec<f32>,
    pub fade: Vec<f32>,
    pub steps: u32,
}

#[derive(Clone, Debug)]
pub enum Step {
    Command(Vec<u8>),
    Block { start: i64, frames: u16, output: Vec<f32> },
    Leg(Box<Leg>),
    Blocks { start: i64, frames: u16, count: u32 },
}

#[derive(Clone, Debug)]
pub struct Trial {
    pub head: Head,
    pub steps: Vec<Step>,
}

/// Why no more is read.
#[derive(Debug)]
pub enum Fault {
    /// "trial" or "step", and the offset of its first byte.
    Malformed(&'static str, u64),
    Io(io::Error),
}

impl fmt::Display for Fault {
    fn fmt(&self, f: &mut fmt::Formatter) -> fmt::Result {
        match self {
            Fault::Malformed(what, at) => write!(f, "malformed {what} at byte {at}"),
            Fault::Io(error) => error.fmt(f),
        }
    }
}

impl From<io::Error> for Fault {
    fn from(error: io::Error) -> Self {
        Fault::Io(error)
    }
}

/// A file, and how far it was read.
pub struct Source<'a> {
    input: &'a mut dyn Read,
    offset: u64,
}

impl<'a> Source<'a> {
    pub fn new(input: &'a mut dyn Read) -> Self {
        Self { input, offset: 0 }
    }

    /// None where the file ends, as it may between two trials.
    pub fn head(&mut self) -> Result<Option<Head>, Fault> {
        let at = self.offset;
        self.read_head().map_err(|error| fault("trial", at, error))
    }

    pub fn step(&mut self) -> Result<Step, Fault> {
        let at = self.offset;
        self.read_step().map_err(|error| fault("step", at, error))
    }

    fn read_head(&mut self) -> io::Result<Option<Head>> {
        let mut mark = Vec::new();
        self.offset += self.input.take(4).read_to_end(&mut mark)? as u64;
        if mark.is_empty() {
            return Ok(None);
        }
        check(mark == MARK)?;

        let (rate, frames, fade) = (self.u32()?, self.u32()?, self.u32()?);
        let [channels, output_channels] = self.bytes()?;
        let (recording, table, steps) = (self.u32()?, self.u32()?, self.u32()?);
        check(recording <= MOST_RECORDING && table <= MOST_TABLE)?;

        Ok(Some(Head {
            sizes: Sizes { rate, channels, frames, fade },
            channels: output_channels,
            recording: self.entries(recording as usize)?,
            fade: self.entries(table as usize)?,
            steps,
        }))
    }

    fn read_step(&mut self) -> io::Result<Step> {
        let [kind] = self.bytes()?;
        match kind {
            COMMAND => self.command(),
            BLOCK => self.block(),
            LEG => self.leg(),
            BLOCKS => self.blocks(),
            _ => Err(ErrorKind::InvalidData.into()),
        }
    }

    fn command(&mut self) -> io::Result<Step> {
        let length = self.u16()?;
        check(length <= MOST_RECORD)?;
        Ok(Step::Command(self.many(length.into())?))
    }

    fn block(&mut self) -> io::Result<Step> {
        let (start, frames, entries) = (self.i64()?, self.u16()?, self.u16()?);
        check(entries <= MOST_OUTPUT)?;
        Ok(Step::Block { start, frames, output: self.entries(entries.into())? })
    }

    fn leg(&mut self) -> io::Result<Step> {
        let bytes: [u8; LEG_BYTES] = self.bytes()?;
        let leg = Leg::from_bytes(&bytes).ok_or(ErrorKind::InvalidData)?;
        Ok(Step::Leg(Box::new(leg)))
    }

    fn blocks(&mut self) -> io::Result<Step> {
        let (start, frames, count) = (self.i64()?, self.u16()?, self.u32()?);
        check(frames <= MOST_RUN_FRAMES)?;
        Ok(Step::Blocks { start, frames, count })
    }

    fn bytes<const N: usize>(&mut self) -> io::Result<[u8; N]> {
        let mut bytes = [0; N];
        self.input.read_exact(&mut bytes)?;
        self.offset += N as u64;
        Ok(bytes)
    }

    fn many(&mut self, count: usize) -> io::Result<Vec<u8>> {
        let mut bytes = vec![0; count];
        self.input.read_exact(&mut bytes)?;
        self.offset += count as u64;
        Ok(bytes)
    }

    fn entries(&mut self, count: usize) -> io::Result<Vec<f32>> {
        let bytes = self.many(4 * count)?;
        Ok(bytes.chunks_exact(4).map(|entry| f32::from_le_bytes(entry.try_into().expect("four bytes"))).collect())
    }

    fn u16(&mut self) -> io::Result<u16> {
        self.bytes().map(u16::from_le_bytes)
    }

    fn u32(&mut self) -> io::Result<u32> {
        self.bytes().map(u32::from_le_bytes)
    }

    fn i64(&mut self) -> io::Result<i64> {
        self.bytes().map(i64::from_le_bytes)
    }
}

fn check(good: bool) -> io::Result<()> {
    if good {
        Ok(())
    } else {
        Err(ErrorKind::InvalidData.into())
    }
}

/// Cut short or against a limit is the file's fault; the rest is the machine's.
fn fault(what: &'static str, at: u64, error: io::Error) -> Fault {
    match error.kind() {
        ErrorKind::InvalidData | ErrorKind::UnexpectedEof => Fault::Malformed(what, at),
        _ => Fault::Io(error),
    }
}

impl Trial {
    pub fn to_bytes(&self) -> Vec<u8> {
        let mut bytes = self.head.to_bytes();
        self.steps.iter().for_each(|step| step.write(&mut bytes));
        bytes
    }
}

impl Head {
    pub fn to_bytes(&self) -> Vec<u8> {
        let Sizes { rate, channels, frames, fade } = self.sizes;
        let mut bytes = MARK.to_vec();
        [rate, frames, fade].iter().for_each(|size| bytes.extend(size.to_le_bytes()));
        bytes.extend([channels, self.channels]);
        let counts = [self.recording.len() as u32, self.fade.len() as u32, self.steps];
        counts.iter().for_each(|count| bytes.extend(count.to_le_bytes()));
        write_entries(&mut bytes, &self.recording);
        write_entries(&mut bytes, &self.fade);
        bytes
    }
}

impl Step {
    pub fn write(&self, bytes: &mut Vec<u8>) {
        match self {
            Step::Command(record) => {
                bytes.push(COMMAND);
                bytes.extend((record.len() as u16).to_le_bytes());
                bytes.extend(record);
            }
            Step::Block { start, frames, output } => {
                bytes.push(BLOCK);
                bytes.extend(start.to_le_bytes());
                bytes.extend(frames.to_le_bytes());
                bytes.extend((output.len() as u16).to_le_bytes());
                write_entries(bytes, output);
            }
            Step::Leg(leg) => {
                bytes.push(LEG);
                bytes.extend(leg.to_bytes());
            }
            Step::Blocks { start, frames, count } => {
                bytes.push(BLOCKS);
                bytes.extend(start.to_le_bytes());
                bytes.extend(frames.to_le_bytes());
                bytes.extend(count.to_le_bytes());
            }
        }
    }
}

/// What is given is written bit by bit, a NaN's pattern too.
fn write_entries(bytes: &mut Vec<u8>, entries: &[f32]) {
    entries.iter().for_each(|entry| bytes.extend(entry.to_bits().to_le_bytes()));
}
