//! Two programs' answers to the same trials, held against each other field by field.

use crate::leg::fields;
use crate::trial_file::{Step, Trial};
use std::fmt;

/// A field of the answers to a trial. How many bytes each has, the trial alone says.
#[derive(Clone, Debug, PartialEq, Eq)]
pub struct Field {
    /// None for the trial's own number.
    pub step: Option<usize>,
    pub name: String,
    pub size: usize,
}

/// Where two programs' answers part.
#[derive(Clone, Debug, PartialEq, Eq)]
pub struct Difference {
    pub field: Field,
    /// Of the blocks asked for in the session, the first and the last that the step is about.
    pub blocks: Option<(u64, u64)>,
    pub expected: Vec<u8>,
    /// Less than the field, or nothing, where the answers end.
    pub found: Vec<u8>,
}

/// What the answers to a trial say, added up.
#[derive(Clone, Debug, Default, PartialEq, Eq)]
pub struct Totals {
    pub sessions: u64,
    pub steps: u64,
    /// Rendered by steps 2, and by steps 4.
    pub single: u64,
    pub in_runs: u64,
    pub pieces: u64,
    /// How often each number was answered.
    pub numbers: [u64; 16],
}

/// The 64-bit counts that follow a step's number, by name.
fn counts(step: &Step) -> &'static [&'static str] {
    match step {
        Step::Command(_) | Step::Leg(_) => &[],
        Step::Block { .. } => &["pieces"],
        Step::Blocks { .. } => &["blocks rendered", "pieces", "sum of the output's bits"],
    }
}

fn entries(step: &Step) -> usize {
    match step {
        Step::Block { output, .. } => output.len(),
        _ => 0,
    }
}

fn answer_size(step: &Step) -> usize {
    1 + 8 * counts(step).len() + 4 * entries(step) + crate::leg::LEG_BYTES
}

/// How many bytes a trial is answered with.
pub fn answers_size(trial: &Trial) -> usize {
    1 + trial.steps.iter().map(answer_size).sum::<usize>()
}

fn step_fields(index: usize, step: &Step) -> Vec<Field> {
    let mut named = vec![("number".to_string(), 1)];
    named.extend(counts(step).iter().map(|name| (name.to_string(), 8)));
    if let Step::Block { frames, output, .. } = step {
        named.extend((0..output.len()).map(|place| (entry_name(place, *frames), 4)));
    }
    named.extend(fields().into_iter().map(|(name, size)| (format!("leg's {name}"), size)));
    named.into_iter().map(|(name, size)| Field { step: Some(index), name, size }).collect()
}

fn entry_name(place: usize, frames: u16) -> String {
    match usize::from(frames) {
        0 => format!("output entry {place}"),
        frames => format!("output entry {place} (channel {}, frame {})", place / frames, place % frames),
    }
}

/// The first field that differs, if one does.
pub fn difference(trial: &Trial, expected: &[u8], found: &[u8]) -> Option<Difference> {
    let same = expected.iter().zip(found).take_while(|(a, b)| a == b).count();
    if same == expected.len() && same == found.len() {
        return None;
    }

    let (field, at) = field_at(trial, same);
    let part = |bytes: &[u8]| bytes[at.min(bytes.len())..(at + field.size).min(bytes.len())].to_vec();
    let blocks = field.step.and_then(|step| blocks_of(trial, step, expected));
    Some(Difference { blocks, expected: part(expected), found: part(found), field })
}

/// The field that a byte lies in, and where it begins. Bytes past the last are in none of the trial's.
fn field_at(trial: &Trial, byte: usize) -> (Field, usize) {
    let own = Field { step: None, name: "the trial's number".to_string(), size: 1 };
    if byte == 0 {
        return (own, 0);
    }

    let mut at = 1;
    for (index, step) in trial.steps.iter().enumerate() {
        if byte < at + answer_size(step) {
            return field_of_step(index, step, at, byte);
        }
        at += answer_size(step);
    }

    (Field { step: None, name: "past the last answer".to_string(), size: 8 }, at)
}

fn field_of_step(index: usize, step: &Step, at: usize, byte: usize) -> (Field, usize) {
    let mut at = at;
    for field in step_fields(index, step) {
        if byte < at + field.size {
            return (field, at);
        }
        at += field.size;
    }
    unreachable!("the fields make up the step's answer")
}

/// Counted from 0 over steps 2 and the blocks that steps 4 came to.
fn blocks_of(trial: &Trial, step: usize, answers: &[u8]) -> Option<(u64, u64)> {
    let mut first = 0;
    for (index, (asked, answer)) in answered(trial, answers).enumerate() {
        let blocks = match asked {
            Step::Block { .. } => 1,
            Step::Blocks { count, .. } => (word(answer, 1) + 1).min((*count).into()),
            _ => 0,
        };
        if index == step {
            return (blocks > 0).then(|| (first, first + blocks - 1));
        }
        first += blocks;
    }
    None
}

/// Each step with the bytes of its answer.
fn answered<'a>(trial: &'a Trial, answers: &'a [u8]) -> impl Iterator<Item = (&'a Step, &'a [u8])> {
    let mut rest = &answers[1..];
    trial.steps.iter().map(move |step| {
        let (answer, after) = rest.split_at(answer_size(step));
        rest = after;
        (step, answer)
    })
}

fn word(bytes: &[u8], at: usize) -> u64 {
    u64::from_le_bytes(bytes[at..at + 8].try_into().expect("eight bytes"))
}

impl Totals {
    pub fn add(&mut self, trial: &Trial, answers: &[u8]) {
        self.sessions += 1;
        self.steps += trial.steps.len() as u64;
        self.numbers[usize::from(answers[0])] += 1;

        for (step, answer) in answered(trial, answers) {
            self.numbers[usize::from(answer[0])] += 1;
            match step {
                Step::Block { .. } => {
                    self.single += u64::from(answer[0] == 0);
                    self.pieces += word(answer, 1);
                }
                Step::Blocks { .. } => {
                    self.in_runs += word(answer, 1);
                    self.pieces += word(answer, 9);
                }
                _ => (),
            }
        }
    }

    pub fn blocks(&self) -> u64 {
        self.single + self.in_runs
    }

    pub fn refusals(&self) -> u64 {
        self.numbers[1..].iter().sum()
    }
}

impl fmt::Display for Totals {
    fn fmt(&self, f: &mut fmt::Formatter) -> fmt::Result {
        let Totals { sessions, steps, single, in_runs, pieces, numbers } = self;
        write!(f, "{sessions} sessions, {steps} steps, {} blocks ", self.blocks())?;
        write!(f, "({single} single, {in_runs} in runs), {pieces} pieces; numbers")?;
        let numbers: Vec<String> = (0..=14).map(|number| format!("{number}: {}", numbers[number])).collect();
        write!(f, " {}", numbers.join(", "))
    }
}

impl fmt::Display for Difference {
    fn fmt(&self, f: &mut fmt::Formatter) -> fmt::Result {
        if let Some(step) = self.field.step {
            write!(f, "step {step}, ")?;
        }
        match self.blocks {
            Some((first, last)) if first == last => write!(f, "block {first}, ")?,
            Some((first, last)) => write!(f, "blocks {first} to {last}, ")?,
            None => (),
        }
        let size = self.field.size;
        write!(
            f,
            "{}: {} by the Rust, {} by the program",
            self.field.name,
            shown(&self.expected, size),
            shown(&self.found, size)
        )
    }
}

/// A number as its field has it; an output entry as a float and its bits.
fn shown(bytes: &[u8], size: usize) -> String {
    match (bytes.len(), size) {
        (0, _) => "nothing".to_string(),
        (1, 1) => bytes[0].to_string(),
        (4, 4) => {
            let bits = u32::from_le_bytes(bytes.try_into().expect("four bytes"));
            format!("{bits:08x} ({bits}, as a float {})", f32::from_bits(bits))
        }
        (8, 8) => word(bytes, 0).cast_signed().to_string(),
        (given, _) => format!("{given} bytes of {size}"),
    }
}
