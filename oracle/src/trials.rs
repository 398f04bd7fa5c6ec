//! Trials answered: what the file asks of a leg, and what is written for it.

use crate::leg::Sizes;
use crate::leg_run::{bits, LegRun};
use crate::trial_file::{Fault, Head, Source, Step, Trial};
use std::io::{self, Read, Write};

/// Answers trial after trial, each step before the next is read, until the file ends or is malformed.
pub fn answer_all(input: &mut dyn Read, out: &mut dyn Write) -> Result<(), Fault> {
    let mut source = Source::new(input);

    while let Some(head) = source.head()? {
        let mut run = begin(&head, out)?;

        for _ in 0..head.steps {
            let step = source.step()?;
            answer(&mut run, step, out)?;
        }
    }

    Ok(())
}

/// What a file with this one trial is answered with.
pub fn answers(trial: &Trial) -> Vec<u8> {
    let mut out = Vec::new();
    answer_all(&mut trial.to_bytes().as_slice(), &mut out).expect("a trial is well formed");
    out
}

impl Trial {
    /// The same blocks with a step for each: a run's are written out, to the one that is refused.
    pub fn in_single_blocks(&self) -> Trial {
        let (mut run, _) = LegRun::new(self.head.sizes, self.head.channels, &self.head.recording, &self.head.fade);
        let mut steps = Vec::new();

        for step in &self.steps {
            match step {
                Step::Blocks { start, frames, count } => {
                    let asked = run.render_blocks(*start, *frames, *count).rendered.saturating_add(1);
                    steps.extend(self.singles(*start, *frames, asked.min((*count).into()), run.leg().sizes));
                }
                other => {
                    answer(&mut run, other.clone(), &mut io::sink()).expect("a sink takes all");
                    steps.push(other.clone());
                }
            }
        }

        Trial { head: Head { steps: steps.len() as u32, ..self.head.clone() }, steps }
    }

    fn singles(&self, start: i64, frames: u16, count: u64, sizes: Sizes) -> impl Iterator<Item = Step> {
        // With more channels than two the length is not looked at.
        let entries = usize::from(self.head.channels.min(2)) * usize::from(frames);
        let apart = if count > 1 { sizes.time_of(frames.into()) } else { 0 };
        (0..count as i64).map(move |block| Step::Block {
            start: start + block * apart,
            frames,
            output: vec![0.0; entries],
        })
    }
}

fn begin(head: &Head, out: &mut dyn Write) -> io::Result<LegRun> {
    let (run, number) = LegRun::new(head.sizes, head.channels, &head.recording, &head.fade);
    out.write_all(&[number])?;
    Ok(run)
}

fn answer(run: &mut LegRun, step: Step, out: &mut dyn Write) -> io::Result<()> {
    match step {
        Step::Command(record) => out.write_all(&[run.submit(&record)])?,
        Step::Block { start, frames, mut output } => {
            let (number, pieces) = run.render(start, frames, &mut output);
            out.write_all(&[number])?;
            out.write_all(&pieces.to_le_bytes())?;
            output.iter().try_for_each(|entry| out.write_all(&bits(*entry).to_le_bytes()))?;
        }
        Step::Leg(leg) => {
            run.hold(&leg);
            out.write_all(&[0])?;
        }
        Step::Blocks { start, frames, count } => {
            let blocks = run.render_blocks(start, frames, count);
            out.write_all(&[blocks.number])?;
            let counts = [blocks.rendered, blocks.pieces, blocks.sum];
            counts.iter().try_for_each(|count| out.write_all(&count.to_le_bytes()))?;
        }
    }

    out.write_all(&run.leg().to_bytes())
}
