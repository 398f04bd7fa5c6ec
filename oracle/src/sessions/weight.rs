//! Which blocks the Rust is not asked for: those where E might not fit 64 bits, which panics there, and those that
//! might catch up by very many passes, which the Rust takes one by one.

use crate::commands::{Record, ENABLE_LOOP, START, START_IMMEDIATE};
use crate::leg::Leg;

const MOST_PASSES: i64 = 20_000;
const FITS: i128 = 1 << 62;

/// What a sound leg may come to in blocks from a start over so many units, taken at its worst.
struct Worst {
    loops: Vec<(i64, i64)>,
    starts: i64,
    position: i64,
    start_position: i64,
    completed: i64,
}

pub(super) fn is_heavy(leg: &Leg, start: i64, span: i64) -> bool {
    let worst = Worst::of(leg, start, span);
    let passes: i64 = worst.loops.iter().map(|points| worst.passes(*points)).sum();
    let passes = passes * (1 + worst.starts);
    let completed = i128::from(leg.completed) + i128::from(passes) + 1;
    let most = worst.loops.iter().map(|(start, end)| i128::from(end - start)).max().unwrap_or(0);
    passes > MOST_PASSES || (1 << 43) + most * completed > FITS
}

impl Worst {
    fn of(leg: &Leg, start: i64, span: i64) -> Self {
        let due: Vec<&Record> = leg.events.iter().filter(|event| event.time < start + span).collect();
        let of_kind = |kind| due.iter().filter(move |event| event.kind == kind);
        let late = of_kind(START).map(|event| start + span - event.time).max().unwrap_or(0);
        let starts = of_kind(START).count() + of_kind(START_IMMEDIATE).count();

        Self {
            loops: leg.loop_points.into_iter().chain(of_kind(ENABLE_LOOP).map(|e| (e.first, e.second))).collect(),
            starts: starts as i64,
            position: (leg.position + span).max(late).max(span),
            start_position: of_kind(START).map(|event| event.first).max().unwrap_or(0).max(leg.start_position),
            // A start counts from 0 again.
            completed: if starts > 0 { 0 } else { leg.completed as i64 },
        }
    }

    fn passes(&self, (start, end): (i64, i64)) -> i64 {
        let turns = (self.position + self.start_position - end) / (end - start);
        (turns - self.completed).max(0) + 2
    }
}
