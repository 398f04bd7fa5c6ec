//! The fixed sequences that come before the random ones: every refusal's edge, full queues, ties and ends.

use crate::commands::{Record, CANCEL_ALL, CANCEL_LOOP, ENABLE_LOOP, PLACES, START, START_IMMEDIATE, STOP};
use crate::sequences::{Sequence, Step};
use crate::Timestamp;

const LAST_TIME: i64 = 1 << 48;
const LAST_POSITION: i64 = 1 << 42;

const RATES: [u64; 4] = [8_000, 44_100, 48_000, 96_000];
const FADES: [u64; 6] = [0, 63, 64, 65, 2_400, 4_800];

/// Rates and fade lengths at which some loop meets rule 12 with nothing to spare.
const EXACT: [(u64, u64); 4] = [(8_192, 0), (65_536, 4_800), (48_000, 188), (8_000, 563)];

/// Points that any loop rule takes.
const LONG_LOOP: (i64, i64) = (0, LAST_POSITION);

pub fn edge_sequences() -> Vec<Sequence> {
    let mut sequences: Vec<Sequence> =
        [times(), positions(), lengths(), kinds(), unused_fields()].map(one_by_one).into();
    sequences.extend([order_of_refusals(), full_queue(), cleared_queue(), ties(), ends()].map(plain));

    for rate in RATES {
        sequences.extend(FADES.map(|fade| loops(rate, fade)));
    }

    sequences.extend(EXACT.map(|(rate, fade)| loops(rate, fade)));
    sequences
}

fn plain(steps: Vec<Step>) -> Sequence {
    Sequence { rate: 48_000, fade: 2_400, steps }
}

/// Each record on an empty queue: what is taken comes back as it was given, what is refused is not there.
fn each_alone(records: Vec<Record>) -> Vec<Step> {
    records.into_iter().flat_map(|record| [Step::Command(record), Step::Take(i64::MAX)]).collect()
}

fn one_by_one(records: Vec<Record>) -> Sequence {
    plain(each_alone(records))
}

fn whole(kind: u16, time: i64) -> Record {
    let (first, second) = match kind {
        START => (0x0102_0304_0506 & (LAST_POSITION - 1), 0),
        ENABLE_LOOP => LONG_LOOP,
        _ => (0, 0),
    };
    Record::new(kind, time, first, second)
}

/// About a limit, and where a byte order or a sign goes wrong.
fn about(limit: i64) -> [i64; 12] {
    let mixed = 0x0807_0605_0403_0201 & (limit - 1);
    [0, 1, 255, 256, mixed, limit - 1, limit, limit + 1, i64::MAX, -1, -limit, i64::MIN]
}

fn times() -> Vec<Record> {
    let kinds = [START, STOP, ENABLE_LOOP, CANCEL_LOOP, START_IMMEDIATE, CANCEL_ALL];
    kinds.iter().flat_map(|kind| about(LAST_TIME).map(|time| whole(*kind, time))).collect()
}

fn positions() -> Vec<Record> {
    let starts = about(LAST_POSITION).map(|position| Record::new(START, 7, position, 0));
    let loop_starts = about(LAST_POSITION).map(|position| Record::new(ENABLE_LOOP, 7, position, LAST_POSITION));
    let loop_ends = about(LAST_POSITION).map(|position| Record::new(ENABLE_LOOP, 7, 0, position));
    let both = [(-1, -1), (LAST_POSITION + 1, LAST_POSITION + 1), (i64::MIN, i64::MAX), (i64::MAX, i64::MIN)];
    let both = both.map(|(start, end)| Record::new(ENABLE_LOOP, 7, start, end));

    starts.into_iter().chain(loop_starts).chain(loop_ends).chain(both).collect()
}

fn lengths() -> Vec<Record> {
    let kinds = [START, START_IMMEDIATE, STOP, ENABLE_LOOP, CANCEL_LOOP, CANCEL_ALL];
    let mut records = Vec::new();

    for length in [0, 1, 2, 10, 18, 25, 26, 27, 28, 52, 64] {
        records.extend(kinds.map(|kind| Record { length, ..whole(kind, 0) }));
    }

    records
}

/// Of every number that is a kind, and some that are not, among them the kinds with their bytes turned.
fn kinds() -> Vec<Record> {
    let kinds = (0..=8).chain([255, 256, 257, 512, 768, 1_024, 1_280, 1_536, 32_769, 65_535]);
    kinds.map(|kind| Record::new(kind, 0, 0, 0)).collect()
}

/// A bit in each field that a kind does not use.
fn unused_fields() -> Vec<Record> {
    let mut records = Vec::new();

    for kind in [START, START_IMMEDIATE, STOP, ENABLE_LOOP, CANCEL_LOOP, CANCEL_ALL] {
        let [time, first, second] = Record::used(kind).expect("a kind");
        let record = whole(kind, 0);

        for bit in [0, 7, 8, 31, 32, 47, 62, 63].map(|place| 1_i64 << place) {
            records.extend((!time).then_some(Record { time: bit, ..record }));
            records.extend((!first).then_some(Record { first: bit, ..record }));
            records.extend((!second).then_some(Record { second: bit, ..record }));
        }
    }

    records
}

/// Sixteen that are told apart by their positions, two of each time, the later times first.
fn sixteen() -> Vec<Step> {
    (0..PLACES as i64).map(|place| Step::Command(Record::new(START, 100 - place / 2, place, 0))).collect()
}

/// "Command: [..] 13, 10, 11, 12, 9": from a record that breaks every rule on, one rule less each time.
fn order_of_refusals() -> Vec<Step> {
    let late = LAST_TIME + 1;
    let far = LAST_POSITION + 1;
    let broken = [
        Record { length: 25, ..Record::new(ENABLE_LOOP, late, far, far) },
        Record::new(7, late, far, far),
        Record::new(START, late, far, 1),
        Record::new(STOP, late, 1, 0),
        Record::new(START_IMMEDIATE, late, 0, 0),
        Record::new(CANCEL_ALL, -1, 0, 0),
        Record::new(ENABLE_LOOP, late, far, far),
        Record::new(START, -1, -1, 0),
        Record::new(ENABLE_LOOP, LAST_TIME, far, far),
        Record::new(ENABLE_LOOP, LAST_TIME, far, 0),
        Record::new(ENABLE_LOOP, LAST_TIME, 0, -1),
        Record::new(ENABLE_LOOP, LAST_TIME, LAST_POSITION, LAST_POSITION),
        Record::new(ENABLE_LOOP, LAST_TIME, LAST_POSITION, 0),
        Record::new(ENABLE_LOOP, LAST_TIME, 0, LAST_POSITION),
    ];

    // With places left, then with none.
    let commands = broken.map(Step::Command);
    let free = commands.into_iter().chain([Step::Drain]);
    free.chain(sixteen()).chain(commands).chain([Step::Drain]).collect()
}

/// "the 16th command is taken, the 17th refused, CancelAll taken", and "A freed place can be used again."
fn full_queue() -> Vec<Step> {
    let kinds = [START, START_IMMEDIATE, STOP, ENABLE_LOOP, CANCEL_LOOP].map(|kind| Step::Command(whole(kind, 0)));
    let mut steps = sixteen();
    steps.extend(kinds);

    // Nothing is due; then one is, and its place is used once.
    steps.extend([Step::Take(93), Step::Command(whole(STOP, 50)), Step::Take(94)]);
    steps.extend([Step::Command(whole(STOP, 95)), Step::Command(whole(STOP, 95)), Step::Drain]);

    // Emptied, the queue takes sixteen again.
    steps.extend(sixteen());
    steps.push(Step::Command(whole(CANCEL_LOOP, 0)));
    steps.extend([Step::Command(whole(CANCEL_ALL, 0)), Step::Take(1), Step::Take(i64::MAX)]);

    // With CancelAll in one place, fifteen are left.
    steps.push(Step::Command(whole(CANCEL_ALL, 0)));
    steps.extend(sixteen());
    steps.push(Step::Drain);
    steps
}

/// "CancelAll empties the queue, then enters it", those that are not due too.
fn cleared_queue() -> Vec<Step> {
    let cancel = Step::Command(whole(CANCEL_ALL, 0));
    let now = Step::Command(whole(START_IMMEDIATE, 0));
    let later = Step::Command(whole(START, LAST_TIME));

    vec![
        cancel,
        Step::Drain,
        now,
        later,
        cancel,
        Step::Drain,
        cancel,
        cancel,
        Step::Drain,
        cancel,
        now,
        later,
        Step::Take(0),
        Step::Take(1),
        Step::Take(1),
        Step::Take(1),
        cancel,
        Step::Drain,
        now,
        Step::Take(0),
        later,
        cancel,
        now,
        Step::Drain,
    ]
}

/// "sorted by time, equal times by submission"
fn ties() -> Vec<Step> {
    let start = |time, position| Step::Command(Record::new(START, time, position, 0));
    let stop = |time| Step::Command(Record::new(STOP, time, 0, 0));
    let mut steps = Vec::new();

    // One time, the positions falling.
    steps.extend((0..PLACES as i64).map(|place| start(5, 100 - place)));
    steps.push(Step::Drain);

    // Three times by turns, with takes in between and equal times received before and after them.
    steps.extend((0..12).map(|place| start(10 + place * 7 % 3, place)));
    steps.extend([Step::Take(11), Step::Take(11), start(10, 20), start(11, 21), Step::Take(12), start(10, 22)]);
    steps.extend([start(12, 23), stop(11), Step::Drain]);

    // All kinds at time 0, twice.
    let kinds = [STOP, START, START_IMMEDIATE, CANCEL_LOOP, ENABLE_LOOP];
    let forwards = kinds.map(|kind| Step::Command(whole(kind, 0)));
    steps.extend(forwards);
    steps.extend(forwards.iter().rev());
    steps.extend([stop(1), Step::Drain]);
    steps
}

/// "the first event with time below that end"
fn ends() -> Vec<Step> {
    let mut steps = vec![Step::Take(i64::MIN), Step::Take(0), Step::Take(i64::MAX)];

    for time in [0, 1, 42_949_672, 1 << 32, LAST_TIME - 1, LAST_TIME] {
        let too_early = [i64::MIN, -1, 0, time - 1, time];
        steps.push(Step::Command(whole(STOP, time)));
        steps.extend(too_early.map(Step::Take));
        steps.extend([Step::Take(time + 1), Step::Take(time + 1)]);
    }

    steps
}

/// Rule 12: "A loop of 64 whole frames with F at most 64 is taken, 63 refused"; M frames with F above 64.
fn loops(rate: u64, fade: u64) -> Sequence {
    let least = fade.max(64);
    let mut points = Vec::new();

    for start in [0, 1, rate + 1] {
        let frames = [63, 64, least - 1, least, least + 1];
        points.extend(frames.map(|frames| (frames_at(start, rate), frames_at(start + frames, rate))));
    }

    // The first length in units that is taken, and the last that is not, at either end of the positions.
    let shortest = ((i64::try_from(least).expect("small") << 32) - (1 << 31) + rate as i64 - 1) / rate as i64;
    for length in [shortest - 1, shortest] {
        points.extend([(0, length), (1, 1 + length), (LAST_POSITION - length, LAST_POSITION)]);
    }

    // Nothing, and backwards.
    points.extend([(5, 5), (shortest, 0), (LAST_POSITION, 0)]);
    points.sort();
    points.dedup();

    let records = points.into_iter().map(|(start, end)| Record::new(ENABLE_LOOP, 7, start, end));
    Sequence { rate, fade, steps: each_alone(records.collect()) }
}

fn frames_at(frames: u64, rate: u64) -> i64 {
    Timestamp::from_samples(frames as f64, rate as usize).units()
}
