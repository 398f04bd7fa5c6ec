//! What document 01 says of commands, asked of the rules and the queue that the lists use.

use oracle::command_edges::edge_sequences;
use oracle::commands::{Queue, Record, CANCEL_ALL, ENABLE_LOOP, START, STOP};
use oracle::sequences::Step;
use oracle::Timestamp;
use std::collections::HashSet;

/// "A loop of 64 whole frames with F at most 64 is taken, 63 refused"; with F above 64 it is F frames.
#[test]
fn shortest_loop() {
    for rate in [8_000, 44_100, 48_000, 96_000] {
        for (fade, least) in [(0, 64), (64, 64), (65, 65), (400, 400), (4_800, 4_800)] {
            for start in [0, 1, 12_345] {
                let time_of = |frames: u64| Timestamp::from_samples(frames as f64, rate as usize).units();
                let looped = |frames| Record::new(ENABLE_LOOP, 0, time_of(start), time_of(start + frames));
                let mut queue = Queue::new(rate, fade);
                assert_eq!(queue.submit(&looped(least)), 0, "{rate} {fade} {start}");
                assert_eq!(queue.submit(&looped(least - 1)), 12, "{rate} {fade} {start}");
            }
        }
    }
}

/// "the 16th command is taken, the 17th refused, CancelAll taken"
#[test]
fn sixteen_places() {
    let stop = Record::new(STOP, 7, 0, 0);
    let cancel = Record::new(CANCEL_ALL, 0, 0, 0);
    let mut queue = Queue::new(48_000, 2_400);

    assert!((0..16).all(|_| queue.submit(&stop) == 0));
    assert_eq!(queue.submit(&stop), 9);
    assert_eq!(queue.submit(&cancel), 0);
    assert_eq!(queue.take_before(1), Some(cancel));
    assert_eq!(queue.take_before(i64::MAX), None);
}

/// "A freed place can be used again."
#[test]
fn freed_place() {
    let stop = Record::new(STOP, 7, 0, 0);
    let mut queue = Queue::new(48_000, 2_400);

    assert!((0..16).all(|_| queue.submit(&stop) == 0));
    assert_eq!(queue.take_before(7), None);
    assert_eq!(queue.take_before(8), Some(stop));
    assert_eq!(queue.submit(&stop), 0);
    assert_eq!(queue.submit(&stop), 9);
}

/// "The queue is sorted by time, equal times by submission."
#[test]
fn order() {
    let start = |time, position| Record::new(START, time, position, 0);
    let mut queue = Queue::new(48_000, 2_400);

    for (time, position) in [(2, 5), (1, 4), (2, 3), (1, 2), (0, 1)] {
        assert_eq!(queue.submit(&start(time, position)), 0);
    }

    for (time, position) in [(0, 1), (1, 4), (1, 2), (2, 5), (2, 3)] {
        assert_eq!(queue.take_before(3), Some(start(time, position)));
    }
}

#[test]
fn edges_cover_every_number() {
    let mut numbers = HashSet::new();

    for sequence in edge_sequences() {
        let mut queue = Queue::new(sequence.rate, sequence.fade);

        for step in sequence.steps {
            match step {
                Step::Command(record) => {
                    numbers.insert(queue.submit(&record));
                }
                Step::Take(end) => {
                    queue.take_before(end);
                }
                Step::Drain => while queue.take_before(i64::MAX).is_some() {},
            }
        }
    }

    assert_eq!(numbers, HashSet::from([0, 9, 10, 11, 12, 13]));
}
