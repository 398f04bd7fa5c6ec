//! What a reader of the lists relies on.

use oracle::answers::{answer, Op};
use oracle::edges::edge_calls;
use std::process::Command;

fn list(arguments: &[&str]) -> Vec<u8> {
    let vectors = env!("CARGO_BIN_EXE_vectors");
    Command::new(vectors).args(arguments).output().expect("vectors runs").stdout
}

fn answers(list: &[u8]) -> usize {
    list.chunks(74).filter(|row| row[0] != b'#').count()
}

#[test]
fn every_row_is_74_bytes() {
    let list = list(&["1", "1000", "50"]);
    assert!(list.chunks(74).all(|row| row.iter().position(|byte| *byte == b'\n') == Some(73)));
}

#[test]
fn a_list_has_its_count() {
    assert_eq!(answers(&list(&["1", "1000"])), edge_calls().len() + 1_000);
}

#[test]
fn a_seed_makes_one_list() {
    assert_eq!(list(&["1", "1000", "50"]), list(&["1", "1000", "50"]));
    assert_ne!(list(&["1", "1000"])[74..], list(&["2", "1000"])[74..]);
}

#[test]
fn sequences_come_after_the_calls() {
    let calls = list(&["1", "1000"]);
    assert_eq!(list(&["1", "1000", "0"]), calls);

    // The first row says what the list was made by.
    let both = list(&["1", "1000", "50"]);
    assert!(both[74..].starts_with(&calls[74..]));
    assert!(answers(&both) > answers(&calls));
}

#[test]
fn edges_cover_every_op() {
    for op in Op::ALL {
        assert!(edge_calls().iter().any(|call| call.op == op && answer(*call).is_ok()), "{op:?}");
    }
}
