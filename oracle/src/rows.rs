//! A list of answers as text: every row, comments too, is 74 bytes with its newline.

use crate::answers::{answer, Call};
use crate::commands::{Queue, Record};
use crate::sequences::{Sequence, Step};
use std::io::{Result, Write};

/// The ops of a sequence's rows.
const NEW: u8 = 0x30;
const COMMAND: u8 = 0x31;
const TAKE: u8 = 0x32;

pub fn write_comment(out: &mut dyn Write, words: &str) -> Result<()> {
    let row = format!("# {words}");
    assert!(row.is_ascii() && row.len() <= 73, "comment too long: {words}");
    writeln!(out, "{row:<73}")
}

fn write_row(out: &mut dyn Write, op: u8, arguments: [u64; 3], number: u8, result: u64) -> Result<()> {
    let [a, b, c] = arguments;
    writeln!(out, "{op:02x} {a:016x} {b:016x} {c:016x} {number:02x} {result:016x}")
}

pub fn write_answer(out: &mut dyn Write, call: Call) -> Result<()> {
    // "A refusal returns [..] zeros"
    let (number, result) = match answer(call) {
        Ok(result) => (0, result),
        Err(number) => (number, 0),
    };
    write_row(out, call.op as u8, call.arguments, number, result)
}

pub fn write_sequence(out: &mut dyn Write, sequence: &Sequence) -> Result<()> {
    let mut queue = Queue::new(sequence.rate, sequence.fade);
    write_row(out, NEW, [sequence.rate, sequence.fade, 0], 0, 0)?;

    for step in &sequence.steps {
        match step {
            Step::Command(record) => write_command(out, &mut queue, record)?,
            Step::Take(end) => write_take(out, &mut queue, *end).map(|_| ())?,
            Step::Drain => while write_take(out, &mut queue, i64::MAX)? {},
        }
    }

    Ok(())
}

fn write_command(out: &mut dyn Write, queue: &mut Queue, record: &Record) -> Result<()> {
    let number = queue.submit(record);
    let arguments = [record.time, record.first, record.second].map(|field| field as u64);
    let form = u64::from(record.length) << 16 | u64::from(record.kind);
    write_row(out, COMMAND, arguments, number, form)
}

/// Whether there was one to take.
fn write_take(out: &mut dyn Write, queue: &mut Queue, end: i64) -> Result<bool> {
    let taken = queue.take_before(end);
    let Record { kind, time, first, second, .. } = taken.unwrap_or(Record::new(0, 0, 0, 0));
    write_row(out, TAKE, [end, first, second].map(|field| field as u64), kind as u8, time as u64)?;
    Ok(taken.is_some())
}
