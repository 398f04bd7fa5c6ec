//! `tables rt` and `tables antt`: the fade tables for 48,000 and 8,000 frames a second, as `sampler_fade.rs` makes them
//! on this machine, for the port's source and for its definitions.
//!
//!     oracle/target/release/tables rt > crates/sampler_fade/src/tables.rt
//!     oracle/target/release/tables antt > crates/sampler_fade/specs/Bits.antt

use oracle::effects::sampler::Fade;
use std::fmt::Write as _;
use std::io::{self, ErrorKind, Write as _};
use std::process::ExitCode;
use std::time::Duration;

const RATES: [usize; 2] = [48_000, 8_000];

/// `FADE_LENGTH` of sampler_processor.rs, which is private there.
const FADE_LENGTH: Duration = Duration::from_millis(50);

fn main() -> ExitCode {
    let arguments: Vec<String> = std::env::args().skip(1).collect();

    let text = match arguments.iter().map(String::as_str).collect::<Vec<_>>()[..] {
        ["rt"] => source(),
        ["antt"] => definitions(),
        _ => {
            eprintln!("usage: tables rt | antt");
            return ExitCode::from(2);
        }
    };

    match io::stdout().lock().write_all(text.as_bytes()) {
        Ok(()) => ExitCode::SUCCESS,
        // A reader that has seen enough, such as `head`.
        Err(error) if error.kind() == ErrorKind::BrokenPipe => ExitCode::SUCCESS,
        Err(error) => {
            eprintln!("tables: {error}");
            ExitCode::FAILURE
        }
    }
}

/// The entries' bits, as both languages write a number.
fn bits(rate: usize) -> Vec<String> {
    let fade = Fade::new(FADE_LENGTH, rate);
    let entries = (0..fade.len()).map(|position| fade.value(position).to_bits());
    entries.map(|entry| format!("0x{:04x}_{:04x}", entry >> 16, entry & 0xffff)).collect()
}

/// The constants, one a line, as `rt fmt` lays out an array.
fn source() -> String {
    let mut text = String::from(
        "// The fade tables: what rawdio's `Fade::new` makes of 50 ms at each rate, as the bits of its f32s.\n\
         // Written by `oracle/target/release/tables rt`, and not by hand.\n",
    );

    for rate in RATES {
        let entries = bits(rate);
        write!(text, "\npub const BITS_{rate}: [u32; {}] = [\n", entries.len()).expect("a string takes all");
        entries.iter().for_each(|entry| text.extend(["    ", entry, ",\n"]));
        text.push_str("];\n");
    }

    text
}

/// The same constants as lists, eight a line.
fn definitions() -> String {
    let mut text = String::from(
        "-- \"Tables for 48,000 (2,400 entries) and 8,000 (400) are taken from the Rust's output .., as f32 bits.\" Definitions only.\n\
         -- Written by `oracle/target/release/tables antt`, and not by hand.\n\
         use Rattle.std.specs.Prelude.{ℕ, List, [], ◌∷◌}\n",
    );

    for rate in RATES {
        write!(text, "\nunfoldable pub bits{rate} : List ℕ\nbits{rate} =\n").expect("a string takes all");
        bits(rate).chunks(8).for_each(|row| text.extend(["    ", &row.join(" ∷ "), " ∷\n"]));
        text.push_str("    []\n");
    }

    text
}
