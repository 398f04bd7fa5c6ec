//! timestamp.rs, and a way to its units from outside.

mod timestamp {
    include!("../rawdio/src/utility/timestamp.rs");
}

pub use timestamp::Timestamp;

/// The file keeps its raw form to its own crate; tests and vectors are other crates.
impl Timestamp {
    pub fn from_units(units: i64) -> Self {
        Self::from_raw_i64(units)
    }

    pub fn units(&self) -> i64 {
        self.as_raw_i64()
    }
}
