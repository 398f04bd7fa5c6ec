//! Seven files of rawdio, verbatim, as the oracle that the port is compared with.
//!
//! Each file is taken in by `include!` inside a module, so that what we add beside it may read its private state.
//! The modules carry rawdio's names, because the files' `use` lines ask for them.

pub mod buffer;
pub mod effects;
pub mod graph;
pub mod utility;

pub mod answers;
pub mod command_edges;
pub mod commands;
pub mod differences;
pub mod edges;
pub mod leg;
pub mod leg_numbers;
pub mod leg_run;
pub mod pieces;
pub mod random;
pub mod rows;
pub mod sequences;
pub mod sessions;
pub mod trial_file;
pub mod trials;

// rawdio's lib.rs gives these names at the root; the files reach for them there.
pub use buffer::{AudioBuffer, MutableBorrowedAudioBuffer, OwnedAudioBuffer, SampleLocation};
pub use graph::ProcessContext;
pub use utility::Timestamp;

/// Of rawdio's prelude, what sampler_processor.rs uses.
pub mod prelude {
    pub use crate::{AudioBuffer, MutableBorrowedAudioBuffer, OwnedAudioBuffer, Timestamp};
}
