//! Of rawdio's graph, what a processor is called with. The graph itself is out of document 01's scope.

use crate::{AudioBuffer, Timestamp};

/// One block: where it starts, and the output it is added to. The processor asks for nothing else.
pub struct ProcessContext<'a> {
    pub output_buffer: &'a mut dyn AudioBuffer,
    pub start_time: &'a Timestamp,
}

/// The trait that sampler_processor.rs puts its block behind.
pub trait DspProcessor {
    fn process_audio(&mut self, context: &mut ProcessContext);
}
