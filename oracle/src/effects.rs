//! The sampler's five files, each with what lays its private state open.

/// The files name their queue's ends through `Channel`; std's has the same words.
pub use std::sync::mpsc as Channel;

pub mod utility {
    mod event_processor {
        include!("../rawdio/src/effects/utility/event_processor.rs");

        impl<Event: EventProcessorEvent> EventProcessor<Event> {
            /// The queue, in order.
            pub fn pending(&self) -> &[Event] {
                &self.pending_events
            }

            /// A queue as it may stand between two blocks, in order: the file itself only receives.
            pub fn hold(&mut self, events: Vec<Event>) {
                self.pending_events = events;
            }

            /// The file's own step, which is private to it.
            pub fn take_before(&mut self, end_time: &Timestamp) -> Option<Event> {
                self.next_event_before(end_time)
            }
        }
    }

    pub use event_processor::{EventProcessor, EventProcessorEvent};
}

pub mod sampler {
    mod sampler_event {
        include!("../rawdio/src/effects/sampler/sampler_event.rs");
    }

    mod sampler_fade {
        include!("../rawdio/src/effects/sampler/sampler_fade.rs");

        impl Fade {
            /// A table with given entries: the file itself makes only the sine's.
            pub fn from_entries(entries: &[f32]) -> Self {
                Self { values: entries.to_vec() }
            }
        }
    }

    mod sampler_voice {
        include!("../rawdio/src/effects/sampler/sampler_voice.rs");

        /// `Phase` is private to the file; this is its likeness.
        #[derive(Clone, Copy, Debug, PartialEq)]
        pub enum VoicePhase {
            Stopped,
            FadingIn(usize),
            Playing,
            FadingOut(usize),
        }

        impl Voice {
            /// A voice as it may stand between two blocks: the file itself only starts and stops one.
            pub fn in_phase(phase: VoicePhase, position: usize) -> Self {
                let phase = match phase {
                    VoicePhase::Stopped => Phase::Stopped,
                    VoicePhase::FadingIn(position) => Phase::FadingIn(position),
                    VoicePhase::Playing => Phase::Playing,
                    VoicePhase::FadingOut(position) => Phase::FadingOut(position),
                };

                Self { position, phase }
            }

            pub fn phase(&self) -> VoicePhase {
                match self.phase {
                    Phase::Stopped => VoicePhase::Stopped,
                    Phase::FadingIn(position) => VoicePhase::FadingIn(position),
                    Phase::Playing => VoicePhase::Playing,
                    Phase::FadingOut(position) => VoicePhase::FadingOut(position),
                }
            }
        }
    }

    mod sampler_processor {
        include!("../rawdio/src/effects/sampler/sampler_processor.rs");

        /// What a leg keeps from block to block, but for its queue. The rest of it never changes.
        #[derive(Clone, Debug, PartialEq)]
        pub struct Player {
            pub voices: Vec<(super::VoicePhase, usize)>,
            pub active: Option<usize>,
            pub loop_points: Option<(Timestamp, Timestamp)>,
            pub position: Timestamp,
            pub start_position: Timestamp,
            pub completed_loops: usize,
        }

        impl SamplerDspProcess {
            pub fn player(&self) -> Player {
                let voices = self.voices.iter();

                Player {
                    voices: voices.map(|v| (v.phase(), v.get_position())).collect(),
                    active: self.active_voice,
                    loop_points: self.loop_points,
                    position: self.position,
                    start_position: self.start_position_in_sample,
                    completed_loops: self.completed_loops,
                }
            }

            /// A leg as it may stand between two blocks.
            pub fn hold(&mut self, player: Player, events: Vec<SamplerEvent>) {
                let voices = player.voices.into_iter();
                self.voices = voices.map(|(phase, position)| Voice::in_phase(phase, position)).collect();
                self.active_voice = player.active;
                self.loop_points = player.loop_points;
                self.position = player.position;
                self.start_position_in_sample = player.start_position;
                self.completed_loops = player.completed_loops;
                self.event_processor.hold(events);
            }

            /// What a block does first: the queue then holds, in order, what was sent.
            pub fn receive_events(&mut self) {
                self.event_processor.receive_events();
            }

            pub fn pending(&self) -> &[SamplerEvent] {
                self.event_processor.pending()
            }
        }
    }

    pub use sampler_event::{SampleEventType, SamplerEvent};
    pub use sampler_fade::Fade;
    pub use sampler_processor::{EventReceiver, EventTransmitter, Player, SamplerDspProcess};
    pub use sampler_voice::{Voice, VoicePhase};
}
