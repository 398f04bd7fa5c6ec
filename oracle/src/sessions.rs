//! Random trials. A session is made while its leg is played by the Rust, so that times, positions and loops can be
//! aimed at what the leg is about to do.

mod blocks;
mod commands;
mod heads;
mod legs;
mod weight;

use crate::leg::Leg;
use crate::leg_numbers::is_damaged;
use crate::leg_run::LegRun;
use crate::random::Random;
use crate::trial_file::{Head, Step, Trial};

/// The seeds of a run's sessions, one after the other.
pub fn seeds(seed: u64) -> impl Iterator<Item = u64> {
    let mut random = Random::new(seed);
    std::iter::repeat_with(move || random.bits())
}

/// One trial. A small one has recordings and blocks of some tens of frames and few steps, for a list that is stored.
pub fn session(seed: u64, small: bool) -> Trial {
    let mut random = Random::new(seed);
    let head = random.head(small);
    let (run, _) = LegRun::new(head.sizes, head.channels, &head.recording, &head.fade);
    let mut session = Session { random, small, head, run, now: 0, times: Vec::new(), steps: Vec::new() };
    session.make();

    let Session { mut head, steps, .. } = session;
    head.steps = steps.len() as u32;
    Trial { head, steps }
}

struct Session {
    random: Random,
    small: bool,
    head: Head,
    run: LegRun,
    /// Where the next block of an undisturbed host starts.
    now: i64,
    /// Times of commands so far, to make ties with.
    times: Vec<i64>,
    steps: Vec<Step>,
}

/// Of 64 steps, how many are of each kind.
#[derive(Clone, Copy)]
struct Mix {
    commands: u64,
    blocks: u64,
    runs: u64,
    floods: u64,
    legs: u64,
    edges: u64,
    spoilt: u64,
}

const PLAYING: Mix = Mix { commands: 20, blocks: 37, runs: 2, floods: 0, legs: 1, edges: 1, spoilt: 3 };
const DRIFTING: Mix = Mix { commands: 4, blocks: 30, runs: 30, floods: 0, legs: 0, edges: 0, spoilt: 0 };
const FLOODING: Mix = Mix { commands: 12, blocks: 44, runs: 1, floods: 4, legs: 0, edges: 0, spoilt: 3 };
const REPLACING: Mix = Mix { commands: 11, blocks: 33, runs: 2, floods: 0, legs: 16, edges: 1, spoilt: 1 };
const BREAKING: Mix = Mix { commands: 9, blocks: 18, runs: 1, floods: 1, legs: 6, edges: 18, spoilt: 11 };

impl Session {
    fn make(&mut self) {
        let mix = self.mix();
        let length = if self.small { 2 + self.random.below(6) } else { 8 + self.random.below(60) };
        self.now = self.first_start();
        self.opening();

        while (self.steps.len() as u64) < length {
            // A damaged leg answers 14 to all that comes: two steps of that, more or less, will do.
            if is_damaged(self.leg()) && self.random.below(2) == 0 {
                self.replace();
            }
            self.step(&mix);
        }
    }

    fn mix(&mut self) -> Mix {
        match (self.small, self.random.below(16)) {
            // In few blocks of few frames hardly a loop would turn: runs make up for it.
            (true, 0..=3) | (false, 0) => DRIFTING,
            (true, 4..=6) | (false, 1..=9) => PLAYING,
            (true, 7) | (false, 10) => FLOODING,
            (true, 8..=11) | (false, 11..=13) => REPLACING,
            _ => BREAKING,
        }
    }

    fn first_start(&mut self) -> i64 {
        let any = self.random.of_any_size(40) as i64;
        let far = self.random.of_any_size(48) as i64;
        let last = (1 << 48) - self.random.of_any_size(32) as i64;
        self.random.pick(&[0, 0, 0, 0, any, any, any, any, far, last])
    }

    /// Mostly something that sounds: a loop or none, and a start.
    fn opening(&mut self) {
        if self.random.below(4) == 0 {
            return;
        }
        if self.random.below(2) == 0 {
            let points = self.points();
            self.enable_loop_now(points);
        }
        self.start_soon();
    }

    fn step(&mut self, mix: &Mix) {
        let Mix { commands, blocks, runs, floods, legs, edges, spoilt } = *mix;
        let mut drawn = self.random.below(commands + blocks + runs + floods + legs + edges + spoilt);
        let parts = [commands, blocks, runs, floods, legs, edges, spoilt];
        let part = parts.iter().position(|part| {
            let here = drawn < *part;
            drawn = drawn.wrapping_sub(*part);
            here
        });

        match part {
            Some(0) => self.command(),
            Some(1) => self.block(),
            Some(2) => self.blocks(),
            Some(3) => self.flood(),
            Some(4) => self.replace(),
            Some(5) => self.replace_at_an_edge(),
            _ => self.spoilt_step(),
        }
    }

    fn spoilt_step(&mut self) {
        match self.random.below(2) {
            0 => self.spoilt_command(),
            _ => self.spoilt_block(),
        }
    }

    fn leg(&self) -> &Leg {
        self.run.leg()
    }

    /// T at the leg's rate. A leg that has none is not asked for times that matter.
    fn time_of(&self, frames: u64) -> i64 {
        let mut sizes = self.leg().sizes;
        sizes.rate = sizes.rate.clamp(8_000, 96_000);
        sizes.time_of(frames)
    }

    fn frames(&self) -> u64 {
        u64::from(self.leg().sizes.frames).min(self.head.recording.len() as u64)
    }

    /// A unit to either side, at times.
    fn beside(&mut self, time: i64) -> i64 {
        time + self.random.pick(&[0, 0, 0, 0, -1, 1])
    }
}
