//! Seeded streams of bytes for each target.

pub mod amount;
pub mod traffic;
pub mod messages;
pub mod frames;
pub mod codecs;
pub mod disturbance;
pub mod runs;
pub mod probe;
pub mod images;
pub mod keeping;

use crate::random::Random;
use crate::subject::Target;

/// A stream: which program it is for, what it is after, and its bytes.
#[derive(Clone, Debug)]
pub struct Stream {
    pub target: Target,
    pub after: &'static str,
    pub bytes: Vec<u8>,
}

/// The stream with a number under a seed; the kinds take turns.
pub fn stream(target: Target, seed: u64, number: u64) -> Stream {
    let kinds: &[&'static str] = match target {
        Target::Program => &messages::KINDS,
        Target::Probe => &probe::KINDS,
        Target::Exported => &runs::KINDS,
        Target::Live => &images::KINDS,
        Target::Kept | Target::Shared => &keeping::KINDS,
    };
    let kind = (number % kinds.len() as u64) as usize;
    let random = Random::of(seed ^ target as u64, number);
    let bytes = match target {
        Target::Program => messages::stream(kind, random),
        Target::Probe => probe::stream(kind, random),
        Target::Exported => runs::stream(kind, random),
        Target::Live => images::stream(kind, random),
        Target::Kept | Target::Shared => keeping::stream(kind, number, random),
    };
    Stream { target, after: kinds[kind], bytes }
}
