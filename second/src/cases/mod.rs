//! Generated cases: one text for a seed and a kind, the same on every machine.

mod broken;
mod graph;
mod heavy;
mod jobs;
mod lengths;
mod limits;
mod mixed;
mod steps;

use crate::random::Random;

pub const KINDS: [&str; 5] = ["accepted", "broken", "jobs", "limits", "heavy"];

/// The case's text, or nothing for an unknown kind.
pub fn generate(kind: &str, seed: u64) -> Option<Vec<u8>> {
    let mut random = Random::new(seed, kind);
    let text = match kind {
        "accepted" => mixed::accepted(&mut random).bytes(),
        "broken" => broken::text(&mut random, seed),
        "jobs" => jobs::text(&mut random, seed).bytes(),
        "limits" => limits::text(&mut random).bytes(),
        "heavy" => heavy::text(&mut random).bytes(),
        _ => return None,
    };
    Some(text)
}
