//! A list of steps and a drain, over the rules of one step.

use crate::fault::Fault;
use crate::run::Stepper;

/// Enough for every run grown from a fresh one by one accepted job.
pub const DRAIN_LIMIT: u64 = 67_108_864;

/// Is this the answer of a step that was done?
pub fn is_done(answer: u32) -> bool {
    answer == 0 || answer == 20
}

impl Stepper<'_> {
    /// Does the steps in order; what each answered, the number done and the number refused.
    pub fn list(&mut self, steps: &[u32]) -> (Vec<u32>, u64, u64) {
        let mut answers = Vec::new();
        for (place, number) in steps.iter().enumerate() {
            let counted_only = place > 0 && self.fault == Fault::FirstStepOnly;
            answers.push(if counted_only { 0 } else { self.step(*number) });
        }
        let done = answers.iter().filter(|answer| is_done(**answer)).count() as u64;
        let refused = answers.len() as u64 - done;
        if self.fault == Fault::RefusedDone {
            return (answers, done + refused, refused);
        }
        (answers, done, refused)
    }

    /// Parts read out, channels empty, no barrier waiting, no snapshot under way.
    pub fn nothing_left(&self) -> bool {
        let run = &self.run;
        let tasks = self.accepted.job.tasks.iter().enumerate();
        let mut sources = tasks.filter(|(task, _)| self.accepted.is_source(*task));
        let snapshot_left = run.under_way || run.waiting.contains(&true);
        (!snapshot_left || self.fault == Fault::DrainLeaves)
            && run.channels.iter().all(|items| items.is_empty())
            && sources.all(|(task, part)| run.live[task].count >= part.b as u64)
    }

    /// The lowest-numbered possible step of 0 to 63, again and again: the answer and the steps.
    pub fn drain(&mut self, limit: u64) -> (u32, u64) {
        let mut steps = 0;
        loop {
            if self.nothing_left() {
                return (0, steps);
            }
            if steps == limit {
                return (18, steps);
            }
            if !self.drain_one() {
                return (19, steps);
            }
            steps += 1;
        }
    }

    fn drain_one(&mut self) -> bool {
        // A refused step leaves the run as it came, so trying it is asking for it.
        match self.fault {
            Fault::DrainHighest => (0..64).rev().any(|number| is_done(self.step(number))),
            _ => (0..64).any(|number| is_done(self.step(number))),
        }
    }
}
