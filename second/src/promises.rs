//! The promises of document 01 about runs, checked on one job and list of steps.

use crate::direct::{evaluate, whole_parts};
use crate::fault::Fault;
use crate::job::Accepted;
use crate::lists::{is_done, DRAIN_LIMIT};
use crate::run::Stepper;
use crate::totals::Item;

/// Watches a run step by step and notes what the promises speak of.
struct Watch<'a> {
    stepper: Stepper<'a>,
    /// Each source's count when it sent its last barrier.
    offsets: Vec<u64>,
    begun: u64,
    done: u64,
    cuts: u64,
    completed: u64,
}

/// How many snapshots completed, or the promise that failed.
pub fn keep(accepted: &Accepted, steps: &[u32]) -> Result<u64, String> {
    let whole = Watch::over(accepted, steps)?;
    let without_cuts: Vec<u32> = steps.iter().copied().filter(|n| *n != 65).collect();
    let plain = Watch::over(accepted, &without_cuts)?;
    Ok(whole.completed + plain.completed)
}

impl<'a> Watch<'a> {
    /// Does the steps, then drains one step at a time, checking at every moment.
    fn over(accepted: &'a Accepted, steps: &[u32]) -> Result<Watch<'a>, String> {
        let mut watch = Watch {
            stepper: Stepper::new(accepted, Fault::None),
            offsets: vec![0; accepted.job.tasks.len()],
            begun: 0,
            done: 0,
            cuts: 0,
            completed: 0,
        };
        for number in steps {
            watch.one(*number)?;
        }
        let at_once = watch.drains()?;
        let mut drained = 0;
        while watch.stepper.drain(0).0 != 0 {
            let possible = (0..64).find(|n| watch.stepper.refusal(*n) == 0);
            watch.one(possible.ok_or("a drain comes to a halt")?)?;
            drained += 1;
        }
        if (watch.stepper.run.clone(), drained) != (at_once.stepper.run, at_once.done) {
            return Err("a drain at once and step by step differ".to_string());
        }
        watch.ends_as_evaluated()?;
        watch.formula()?;
        Ok(watch)
    }

    fn one(&mut self, number: u32) -> Result<(), String> {
        let before = self.stepper.run.clone();
        let answer = self.stepper.step(number);
        let run = &self.stepper.run;
        if !is_done(answer) {
            let unchanged = before == *run;
            return unchanged
                .then_some(())
                .ok_or(format!("refused {number} moves"));
        }
        self.done += 1;
        self.begun += u64::from(number == 64);
        self.cuts += u64::from(number == 65);
        for (task, offset) in self.offsets.iter_mut().enumerate() {
            let sent = before.waiting[task] && !run.waiting[task];
            if sent && number != 65 {
                *offset = run.live[task].count;
            }
        }
        if answer == 20 {
            self.completed += 1;
            self.snapshot_as_evaluated()?;
        }
        self.sent_is_delivered_or_held()
    }

    /// The complete snapshot is direct evaluation at the offsets of the sent barriers.
    fn snapshot_as_evaluated(&self) -> Result<(), String> {
        let job = &self.stepper.accepted.job;
        let direct = evaluate(job, &self.offsets).map_err(|n| format!("evaluation answers {n}"))?;
        match self.stepper.run.complete.as_ref() == Some(&direct.totals) {
            true => Ok(()),
            false => Err("a snapshot differs from direct evaluation".to_string()),
        }
    }

    fn sent_is_delivered_or_held(&self) -> Result<(), String> {
        let run = &self.stepper.run;
        let kept = run.channels.iter().enumerate().all(|(channel, items)| {
            let records = items.iter().filter(|item| **item != Item::Barrier);
            run.sent[channel] == run.delivered[channel] + records.count() as u64
        });
        let fits = run.channels.iter().all(|items| items.len() <= 8);
        match fits && (kept || self.cuts > 0) {
            true => Ok(()),
            false => Err("sent is not delivered plus held".to_string()),
        }
    }

    /// A drain of a copy: it answers 0, its limit counts exactly, and its order is no matter.
    fn drains(&self) -> Result<Watch<'a>, String> {
        let copy = |fault: Fault| {
            let mut stepper = self.stepper.clone();
            stepper.fault = fault;
            stepper
        };
        let mut plain = copy(Fault::None);
        let (answer, steps) = plain.drain(DRAIN_LIMIT);
        let exact = copy(Fault::None).drain(steps);
        let short = steps.checked_sub(1).map(|l| copy(Fault::None).drain(l));
        let mut highest = copy(Fault::DrainHighest);
        let other = highest.drain(DRAIN_LIMIT);
        if answer != 0 || exact != (0, steps) || short.is_some_and(|s| s != (18, steps - 1)) {
            return Err("a drain's answer or limit is wrong".to_string());
        }
        if other != (0, steps) || highest.run.live != plain.run.live {
            return Err("a drain in another order ends otherwise".to_string());
        }
        Ok(Watch {
            stepper: plain,
            offsets: Vec::new(),
            done: steps,
            ..*self
        })
    }

    fn ends_as_evaluated(&self) -> Result<(), String> {
        let job = &self.stepper.accepted.job;
        let direct = evaluate(job, &whole_parts(job)).map_err(|n| format!("answers {n}"))?;
        let run = &self.stepper.run;
        let carried = self.cuts > 0 || run.sent == direct.carried;
        match run.live == direct.totals && carried {
            true => Ok(()),
            false => Err("a drain's totals differ from direct evaluation".to_string()),
        }
    }

    /// Without cuts: all steps are reads, deliveries of records, and what snapshots take.
    fn formula(&self) -> Result<(), String> {
        let job = &self.stepper.accepted.job;
        let parts = whole_parts(job);
        let direct = evaluate(job, &parts).map_err(|n| format!("answers {n}"))?;
        let sources = job.tasks.iter().filter(|task| task.kind == 0).count();
        let per_snapshot = (1 + sources + job.channels.len()) as u64;
        let read: u64 = parts.iter().sum();
        let sent: u64 = direct.carried.iter().sum();
        match self.cuts > 0 || self.done == read + sent + self.begun * per_snapshot {
            true => Ok(()),
            false => Err("the steps differ from the formula".to_string()),
        }
    }
}
