//! The snapshot's rules within a run: marks, stored totals, completion, and the cut.

use crate::fault::Fault;
use crate::run::Stepper;
use crate::totals::{Item, Totals};
use std::collections::VecDeque;

impl Stepper<'_> {
    /// A barrier came: marks its channel, and says whether the task stored its totals.
    pub fn mark(&mut self, task: usize, channel: usize) -> bool {
        let accepted = self.accepted;
        self.run.marked[channel] = true;
        if self.fault == Fault::StoreEarly && self.run.half[task].is_none() {
            self.run.half[task] = Some(self.run.live[task]);
        }
        if !accepted.inputs[task].iter().all(|c| self.run.marked[*c]) {
            return false;
        }
        if self.fault == Fault::ClearOneMark {
            self.run.marked[channel] = false;
        } else {
            for input in &accepted.inputs[task] {
                self.run.marked[*input] = false;
            }
        }
        self.store_and_pass_on(task);
        true
    }

    /// Stores the task's totals and puts a barrier on every output.
    pub fn store_and_pass_on(&mut self, task: usize) {
        let early = self.fault == Fault::StoreEarly && self.run.half[task].is_some();
        if !early {
            let at_begin = self.fault == Fault::SourceAtBegin && self.accepted.is_source(task);
            self.run.half[task] = Some(match at_begin {
                true => self.run.at_begin[task],
                false => self.run.live[task],
            });
        }
        let accepted = self.accepted;
        for (place, channel) in accepted.outputs[task].iter().enumerate() {
            if place > 0 && self.fault == Fault::FirstOutput {
                return;
            }
            self.run.channels[*channel].push_back(Item::Barrier);
        }
    }

    /// Makes the half-taken snapshot the last complete one when every task has stored.
    pub fn complete(&mut self) -> bool {
        let missing = self.run.half.iter().filter(|half| half.is_none()).count();
        let allowed = usize::from(self.fault == Fault::OneMissing);
        if !self.run.under_way || missing > allowed {
            return false;
        }
        let half = self.run.half.iter();
        self.run.complete = Some(half.map(|totals| totals.unwrap_or_default()).collect());
        self.run.half.fill(None);
        self.run.under_way = false;
        true
    }

    pub fn begin(&mut self) {
        for task in 0..self.run.waiting.len() {
            self.run.waiting[task] = self.accepted.is_source(task);
        }
        self.run.half.fill(None);
        self.run.under_way = true;
        self.run.at_begin = self.run.live.clone();
    }

    pub fn cut(&mut self) {
        let tasks = self.run.live.len();
        let zero = vec![Totals::default(); tasks];
        self.run.live = match &self.run.complete {
            Some(complete) if self.fault != Fault::CutToZero => complete.clone(),
            _ => zero,
        };
        if self.fault == Fault::CutHalf {
            for task in 0..tasks {
                self.run.live[task] = self.run.half[task].unwrap_or(self.run.live[task]);
            }
        }
        if self.fault != Fault::CutChannels {
            self.run.channels.iter_mut().for_each(VecDeque::clear);
        }
        if self.fault != Fault::CutMarks {
            self.run.marked.fill(false);
        }
        if self.fault != Fault::CutWaiting {
            self.run.waiting.fill(false);
        }
        self.run.half.fill(None);
        self.run.under_way &= self.fault == Fault::CutUnderWay;
        if self.fault == Fault::CutForgets {
            self.run.complete = None;
        }
    }
}
