//! A run: what tasks and channels hold, and the rules of one step.

use crate::fault::Fault;
use crate::job::{Accepted, Record, COUNT_LIMIT, CYLINDER, RANGE, SCALE, SPREAD};
use crate::totals::{Item, Totals};
use std::collections::VecDeque;

/// All that a run holds, and two counters of records for the promises.
#[derive(Clone, PartialEq, Eq, Debug)]
pub struct Run {
    pub live: Vec<Totals>,
    pub channels: Vec<VecDeque<Item>>,
    pub marked: Vec<bool>,
    pub waiting: Vec<bool>,
    pub half: Vec<Option<Totals>>,
    pub under_way: bool,
    pub complete: Option<Vec<Totals>>,
    /// Records put on each channel, and records taken from it, since the fresh run.
    pub sent: Vec<u64>,
    pub delivered: Vec<u64>,
    /// Live totals as of the last 64; only a fault uses them.
    pub at_begin: Vec<Totals>,
}

/// A run together with the job it is stepped by.
#[derive(Clone)]
pub struct Stepper<'a> {
    pub accepted: &'a Accepted,
    pub fault: Fault,
    pub run: Run,
}

impl<'a> Stepper<'a> {
    /// The fresh run: all zero, nothing held, no snapshot.
    pub fn new(accepted: &'a Accepted, fault: Fault) -> Stepper<'a> {
        let tasks = accepted.job.tasks.len();
        let channels = accepted.to.len();
        let run = Run {
            live: vec![Totals::default(); tasks],
            channels: vec![VecDeque::new(); channels],
            marked: vec![false; channels],
            waiting: vec![false; tasks],
            half: vec![None; tasks],
            under_way: false,
            complete: None,
            sent: vec![0; channels],
            delivered: vec![0; channels],
            at_begin: vec![Totals::default(); tasks],
        };
        Stepper {
            accepted,
            fault,
            run,
        }
    }

    /// One step: its answer, and the run advanced unless that answer is a refusal.
    pub fn step(&mut self, number: u32) -> u32 {
        let number = match self.fault {
            Fault::EightBits => number % 256,
            _ => number,
        };
        let refusal = self.refusal(number);
        if refusal != 0 {
            return refusal;
        }
        let stored = self.perform(number);
        let completed = stored && self.complete();
        if completed && self.fault != Fault::CompleteUnsaid {
            20
        } else {
            0
        }
    }

    /// The number that refuses this step, or 0 when it is possible.
    pub fn refusal(&self, number: u32) -> u32 {
        match number {
            0..=31 => self.refuses_delivery(number as usize),
            32..=47 => self.refuses_read(number as usize - 32),
            48..=63 => self.refuses_barrier(number as usize - 48),
            64 if self.run.under_way && self.fault != Fault::BeginAgain => 15,
            64 | 65 => 0,
            _ => 11,
        }
    }

    fn refuses_delivery(&self, channel: usize) -> u32 {
        let Some(items) = self.run.channels.get(channel) else {
            return 11;
        };
        if items.is_empty() && self.fault == Fault::EmptyBeforeBlocked {
            return 13;
        }
        if self.run.marked[channel] && self.fault != Fault::ReadOnMarked {
            return 12;
        }
        let Some(item) = items.front() else {
            return 13;
        };
        let task = self.accepted.to[channel];
        if self.full_for(task, channel, *item) {
            return 14;
        }
        let at_limit = self.run.live[task].count == COUNT_LIMIT;
        if matches!(item, Item::Record(_)) && at_limit {
            return 17;
        }
        0
    }

    /// Is this delivery to be refused for a full output?
    fn full_for(&self, task: usize, channel: usize, item: Item) -> bool {
        match item {
            Item::Record(record) => match self.fault {
                Fault::DroppedNotFull if self.sent_record(task, record).is_none() => false,
                Fault::SpreadOwnFull if self.kind(task) == SPREAD => self
                    .chosen(task, record)
                    .is_some_and(|output| self.full(output)),
                _ => self.some_output_full(task),
            },
            Item::Barrier => {
                let applies = match self.fault {
                    Fault::BarrierAlwaysFull => true,
                    Fault::BarrierNeverFull => false,
                    _ => self.completes(task, channel),
                };
                applies && self.some_output_full(task)
            }
        }
    }

    /// Would a mark on this channel be the last one that the task awaits?
    fn completes(&self, task: usize, channel: usize) -> bool {
        let inputs = &self.accepted.inputs[task];
        inputs.iter().all(|c| *c == channel || self.run.marked[*c])
    }

    fn full(&self, channel: usize) -> bool {
        let most = 8 - usize::from(self.fault == Fault::FullAtSeven);
        self.run.channels[channel].len() >= most
    }

    fn some_output_full(&self, task: usize) -> bool {
        let outputs = &self.accepted.outputs[task];
        outputs.iter().any(|channel| self.full(*channel))
    }

    /// 11 for a task the job lacks or that is no source.
    fn refuses_source(&self, task: usize) -> u32 {
        if task >= self.run.live.len() {
            return 11;
        }
        match self.accepted.is_source(task) {
            true => 0,
            false if self.fault == Fault::NoSourceEmpty => 13,
            false => 11,
        }
    }

    fn refuses_read(&self, task: usize) -> u32 {
        let refusal = self.refuses_source(task);
        if refusal != 0 {
            return refusal;
        }
        let full = self.some_output_full(task);
        if full && self.fault == Fault::FullBeforeReadOut {
            return 14;
        }
        let length = self.accepted.job.tasks[task].b as u64;
        let held_up = self.run.waiting[task] && self.fault == Fault::WaitingPrevents;
        if self.run.live[task].count >= length || held_up {
            return 13;
        }
        if full {
            return 14;
        }
        0
    }

    fn refuses_barrier(&self, task: usize) -> u32 {
        let refusal = self.refuses_source(task);
        if refusal != 0 {
            return refusal;
        }
        if !self.run.waiting[task] {
            return 13;
        }
        if self.some_output_full(task) {
            return 14;
        }
        0
    }

    /// Does a possible step, and says whether it stored a task's totals.
    fn perform(&mut self, number: u32) -> bool {
        match number {
            0..=31 => return self.deliver(number as usize),
            32..=47 => self.read(number as usize - 32),
            48..=63 => {
                let task = number as usize - 48;
                self.run.waiting[task] = false;
                self.store_and_pass_on(task);
                return true;
            }
            64 => self.begin(),
            _ => self.cut(),
        }
        false
    }

    fn deliver(&mut self, channel: usize) -> bool {
        let task = self.accepted.to[channel];
        let Some(item) = self.run.channels[channel].pop_front() else {
            return false;
        };
        match item {
            Item::Record(record) => {
                self.run.delivered[channel] += 1;
                self.receive(task, record);
                false
            }
            Item::Barrier => self.mark(task, channel),
        }
    }

    fn read(&mut self, task: usize) {
        let start = self.accepted.job.tasks[task].a as usize;
        let offset = self.run.live[task].count as usize;
        let record = self.accepted.job.records[start + offset];
        self.receive(task, record);
    }

    /// Totals first, then sending by the kind's rule.
    fn receive(&mut self, task: usize, record: Record) {
        let sent = self.sent_record(task, record);
        if sent.is_some() || self.fault != Fault::DroppedUncounted {
            self.run.live[task].take(record.value, self.fault);
        }
        let Some(sent) = sent else { return };
        if self.kind(task) == SPREAD {
            if let Some(channel) = self.chosen(task, sent) {
                self.put(channel, sent);
            }
            return;
        }
        let accepted = self.accepted;
        let outputs = &accepted.outputs[task];
        for (place, channel) in outputs.iter().enumerate() {
            let to = accepted.to[*channel];
            let again = outputs[..place].iter().any(|c| accepted.to[*c] == to);
            if !(again && self.fault == Fault::DoubledOnce) {
                self.put(*channel, sent);
            }
        }
    }

    fn put(&mut self, channel: usize, record: Record) {
        self.run.channels[channel].push_back(Item::Record(record));
        self.run.sent[channel] += 1;
    }

    fn kind(&self, task: usize) -> i64 {
        self.accepted.job.tasks[task].kind
    }

    /// The record that the task sends for this one, or nothing when it drops it.
    fn sent_record(&self, task: usize, record: Record) -> Option<Record> {
        let rule = self.accepted.job.tasks[task];
        let inside = |number: i64| rule.a <= number && number <= rule.b;
        match rule.kind {
            RANGE if record.value == rule.b && self.fault == Fault::RangeOpen => None,
            RANGE => inside(record.value).then_some(record),
            CYLINDER => inside(record.cylinder).then_some(record),
            SCALE => {
                let value = match self.fault {
                    Fault::ScaleFloor => record.value >> rule.a,
                    _ => record.value / (1i64 << rule.a),
                };
                Some(Record { value, ..record })
            }
            _ => Some(record),
        }
    }

    /// The one output that Spread chooses.
    fn chosen(&self, task: usize, record: Record) -> Option<usize> {
        let outputs = &self.accepted.outputs[task];
        if outputs.is_empty() {
            return None;
        }
        let first = 1 - i64::from(self.fault == Fault::SpreadByCylinder);
        let place = (record.cylinder - first) as usize % outputs.len();
        if self.fault == Fault::SpreadByNumber {
            let by_number = |channel: &&usize| **channel % outputs.len() == place;
            return outputs.iter().find(by_number).copied();
        }
        Some(outputs[place])
    }
}
