//! Few records over doubled channels, so that drains take tens of thousands of steps and more.

use super::graph::{channel, extreme_value, pass, source};
use super::mixed::with_steps;
use crate::direct;
use crate::fault::Fault;
use crate::job::{check, Job, Record, Task, CYLINDER, RANGE, SCALE, SPREAD};
use crate::random::Random;
use crate::text::Text;

const FEWEST: u64 = 20_000;
const MOST: u64 = 250_000;

pub fn text(random: &mut Random) -> Text {
    let mut job = doubled(random);
    while !weighs_enough(&job) {
        job = doubled(random);
    }
    let steps = random.pick(&[0, 40, 400, 1_500]);
    with_steps(random, job, steps)
}

/// Is the job accepted and its drain within the wished number of steps?
fn weighs_enough(job: &Job) -> bool {
    if check(job, Fault::None) != 0 {
        return false;
    }
    let weight = direct::evaluate(job, &direct::whole_parts(job));
    weight.is_ok_and(|found| (FEWEST..=MOST).contains(&found.carried.iter().sum()))
}

/// A chain whose links are doubled or more, with some links across.
fn doubled(random: &mut Random) -> Job {
    let tasks = random.between(7, 16);
    let records = random.between(1, 40);
    let mut job = Job::default();
    for _ in 0..records {
        job.records.push(Record {
            cylinder: random.between(1, 20),
            value: extreme_value(random),
        });
    }
    job.tasks.push(source(0, random.between(1, records)));
    for number in 1..tasks {
        job.tasks.push(mild_rule(random));
        for _ in 0..random.pick(&[1, 2, 2, 2, 3, 4]) {
            job.channels.push(channel(number - 1, number));
        }
        if number > 2 && random.chance(1, 4) {
            let from = random.between(0, number - 2);
            job.channels.push(channel(from, number));
        }
    }
    if random.chance(1, 2) {
        random.shuffle(&mut job.channels);
    }
    job
}

/// Rules that let most records on.
fn mild_rule(random: &mut Random) -> Task {
    let (kind, a, b) = match random.below(12) {
        0 => (RANGE, i64::from(i32::MIN), random.between(0, 1 << 31) - 1),
        1 | 2 => (SCALE, random.between(0, 2), 0),
        3 => (CYLINDER, 1, random.between(10, 20)),
        4 => (SPREAD, 0, 0),
        _ => return pass(),
    };
    Task { kind, a, b }
}
