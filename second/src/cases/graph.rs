//! Random accepted jobs: graphs without loops, of all kinds of tasks.

use crate::fault::Fault;
use crate::job::{worst, Channel, Job, Record, Task};
use crate::job::{CYLINDER, PASS, RANGE, SCALE, SOURCE, SPREAD};
use crate::random::Random;

/// How large a random job may grow.
pub struct Shape {
    pub tasks: usize,
    pub records: usize,
    /// The worst counts of all tasks together stay within this.
    pub budget: u128,
    /// Values at the ends of 32 bits instead of small ones.
    pub extreme: bool,
}

/// An accepted job within the shape.
pub fn accepted(random: &mut Random, shape: &Shape) -> Job {
    let tasks = 1 + more_often_many(random, shape.tasks);
    let sources = random_sources(random, tasks);
    let mut channels = random_channels(random, &sources);
    let numbers = task_numbers(random, tasks);
    for channel in &mut channels {
        channel.from = numbers[channel.from as usize];
        channel.to = numbers[channel.to as usize];
    }
    if random.chance(2, 3) {
        random.shuffle(&mut channels);
    }
    let records = random_records(random, shape);
    let mut job = Job {
        tasks: vec![source(0, 0); tasks],
        channels,
        records,
    };
    for (place, is_source) in sources.iter().enumerate() {
        let number = numbers[place] as usize;
        job.tasks[number] = match is_source {
            true => random_part(random, job.records.len()),
            false => random_rule(random, &job, number, shape.extreme),
        };
    }
    shorten(random, &mut job, shape.budget);
    job
}

/// A number below the bound, the larger ones more often, few ones now and then.
fn more_often_many(random: &mut Random, bound: usize) -> usize {
    let (one, other) = (random.below(bound), random.below(bound));
    match random.chance(1, 6) {
        true => one.min(other),
        false => one.max(other),
    }
}

pub fn source(a: i64, b: i64) -> Task {
    Task { kind: SOURCE, a, b }
}

pub fn pass() -> Task {
    Task {
        kind: PASS,
        a: 0,
        b: 0,
    }
}

pub fn channel(from: i64, to: i64) -> Channel {
    Channel { from, to }
}

/// Which places of the graph's order are sources; the first always is.
fn random_sources(random: &mut Random, tasks: usize) -> Vec<bool> {
    let often = 1 + random.below(4);
    let mut sources: Vec<bool> = (0..tasks).map(|_| random.chance(1, often + 1)).collect();
    sources[0] = true;
    sources
}

/// Task numbers in list order, or any other order, so that numbers follow no walk.
fn task_numbers(random: &mut Random, tasks: usize) -> Vec<i64> {
    let mut numbers: Vec<i64> = (0..tasks as i64).collect();
    if random.chance(2, 3) {
        random.shuffle(&mut numbers);
    }
    numbers
}

/// Channels from earlier places to later ones that are no sources, every such place fed.
fn random_channels(random: &mut Random, sources: &[bool]) -> Vec<Channel> {
    let fed: Vec<usize> = (0..sources.len()).filter(|p| !sources[*p]).collect();
    let mut channels = Vec::new();
    for &to in &fed {
        let from = match random.chance(1, 2) {
            true => to - 1,
            false => random.below(to),
        };
        channels.push(channel(from as i64, to as i64));
    }
    if fed.is_empty() {
        return channels;
    }
    let room = 33 - channels.len();
    let extra = match random.below(3) {
        0 => random.below(room),
        1 => random.below(room.min(8)),
        _ => random.below(room.min(3)),
    };
    for _ in 0..extra {
        let doubled = random.pick(&channels);
        let to = random.pick(&fed);
        let from = random.below(to);
        channels.push(match random.chance(1, 3) {
            true => doubled,
            false => channel(from as i64, to as i64),
        });
    }
    channels
}

fn random_records(random: &mut Random, shape: &Shape) -> Vec<Record> {
    let number = more_often_many(random, shape.records + 1);
    let cylinders = random.pick(&[1, 3, 20, 20]);
    let width = random.pick(&[3, 50, 50, 2_000_000_000]);
    let one = |random: &mut Random| Record {
        cylinder: random.between(1, cylinders),
        value: match shape.extreme {
            true => extreme_value(random),
            false => random.between(-width, width),
        },
    };
    (0..number).map(|_| one(random)).collect()
}

/// Values at and beside the ends of 32 bits, and around zero.
pub fn extreme_value(random: &mut Random) -> i64 {
    let near = random.between(0, 2);
    let power = 1i64 << random.between(0, 30);
    let candidates = [
        i64::from(i32::MIN) + near,
        i64::from(i32::MAX) - near,
        near - 1,
        power - near,
        near - power,
        i64::from(i32::MIN),
        i64::from(i32::MAX),
    ];
    random.pick(&candidates)
}

/// A part of the records: empty, all of them, or anything between; parts may overlap.
fn random_part(random: &mut Random, records: usize) -> Task {
    let records = records as i64;
    let start = random.between(0, records);
    let length = random.between(0, records - start);
    match random.below(8) {
        0 => source(start, 0),
        1..=3 => source(0, records.min(4_096)),
        4 => source(start, (records - start).min(4_096)),
        _ => source(start, length.min(4_096)),
    }
}

/// A rule for a task that is no source; Spread more often where it has a choice.
fn random_rule(random: &mut Random, job: &Job, number: usize, extreme: bool) -> Task {
    let from_here = |c: &&Channel| c.from == number as i64;
    let outputs = job.channels.iter().filter(from_here).count();
    if outputs > 1 && random.chance(1, 3) {
        return Task {
            kind: SPREAD,
            ..pass()
        };
    }
    match random.below(6) {
        0 | 1 => pass(),
        2 => random_range(random, job, extreme),
        3 => Task {
            kind: SCALE,
            a: random.pick(&[0, 1, 1, 2, 3, 7, 15, 29, 30, 30]),
            b: 0,
        },
        4 => random_cylinders(random),
        _ => Task {
            kind: SPREAD,
            ..pass()
        },
    }
}

fn random_range(random: &mut Random, job: &Job, extreme: bool) -> Task {
    let bound = |random: &mut Random| match job.records.is_empty() || random.chance(1, 4) {
        true if extreme => extreme_value(random),
        true => random.between(-60, 60),
        false => random.pick(&job.records).value,
    };
    let (one, other) = (bound(random), bound(random));
    let (a, b) = match random.below(5) {
        // Reversed bounds drop everything.
        0 => (one.max(other), one.min(other)),
        1 => (i64::from(i32::MIN), other),
        _ => (one.min(other), one.max(other)),
    };
    Task { kind: RANGE, a, b }
}

fn random_cylinders(random: &mut Random) -> Task {
    let one = random.between(-1, 22);
    let other = random.between(-1, 22);
    let (a, b) = match random.below(6) {
        0 => (one.max(other), one.min(other)),
        1 => (i64::from(i32::MIN), i64::from(i32::MAX)),
        _ => (one.min(other), one.max(other)),
    };
    Task {
        kind: CYLINDER,
        a,
        b,
    }
}

/// Shortens sources until the worst counts keep within the budget.
fn shorten(random: &mut Random, job: &mut Job, budget: u128) {
    loop {
        let counts = worst(job, Fault::None);
        if counts.iter().sum::<u128>() <= budget {
            return;
        }
        let tasks = job.tasks.iter_mut();
        for task in tasks.filter(|task| task.kind == SOURCE) {
            task.b -= (task.b + 2) / 3 * random.between(0, 1);
        }
    }
}
