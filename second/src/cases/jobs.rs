//! Jobs at each answer 1 to 9, often with a second fault, and jobs just inside each limit.

use super::graph::{self, channel, pass, source, Shape};
use super::mixed::with_steps;
use super::steps::noise;
use crate::job::{Job, Record, Task, CYLINDER, PASS, RANGE, SCALE, SOURCE, SPREAD};
use crate::random::Random;
use crate::text::Text;

const LEAST: i64 = i32::MIN as i64;
const GREATEST: i64 = i32::MAX as i64;

pub fn text(random: &mut Random, seed: u64) -> Text {
    let turn = seed % 20;
    let (mut job, first) = first_fault(random, turn, seed / 20);
    let second = match (first, random.below(4)) {
        (_, 0) if turn < 17 => random.between(1, 8),
        (1.., 1 | 2) => first + random.pick(&[-1, 1]),
        _ => 0,
    };
    spoil(random, &mut job, second);
    let mut text = with_steps(random, job, 30);
    if text.steps.is_empty() {
        text.steps = (0..random.below(6)).map(|_| noise(random)).collect();
    }
    text
}

/// A job for the seed's place in turn, and the answer it is meant to meet (0 for none).
fn first_fault(random: &mut Random, turn: u64, round: u64) -> (Job, i64) {
    let mut job = base(random);
    let answer = match turn {
        0..=7 => turn as i64 + 1,
        8 | 9 => 9,
        _ => 0,
    };
    match turn {
        7 if random.chance(1, 2) => job = ring(random),
        8 | 9 => job = at_worst(random, 1),
        10 | 11 => job = at_worst(random, 0),
        12 => job.tasks.resize(16, source(0, 0)),
        13 => double_to(random, &mut job, 32),
        14 => part_edges(random, &mut job),
        15 => value_edges(random, &mut job),
        16 => return (unusual(random, round), 0),
        17..=19 => just_outside(random, &mut job, turn, round),
        _ => spoil(random, &mut job, answer),
    }
    (job, answer)
}

/// A small accepted job with something of everything to spoil.
fn base(random: &mut Random) -> Job {
    let shape = Shape {
        tasks: 7,
        records: 12,
        budget: 2_000,
        extreme: false,
    };
    loop {
        let job = graph::accepted(random, &shape);
        if job.records.len() > 2 && !job.channels.is_empty() {
            return job;
        }
    }
}

fn spoil(random: &mut Random, job: &mut Job, answer: i64) {
    match answer {
        1 if random.chance(1, 4) => job.tasks.clear(),
        1 => {
            let tasks = random.pick(&[17, 17, 18, 30]);
            job.tasks.resize(tasks, source(0, 0));
        }
        2 => {
            let channels = random.pick(&[33, 33, 34, 60]);
            double_to(random, job, channels);
        }
        3 => spoil_task(random, job),
        4 => {
            let value = random.between(-9, 9);
            let cylinder = random.pick(&[0, 0, 21, 21, -1, 22, LEAST, GREATEST]);
            let place = random.below(job.records.len() + 1);
            job.records.insert(place, Record { cylinder, value });
        }
        5 => spoil_part(random, job),
        6 => spoil_end(random, job),
        7 => spoil_inputs(random, job),
        8 => spoil_walk(random, job),
        9 => *job = at_worst(random, 1),
        _ => {}
    }
}

/// Repeats channels of the job until it has so many.
fn double_to(random: &mut Random, job: &mut Job, channels: usize) {
    let Some(&first) = job.channels.first() else {
        return;
    };
    while job.channels.len() < channels {
        // Mostly one channel again and again, so that no worst count runs away.
        let again = match random.chance(1, 12) {
            true => random.pick(&job.channels),
            false => first,
        };
        job.channels.push(again);
    }
}

fn spoil_task(random: &mut Random, job: &mut Job) {
    if job.tasks.is_empty() {
        return;
    }
    let wrong = [
        (-1, 0, 0),
        (6, 0, 0),
        (LEAST, 0, 0),
        (GREATEST, 1, 1),
        (PASS, 1, 0),
        (PASS, 0, -1),
        (SPREAD, 0, 1),
        (SPREAD, GREATEST, 0),
        (SCALE, 31, 0),
        (SCALE, 31, 0),
        (SCALE, -1, 0),
        (SCALE, 30, 1),
        (SCALE, 32, 0),
        (SCALE, LEAST, LEAST),
    ];
    let (kind, a, b) = random.pick(&wrong);
    let place = pick_task(random, job, false).unwrap_or(0);
    job.tasks[place] = Task { kind, a, b };
}

/// Some task that is a source, or some that is none.
fn pick_task(random: &mut Random, job: &Job, of_sources: bool) -> Option<usize> {
    let fitting = |number: &usize| (job.tasks[*number].kind == SOURCE) == of_sources;
    let places: Vec<usize> = (0..job.tasks.len()).filter(fitting).collect();
    (!places.is_empty()).then(|| random.pick(&places))
}

fn spoil_part(random: &mut Random, job: &mut Job) {
    let Some(place) = pick_task(random, job, true) else {
        return;
    };
    let records = job.records.len() as i64;
    let wrong = [
        (-1, 1),
        (LEAST, 0),
        (0, -1),
        (0, LEAST),
        (0, 4_097),
        (0, records + 1),
        (1, records),
        (records, 1),
        (records + 1, 0),
        (GREATEST, GREATEST),
        (GREATEST, 1),
    ];
    let (a, b) = random.pick(&wrong);
    job.tasks[place] = source(a, b);
}

fn spoil_end(random: &mut Random, job: &mut Job) {
    let tasks = job.tasks.len() as i64;
    let nowhere = random.pick(&[tasks, tasks, -1, tasks + 1, 16, 65_536, LEAST, GREATEST]);
    let Some(last) = job.channels.len().checked_sub(1) else {
        job.channels.push(channel(nowhere, 0));
        return;
    };
    let place = random.between(0, last as i64) as usize;
    match random.below(3) {
        0 => job.channels[place].from = nowhere,
        1 => job.channels[place].to = nowhere,
        _ => job.channels.push(channel(nowhere, nowhere)),
    }
}

fn spoil_inputs(random: &mut Random, job: &mut Job) {
    let fed = pick_task(random, job, true);
    match (random.chance(1, 2), fed) {
        (true, Some(to)) => {
            let from = random.below(job.tasks.len());
            job.channels.push(channel(from as i64, to as i64));
        }
        _ => {
            let kind = random.pick(&[PASS, RANGE, CYLINDER, SPREAD, SCALE]);
            job.tasks.push(Task { kind, ..pass() });
        }
    }
}

fn spoil_walk(random: &mut Random, job: &mut Job) {
    let Some(to) = pick_task(random, job, false) else {
        return;
    };
    let to = to as i64;
    let next = job.channels.iter().find(|c| c.from == to);
    let from = match (next, random.chance(1, 2)) {
        (Some(next), true) => next.to,
        _ => to,
    };
    job.channels.push(channel(from, to));
}

/// A walk through many tasks that returns to its start, with a source that feeds it or without.
fn ring(random: &mut Random) -> Job {
    let length = random.between(1, 15);
    let mut job = Job {
        tasks: vec![pass(); length as usize],
        ..Job::default()
    };
    for from in 0..length {
        job.channels.push(channel(from, (from + 1) % length));
    }
    if random.chance(2, 3) {
        let to = random.between(0, length - 1);
        job.tasks.push(source(0, 0));
        job.channels.push(channel(length, to));
    }
    random.shuffle(&mut job.channels);
    job
}

/// A worst count of 1,048,576 and so many above it; the first Range drops every record.
fn at_worst(random: &mut Random, above: i64) -> Job {
    let (links, width) = random.pick(&[(14, 2), (7, 4), (14, 2)]);
    let mut job = Job::default();
    for _ in 0..64 {
        let cylinder = random.between(1, 20);
        job.records.push(Record { cylinder, value: 7 });
    }
    job.tasks = vec![source(0, 64), source(random.between(0, 63), above)];
    job.tasks.push(Task {
        kind: RANGE,
        a: 10,
        b: -10,
    });
    job.tasks.resize(2 + links, pass());
    let last = links as i64 + 1;
    for to in 2..=last {
        let from = if to == 2 { 0 } else { to - 1 };
        for _ in 0..width {
            job.channels.push(channel(from, to));
        }
    }
    job.channels.push(channel(1, last));
    if random.chance(1, 2) {
        random.shuffle(&mut job.channels);
    }
    job
}

/// Parts that end with the last record, and empty parts behind it.
fn part_edges(random: &mut Random, job: &mut Job) {
    let records = job.records.len() as i64;
    let edges = [(0, records), (records, 0), (records - 1, 1), (0, 0)];
    for task in &mut job.tasks {
        if task.kind == SOURCE {
            let (a, b) = random.pick(&edges);
            (task.a, task.b) = (a, b);
        }
    }
}

/// Cylinders 1 and 20, Scale 0 and 30, any bounds of Range and Cylinder.
fn value_edges(random: &mut Random, job: &mut Job) {
    for record in &mut job.records {
        record.cylinder = random.pick(&[1, 20]);
    }
    let edges = [
        (SCALE, 0, 0),
        (SCALE, 30, 0),
        (RANGE, LEAST, GREATEST),
        (RANGE, GREATEST, LEAST),
        (CYLINDER, LEAST, GREATEST),
        (CYLINDER, 20, 1),
    ];
    for task in &mut job.tasks {
        if task.kind != SOURCE {
            let (kind, a, b) = random.pick(&edges);
            *task = Task { kind, a, b };
        }
    }
}

/// One value one above or one below what answers 3, 4 and 5 allow.
fn just_outside(random: &mut Random, job: &mut Job, turn: u64, round: u64) {
    let records = job.records.len() as i64;
    let rules = [(SCALE, 31, 0), (PASS, 0, 1), (6, 0, 0), (SPREAD, 1, 0)];
    let parts = [(0, records + 1), (records + 1, 0), (-1, 0), (0, -1)];
    let place = (round % 4) as usize;
    match turn {
        17 => {
            let (kind, a, b) = rules[place];
            let task = pick_task(random, job, false).unwrap_or(0);
            job.tasks[task] = Task { kind, a, b };
        }
        18 => job.records[0].cylinder = 21 * (round % 2) as i64,
        _ => {
            let (a, b) = parts[place];
            let task = pick_task(random, job, true).unwrap_or(0);
            job.tasks[task] = source(a, b);
        }
    }
}

/// Small jobs that look wrong or are, and parts of 4,096 and 4,097 records.
fn unusual(random: &mut Random, round: u64) -> Job {
    let mut job = Job::default();
    let value = random.between(0, 9);
    match round % 5 {
        0 | 1 => {
            let length = 4_096 + (round % 5) as i64;
            let record = Record { cylinder: 1, value };
            job.records = vec![record; length as usize];
            job.tasks.push(source(0, length));
        }
        2 => {
            job.tasks.push(pass());
            job.channels.push(channel(0, 0));
        }
        3 => job.tasks.push(source(0, 0)),
        _ => {}
    }
    job
}
