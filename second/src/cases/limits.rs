//! Values, parameters, parts, steps and texts at the ends of what is allowed.

use super::graph::{self, channel, extreme_value, pass, source, Shape};
use super::mixed::{filled, with_steps};
use super::steps::noise;
use crate::job::{Job, Record, Task, RANGE, SCALE, SPREAD};
use crate::random::Random;
use crate::text::{Text, LONGEST};

pub fn text(random: &mut Random) -> Text {
    // Thousands of steps take their time: a few of these are enough.
    if random.chance(1, 25) {
        return filled(random);
    }
    let mut text = match random.below(10) {
        0 => {
            let job = longest_parts(random);
            with_steps(random, job, 60)
        }
        1 => {
            let job = full_size(random);
            with_steps(random, job, 200)
        }
        _ => {
            let shape = Shape {
                tasks: 8,
                records: 30,
                budget: 4_000,
                extreme: true,
            };
            let job = graph::accepted(random, &shape);
            with_steps(random, job, 80)
        }
    };
    for _ in 0..random.below(6) {
        let place = random.below(text.steps.len() + 1);
        text.steps.insert(place, noise(random));
    }
    text.steps.push(65_535);
    text
}

/// 4,096 records, as many of them at the ends of 32 bits as the text's size allows.
fn longest_parts(random: &mut Random) -> Job {
    let mut job = Job::default();
    let number = 4_096 + random.between(0, 40);
    let mut spare = LONGEST as i64 - 14 * number - 2_500;
    for _ in 0..number {
        let value = match spare > 12 && random.chance(1, 7) {
            true => extreme_value(random),
            false => random.between(0, 9),
        };
        spare -= value.to_string().len() as i64 - 1;
        let cylinder = random.between(1, 9);
        job.records.push(Record { cylinder, value });
    }
    job.tasks.push(source(0, 4_096));
    job.tasks.push(source(number - 4_096, 4_096));
    for (from, to) in [(0, 2), (1, 2), (2, 3), (2, 4), (2, 4), (3, 4)] {
        job.channels.push(channel(from, to));
    }
    let scale = random.pick(&[0, 1, 30]);
    let rules = [
        (SPREAD, 0, 0),
        (SCALE, scale, 0),
        (RANGE, i64::from(i32::MIN), 0),
    ];
    for (kind, a, b) in rules {
        job.tasks.push(Task { kind, a, b });
    }
    job
}

/// 16 tasks and 32 channels, values at the ends.
fn full_size(random: &mut Random) -> Job {
    let mut job = Job::default();
    for _ in 0..random.between(1, 12) {
        job.records.push(Record {
            cylinder: random.pick(&[1, 20, 2, 19]),
            value: extreme_value(random),
        });
    }
    let records = job.records.len() as i64;
    job.tasks = vec![source(0, records), source(records, 0)];
    while job.tasks.len() < 16 {
        let to = job.tasks.len() as i64;
        job.tasks.push(match random.below(3) {
            0 => Task {
                kind: SCALE,
                a: random.pick(&[0, 30]),
                b: 0,
            },
            1 => Task {
                kind: SPREAD,
                ..pass()
            },
            _ => pass(),
        });
        job.channels.push(channel(random.between(0, to - 1), to));
    }
    let middle = random.between(2, 15);
    while job.channels.len() < 32 {
        // From the sources only: the records do not multiply along walks.
        let from = random.between(0, 1);
        job.channels.push(channel(from, middle.max(2)));
    }
    random.shuffle(&mut job.channels);
    job
}
