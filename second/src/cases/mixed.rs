//! Accepted jobs with lists of steps: short ones of all shapes, and ones that fill the text.

use super::graph::{self, Shape};
use super::steps::Driver;
use crate::fault::Fault;
use crate::job::{Accepted, Job};
use crate::random::Random;
use crate::text::{Text, LONGEST};

pub fn accepted(random: &mut Random) -> Text {
    let shape = Shape {
        tasks: random.pick(&[3, 6, 6, 10, 16]),
        records: random.pick(&[0, 8, 20, 40, 80, 80]),
        budget: 6_000,
        extreme: false,
    };
    let mut job = graph::accepted(random, &shape);
    // Jobs without channels or work are soon known: a few of them are enough.
    while !lasts(&job, 20) && random.chance(4, 5) {
        job = graph::accepted(random, &shape);
    }
    let longest = random.pick(&[1, 40, 120, 300, 600]);
    let steps = random.below(longest);
    with_steps(random, job, steps)
}

/// The job with so many driven steps.
pub fn with_steps(random: &mut Random, job: Job, steps: usize) -> Text {
    let mut text = Text {
        job: job.clone(),
        steps: Vec::new(),
    };
    if let Ok(accepted) = Accepted::new(job, Fault::None) {
        let mut driver = Driver::new(&accepted);
        text.steps = (0..steps).map(|_| driver.next(random)).collect();
    }
    text
}

/// Enough records for a list of steps that ends near the text's limit.
pub fn filled(random: &mut Random) -> Text {
    let shape = Shape {
        tasks: random.pick(&[4, 8, 12, 16]),
        records: random.pick(&[150, 300, 600]),
        budget: 30_000,
        extreme: false,
    };
    let mut job = graph::accepted(random, &shape);
    while !lasts(&job, 2_000) {
        job = graph::accepted(random, &shape);
    }
    fill_text(random, job)
}

/// A job with channels and with work for so many steps, if nothing is dropped.
fn lasts(job: &Job, steps: u128) -> bool {
    let work: u128 = crate::job::worst(job, Fault::None).iter().sum();
    work >= steps && job.channels.len() >= 3
}

fn fill_text(random: &mut Random, job: Job) -> Text {
    let spare = random.below(40);
    let mut text = Text {
        job: job.clone(),
        steps: Vec::new(),
    };
    let mut length = text.bytes().len();
    if let Ok(accepted) = Accepted::new(job, Fault::None) {
        let mut driver = Driver::new(&accepted);
        loop {
            let number = driver.next(random);
            length += format!("step,{number},0,0\r\n").len();
            if length + spare > LONGEST {
                break;
            }
            text.steps.push(number);
        }
    }
    text
}
