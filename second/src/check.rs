//! The self test: the worked station, the single table, the promises, and no fault silent.

use crate::cases;
use crate::catch::{own_outputs, Case, Hunt};
use crate::direct::evaluate;
use crate::fault::Fault;
use crate::job::{check as answer, Accepted, Channel, Job, Record, Task};
use crate::lists::DRAIN_LIMIT;
use crate::output::{account, agrees_with_direct, print, Program};
use crate::promises;
use crate::run::Stepper;
use crate::text::{self, Text};
use crate::totals::{totals, Totals};

struct Tally {
    passed: u64,
    failed: u64,
}

impl Tally {
    fn note(&mut self, name: &str, kept: bool) {
        match kept {
            true => self.passed += 1,
            false => {
                self.failed += 1;
                println!("failed: {name}");
            }
        }
    }
}

/// Runs the self test; true when nothing failed.
pub fn check() -> bool {
    let mut tally = Tally {
        passed: 0,
        failed: 0,
    };
    if let Ok(station) = Accepted::new(station().job, Fault::None) {
        station_runs(&mut tally, &station);
        station_drains(&mut tally, &station);
    }
    station_text(&mut tally);
    table(&mut tally);
    refused_evaluations(&mut tally);
    generated(&mut tally);
    faults(&mut tally);
    println!("check: {} passed, {} failed", tally.passed, tally.failed);
    tally.failed == 0
}

fn job(tasks: &[(i64, i64, i64)], channels: &[(i64, i64)], records: &[(i64, i64)]) -> Job {
    let task = |&(kind, a, b): &(i64, i64, i64)| Task { kind, a, b };
    let channel = |&(from, to): &(i64, i64)| Channel { from, to };
    let record = |&(cylinder, value): &(i64, i64)| Record { cylinder, value };
    Job {
        tasks: tasks.iter().map(task).collect(),
        channels: channels.iter().map(channel).collect(),
        records: records.iter().map(record).collect(),
    }
}

fn station() -> Text {
    let tasks = [(0, 0, 3), (0, 3, 2), (3, 1, 0), (2, -10, 10), (1, 0, 0)];
    let channels = [(0, 2), (1, 2), (2, 3), (0, 4), (3, 4)];
    let records = [(1, 7), (2, -5), (3, 40), (1, -3), (4, 9)];
    let steps = [
        32, 64, 48, 32, 0, 0, 0, 33, 33, 49, 1, 1, 1, 0, 3, 3, 2, 2, 2, 2, 4, 4, 4, 4,
    ];
    Text {
        job: job(&tasks, &channels, &records),
        steps: steps.to_vec(),
    }
}

fn station_snapshot() -> Vec<Totals> {
    let rows = [
        [1, 7, 7, 7],
        [2, 6, -3, 9],
        [3, 13, -3, 9],
        [3, 6, -1, 4],
        [4, 13, -1, 7],
    ];
    rows.map(totals).to_vec()
}

fn station_runs(tally: &mut Tally, accepted: &Accepted) {
    let mut stepper = Stepper::new(accepted, Fault::None);
    let (answers, done, refused) = stepper.list(&station().steps);
    let mut expected = vec![0; 24];
    expected[6] = 12;
    expected[23] = 20;
    tally.note("the station's answers", answers == expected);
    tally.note("the station's list", (done, refused) == (23, 1));
    let snapshot = stepper.run.complete.as_ref() == Some(&station_snapshot());
    tally.note("the station's snapshot", snapshot);
    let direct = evaluate(&accepted.job, &[1, 2, 0, 0, 0]);
    let evaluated = direct.is_ok_and(|found| found.totals == station_snapshot());
    tally.note("the station's snapshot by direct evaluation", evaluated);
    let kept = promises::keep(accepted, &station().steps);
    tally.note("the station's promises", kept == Ok(2));
}

fn station_drains(tally: &mut Tally, accepted: &Accepted) {
    let stepped = || {
        let mut stepper = Stepper::new(accepted, Fault::None);
        stepper.list(&station().steps);
        stepper
    };
    let drained = stepped().drain(DRAIN_LIMIT);
    tally.note("the station's drain", drained == (0, 7));
    let mut after_cut = stepped();
    tally.note("the station's cut", after_cut.step(65) == 0);
    let restored = after_cut.run.live == station_snapshot();
    tally.note("the station's totals after the cut", restored);
    let drained = after_cut.drain(DRAIN_LIMIT);
    tally.note("the station's drain after the cut", drained == (0, 9));
    let drained = Stepper::new(accepted, Fault::None).drain(DRAIN_LIMIT);
    tally.note("the fresh station's drain", drained == (0, 22));
}

fn station_text(tally: &mut Tally) {
    let expected = b"task,count,sum,least,greatest\r\n0,3,42,-5,40\r\n1,2,6,-3,9\r\n\
        2,5,48,-5,40\r\n3,5,24,-2,20\r\n4,7,46,-5,40\r\n";
    let mut text = station();
    for name in ["the station's table", "the table without steps"] {
        let bytes = text.bytes();
        let read = text::read(&bytes, Fault::None);
        let found = account(&bytes, Fault::None, DRAIN_LIMIT);
        let same = print(Program::Totals, &found) == expected;
        tally.note(name, same && agrees_with_direct(&bytes, &found));
        tally.note("reading what was written", read.as_ref() == Some(&text));
        text.steps.clear();
    }
}

/// A source of 4,096 and so many Pass tasks in a chain with doubled channels.
fn chain(passes: i64) -> Job {
    let mut tasks = vec![(0, 0, 4_096)];
    let mut channels = Vec::new();
    for number in 1..=passes {
        tasks.push((1, 0, 0));
        channels.extend([(number - 1, number); 2]);
    }
    job(&tasks, &channels, &[(1, 0); 4_096])
}

/// What a source's one record comes to at the tasks behind a task of this kind.
fn behind(rule: (i64, i64, i64), outputs: usize, record: (i64, i64)) -> Vec<Totals> {
    let mut tasks = vec![(0, 0, 1), rule];
    let mut channels = vec![(0, 1)];
    for place in 0..outputs {
        tasks.push((1, 0, 0));
        channels.push((1, 2 + place as i64));
    }
    let single = job(&tasks, &channels, &[record]);
    let Ok(accepted) = Accepted::new(single, Fault::None) else {
        return Vec::new();
    };
    let mut stepper = Stepper::new(&accepted, Fault::None);
    stepper.drain(DRAIN_LIMIT);
    stepper.run.live[2..].to_vec()
}

fn table(tally: &mut Tally) {
    let sources = |number: usize| job(&vec![(0, 0, 0); number], &[], &[]);
    tally.note("0 tasks", answer(&sources(0), Fault::None) == 1);
    tally.note("16 tasks", answer(&sources(16), Fault::None) == 0);
    tally.note("17 tasks", answer(&sources(17), Fault::None) == 1);
    let one = |value: i64| vec![totals([1, value, value, value])];
    let none = totals([0, 0, 0, 0]);
    let least = i64::from(i32::MIN);
    let scaled = |a: i64, value: i64| behind((3, a, 0), 1, (1, value));
    tally.note("Scale 1 of -5", scaled(1, -5) == one(-2));
    tally.note("Scale 30 of -2^31", scaled(30, least) == one(-2));
    tally.note("Scale 30 of -1", scaled(30, -1) == one(0));
    let ranged = behind((2, 10, -10), 1, (1, 0));
    tally.note("Range 10,-10 drops 0", ranged == vec![none]);
    let spread = behind((5, 0, 0), 3, (20, 7));
    let place_1 = vec![none, totals([1, 7, 7, 7]), none];
    tally.note("Spread of cylinder 20", spread == place_1);
    tally.note("8 Pass tasks", answer(&chain(8), Fault::None) == 0);
    tally.note("9 Pass tasks", answer(&chain(9), Fault::None) == 9);
    let fed_by_itself = job(&[(1, 0, 0)], &[(0, 0)], &[]);
    tally.note("fed by itself", answer(&fed_by_itself, Fault::None) == 8);
}

fn refused_evaluations(tally: &mut Tally) {
    let station = station().job;
    let refusals = [
        ("too few counts", vec![3, 2, 0, 0]),
        ("too many counts", vec![3, 2, 0, 0, 0, 0]),
        ("a count above b", vec![4, 2, 0, 0, 0]),
        ("a count for no source", vec![3, 2, 0, 1, 0]),
    ];
    for (name, counts) in refusals {
        tally.note(name, evaluate(&station, &counts) == Err(35));
    }
    tally.note("no job", evaluate(&Job::default(), &[]) == Err(1));
}

/// The promises on generated cases: every complete snapshot, every drain, the step formula.
fn generated(tally: &mut Tally) {
    let mut completed = 0;
    for (kind, count) in [("accepted", 500), ("limits", 120)] {
        for seed in 0..count {
            let bytes = cases::generate(kind, seed).unwrap_or_default();
            let text = text::read(&bytes, Fault::None).unwrap_or_default();
            let kept = Accepted::new(text.job, Fault::None)
                .map_err(|number| format!("answers {number}"))
                .and_then(|accepted| promises::keep(&accepted, &text.steps));
            let name = format!("{kind} {seed}: {kept:?}");
            completed += kept.as_ref().unwrap_or(&0);
            tally.note(&name, kept.is_ok());
        }
    }
    tally.note("some hundred snapshots complete", completed > 500);
    for kind in ["heavy", "jobs", "broken"] {
        for seed in 0..40 {
            let bytes = cases::generate(kind, seed).unwrap_or_default();
            let found = account(&bytes, Fault::None, DRAIN_LIMIT);
            let name = format!("{kind} {seed}: direct evaluation");
            tally.note(&name, agrees_with_direct(&bytes, &found));
        }
    }
}

/// Every fault is caught by some case.
fn faults(tally: &mut Tally) {
    let mut hunt = Hunt::new();
    for seed in 0..200 {
        for kind in cases::KINDS {
            if hunt.uncaught.is_empty() {
                continue;
            }
            let text = cases::generate(kind, seed).unwrap_or_default();
            let (totals, trace) = own_outputs(&text);
            let case = Case {
                kind,
                seed,
                text: &text,
                totals: &totals,
                trace: &trace,
            };
            tally.passed += hunt.try_case(&case).len() as u64;
        }
    }
    for entry in &hunt.uncaught {
        tally.note(entry.name, false);
    }
}
