//! Shows for each seeded fault a case on which it is seen.

use crate::cases;
use crate::child;
use crate::fault::{Entry, Fault, Stage, ALL};
use crate::job::check;
use crate::lists::DRAIN_LIMIT;
use crate::output::{account, print, Account, Program};
use crate::text;

/// A wrong rule may accept what has no end: its drain is given up after so many steps.
const QUICK_LIMIT: u64 = 2_000_000;

/// One case with what the programs printed for it.
pub struct Case<'a> {
    pub kind: &'a str,
    pub seed: u64,
    pub text: &'a [u8],
    pub totals: &'a [u8],
    pub trace: &'a [u8],
}

/// The faults that no case has shown yet.
pub struct Hunt {
    pub uncaught: Vec<Entry>,
    pub caught: usize,
}

impl Hunt {
    pub fn new() -> Hunt {
        Hunt {
            uncaught: ALL.to_vec(),
            caught: 0,
        }
    }

    /// Tries all faults not yet caught on this case; what was caught, one line each.
    pub fn try_case(&mut self, case: &Case) -> Vec<String> {
        let mut lines = Vec::new();
        self.uncaught.retain(|entry| match seen(entry, case) {
            Some(program) => {
                let Case { kind, seed, .. } = case;
                let program = program.name();
                lines.push(format!("{}: {kind} {seed} {program}", entry.name));
                false
            }
            None => true,
        });
        self.caught += lines.len();
        lines
    }
}

/// The program whose output shows the fault on this case.
pub fn seen(entry: &Entry, case: &Case) -> Option<Program> {
    if !reaches(entry, case.text) {
        return None;
    }
    let account = account(case.text, entry.fault, QUICK_LIMIT);
    let given_up = matches!(&account, Account::Done(done) if done.drain == (18, QUICK_LIMIT));
    let pairs = [(Program::Totals, case.totals), (Program::Trace, case.trace)];
    let differs = |(program, printed): &(Program, &[u8])| match given_up {
        // What an endless drain would print is unknown, but it is no refusal of text or job.
        true => printed.starts_with(b"refused"),
        false => print(*program, &account) != *printed,
    };
    pairs.into_iter().find(differs).map(|(program, _)| program)
}

/// Is the wrong rule consulted to any effect before the run? If not, the run needs no look.
fn reaches(entry: &Entry, bytes: &[u8]) -> bool {
    let right = text::read(bytes, Fault::None);
    match (entry.stage, right) {
        (Stage::Text, right) => text::read(bytes, entry.fault) != right,
        (_, None) => false,
        (Stage::Job, Some(text)) => check(&text.job, entry.fault) != check(&text.job, Fault::None),
        (Stage::Run, Some(_)) => true,
    }
}

/// This program's own outputs for a text, without a fault.
pub fn own_outputs(text: &[u8]) -> (Vec<u8>, Vec<u8>) {
    let account = account(text, Fault::None, DRAIN_LIMIT);
    let totals = print(Program::Totals, &account);
    (totals, print(Program::Trace, &account))
}

/// The cheap kinds first: the others are tried only for faults that are still silent.
const ORDER: [&str; 5] = ["accepted", "broken", "jobs", "limits", "heavy"];

/// For each fault a case on which this program with the fault differs from the other program; the other program is run on that
/// very case, and has to print what this one prints without a fault. True when every fault was caught.
pub fn catch(totals: &str, trace: &str, from: u64, count: u64) -> bool {
    let mut hunt = Hunt::new();
    let mut disagreements = 0;
    for kind in ORDER {
        for place in 0..count {
            if hunt.uncaught.is_empty() {
                break;
            }
            let seed = from.wrapping_add(place);
            match try_programs(&mut hunt, totals, trace, kind, seed) {
                Ok(lines) => lines.iter().for_each(|line| println!("{line}")),
                Err(reason) => {
                    println!("without any fault {kind} {seed}: {reason}");
                    disagreements += 1;
                }
            }
        }
    }
    for entry in &hunt.uncaught {
        println!("not caught: {}", entry.name);
    }
    // A program that differs anyway proves no fault caught: each such case counts as failed.
    let failed = hunt.uncaught.len() + disagreements;
    println!("catch: {} passed, {failed} failed", hunt.caught);
    failed == 0
}

/// Asks the other programs only where some fault would be seen.
fn try_programs(
    hunt: &mut Hunt,
    totals: &str,
    trace: &str,
    kind: &str,
    seed: u64,
) -> Result<Vec<String>, String> {
    let text = cases::generate(kind, seed).ok_or("unknown kind")?;
    let (own_totals, own_trace) = own_outputs(&text);
    let own = Case {
        kind,
        seed,
        text: &text,
        totals: &own_totals,
        trace: &own_trace,
    };
    let shown = |entry: &Entry| seen(entry, &own).is_some();
    if !hunt.uncaught.iter().any(shown) {
        return Ok(Vec::new());
    }
    let totals = child::ask(totals, &text)?;
    let trace = child::ask(trace, &text)?;
    if (&totals, &trace) != (&own_totals, &own_trace) {
        return Err("the program and this one differ".to_string());
    }
    Ok(hunt.try_case(&Case {
        totals: &totals,
        trace: &trace,
        ..own
    }))
}
