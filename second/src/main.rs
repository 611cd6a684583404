//! The independent second program: document 01 by ordinary mutable means, its comparison with
//! other programs on generated cases, and seeded faults that such a comparison has to show.

mod cases;
mod catch;
mod check;
mod child;
mod compare;
mod direct;
mod fault;
mod job;
mod lists;
mod output;
mod promises;
mod random;
mod run;
mod snapshot;
mod text;
mod totals;

use compare::Plan;
use fault::Fault;
use output::Program;
use std::io::{self, Read, Write};
use std::process::ExitCode;

const USAGE: &str = "usage:
  second totals [--fault NAME] < text
  second trace [--fault NAME] < text
  second gen SEED KIND
  second compare --kind KIND --from SEED --count N (--totals CMD | --trace CMD) [--jobs J]
  second catch --totals CMD --trace CMD --from SEED --count N
  second faults
  second check
kinds: accepted broken jobs limits heavy";

fn main() -> ExitCode {
    let words: Vec<String> = std::env::args().skip(1).collect();
    let command = words.first().map(String::as_str);
    let good = match command {
        Some("totals") => program(Program::Totals, &words),
        Some("trace") => program(Program::Trace, &words),
        Some("gen") => generate(&words),
        Some("compare") => plan(&words).map(|plan| compare::compare(&plan)),
        Some("catch") => catch_all(&words),
        Some("faults") => Some(list_faults()),
        Some("check") => Some(check::check()),
        _ => None,
    };
    match good {
        Some(true) => ExitCode::SUCCESS,
        Some(false) => ExitCode::FAILURE,
        None => {
            eprintln!("{USAGE}");
            ExitCode::from(2)
        }
    }
}

/// The word behind an option's name.
fn option<'a>(words: &'a [String], name: &str) -> Option<&'a str> {
    let place = words.iter().position(|word| word == name)?;
    words.get(place + 1).map(String::as_str)
}

fn number(words: &[String], name: &str) -> Option<u64> {
    option(words, name)?.parse().ok()
}

/// A reader may stop early: a broken pipe is no failure.
fn write_out(bytes: &[u8]) -> bool {
    let mut out = io::stdout().lock();
    match out.write_all(bytes).and_then(|()| out.flush()) {
        Ok(()) => true,
        Err(error) => error.kind() == io::ErrorKind::BrokenPipe,
    }
}

fn program(program: Program, words: &[String]) -> Option<bool> {
    let fault = match (words.len(), option(words, "--fault")) {
        (1, _) => Fault::None,
        (3, Some(name)) => fault::named(name)?,
        _ => return None,
    };
    let mut text = Vec::new();
    // Well above the limit, so that no fault of the limit is cut off; the rest is read and dropped.
    let mut input = io::stdin().lock();
    let kept = input.by_ref().take(1 << 20).read_to_end(&mut text);
    let dropped = io::copy(&mut input, &mut io::sink());
    if kept.is_err() || dropped.is_err() {
        return Some(false);
    }
    let account = output::account(&text, fault, lists::DRAIN_LIMIT);
    Some(write_out(&output::print(program, &account)))
}

fn generate(words: &[String]) -> Option<bool> {
    let [_, seed, kind] = words else { return None };
    let text = cases::generate(kind, seed.parse().ok()?)?;
    Some(write_out(&text))
}

fn plan(words: &[String]) -> Option<Plan> {
    let kind = option(words, "--kind")?;
    let (program, command) = match (option(words, "--totals"), option(words, "--trace")) {
        (Some(command), None) => (Program::Totals, command),
        (None, Some(command)) => (Program::Trace, command),
        _ => return None,
    };
    let cores = std::thread::available_parallelism().map_or(1, |cores| cores.get());
    let workers = match option(words, "--jobs") {
        Some(word) => word.parse().ok()?,
        None => cores,
    };
    cases::KINDS.contains(&kind).then(|| Plan {
        program,
        command: command.to_string(),
        kind: kind.to_string(),
        from: number(words, "--from").unwrap_or(0),
        count: number(words, "--count").unwrap_or(100),
        workers,
    })
}

fn catch_all(words: &[String]) -> Option<bool> {
    let totals = option(words, "--totals")?;
    let trace = option(words, "--trace")?;
    let from = number(words, "--from")?;
    let count = number(words, "--count")?;
    Some(catch::catch(totals, trace, from, count))
}

fn list_faults() -> bool {
    let mut lines = String::new();
    for entry in fault::ALL {
        lines.push_str(&format!("{}: {}\n", entry.name, entry.rule));
    }
    write_out(lines.as_bytes())
}
