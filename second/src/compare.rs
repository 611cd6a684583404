//! Comparison of another program with this one, byte for byte, on generated cases.

use crate::cases;
use crate::child;
use crate::fault::Fault;
use crate::lists::DRAIN_LIMIT;
use crate::output::{account, agrees_with_direct, print, Program};
use std::sync::atomic::{AtomicU64, Ordering};
use std::sync::Mutex;
use std::time::{Duration, Instant};

/// Between two lines of progress.
const BETWEEN_LINES: Duration = Duration::from_secs(10);

/// What is to be compared.
pub struct Plan {
    pub program: Program,
    pub command: String,
    pub kind: String,
    pub from: u64,
    pub count: u64,
    pub workers: usize,
}

struct Progress {
    passed: u64,
    failed: Vec<u64>,
    said: Instant,
}

/// Compares all cases; true when none failed.
pub fn compare(plan: &Plan) -> bool {
    let next = AtomicU64::new(0);
    let progress = Mutex::new(Progress {
        passed: 0,
        failed: Vec::new(),
        said: Instant::now(),
    });
    std::thread::scope(|scope| {
        for _ in 0..plan.workers.max(1) {
            scope.spawn(|| work(plan, &next, &progress));
        }
    });
    let mut progress = progress.into_inner().unwrap_or_else(|p| p.into_inner());
    progress.failed.sort_unstable();
    if progress.failed.len() > 1 {
        let seeds: Vec<String> = progress.failed.iter().map(u64::to_string).collect();
        let shown = seeds.len().min(20);
        eprintln!("failed seeds, first {shown}: {}", seeds[..shown].join(" "));
    }
    let failed = progress.failed.len();
    println!(
        "compare {} {}: {} passed, {failed} failed",
        plan.program.name(),
        plan.kind,
        progress.passed
    );
    failed == 0
}

fn work(plan: &Plan, next: &AtomicU64, progress: &Mutex<Progress>) {
    loop {
        let place = next.fetch_add(1, Ordering::Relaxed);
        if place >= plan.count {
            return;
        }
        let seed = plan.from.wrapping_add(place);
        let result = one(plan, seed);
        let mut progress = progress.lock().unwrap_or_else(|p| p.into_inner());
        match result {
            Ok(()) => progress.passed += 1,
            Err(reason) => {
                if progress.failed.is_empty() {
                    show(plan, seed, &reason);
                }
                progress.failed.push(seed);
            }
        }
        if progress.said.elapsed() >= BETWEEN_LINES {
            progress.said = Instant::now();
            let failed = progress.failed.len();
            let done = progress.passed + failed as u64;
            let program = plan.program.name();
            let Plan { kind, count, .. } = plan;
            eprintln!("{program} {kind}: {done} of {count}, {failed} failed");
        }
    }
}

fn one(plan: &Plan, seed: u64) -> Result<(), String> {
    let text = cases::generate(&plan.kind, seed).ok_or("unknown kind")?;
    let account = account(&text, Fault::None, DRAIN_LIMIT);
    if !agrees_with_direct(&text, &account) {
        return Err("this program's run differs from its direct evaluation".to_string());
    }
    let own = print(plan.program, &account);
    let other = child::ask(&plan.command, &text)?;
    difference(&own, &other)
}

/// Says where two outputs part.
fn difference(own: &[u8], other: &[u8]) -> Result<(), String> {
    if own == other {
        return Ok(());
    }
    let lines = |bytes: &[u8]| -> Vec<String> {
        let text = String::from_utf8_lossy(bytes).into_owned();
        text.split('\n').map(|line| format!("{line:?}")).collect()
    };
    let (own, other) = (lines(own), lines(other));
    let same = own.iter().zip(&other).take_while(|(a, b)| a == b).count();
    let line = |list: &[String]| list.get(same).cloned().unwrap_or("nothing".to_string());
    Err(format!(
        "line {}: it prints {}, expected {}",
        same + 1,
        line(&other),
        line(&own)
    ))
}

fn show(plan: &Plan, seed: u64, reason: &str) {
    let kind = &plan.kind;
    let program = plan.program.name();
    eprintln!("first difference, {kind} seed {seed}: {reason}");
    let second = std::env::args().next().unwrap_or("second".to_string());
    eprintln!("  {second} gen {seed} {kind} | {}", plan.command);
    eprintln!("  {second} gen {seed} {kind} | {second} {program}");
}
