//! The job: tasks, channels and records, and the nine answers that refuse it.

use crate::fault::Fault;

pub const SOURCE: i64 = 0;
pub const PASS: i64 = 1;
pub const RANGE: i64 = 2;
pub const SCALE: i64 = 3;
pub const CYLINDER: i64 = 4;
pub const SPREAD: i64 = 5;

/// No worst count and no task's count may pass this.
pub const COUNT_LIMIT: u64 = 1_048_576;

#[derive(Clone, Copy, PartialEq, Eq, Debug)]
pub struct Record {
    pub cylinder: i64,
    pub value: i64,
}

#[derive(Clone, Copy, PartialEq, Eq, Debug)]
pub struct Task {
    pub kind: i64,
    pub a: i64,
    pub b: i64,
}

#[derive(Clone, Copy, PartialEq, Eq, Debug)]
pub struct Channel {
    pub from: i64,
    pub to: i64,
}

#[derive(Clone, PartialEq, Eq, Debug, Default)]
pub struct Job {
    pub tasks: Vec<Task>,
    pub channels: Vec<Channel>,
    pub records: Vec<Record>,
}

/// An accepted job with the inputs and outputs of each task, in channel order.
pub struct Accepted {
    pub job: Job,
    pub to: Vec<usize>,
    pub inputs: Vec<Vec<usize>>,
    pub outputs: Vec<Vec<usize>>,
}

impl Accepted {
    pub fn new(job: Job, fault: Fault) -> Result<Accepted, u32> {
        match check(&job, fault) {
            0 => Ok(Accepted::wire(job)),
            number => Err(number),
        }
    }

    fn wire(job: Job) -> Accepted {
        let mut inputs = vec![Vec::new(); job.tasks.len()];
        let mut outputs = vec![Vec::new(); job.tasks.len()];
        for (number, channel) in job.channels.iter().enumerate() {
            inputs[channel.to as usize].push(number);
            outputs[channel.from as usize].push(number);
        }
        let to = job.channels.iter().map(|c| c.to as usize).collect();
        Accepted {
            job,
            to,
            inputs,
            outputs,
        }
    }

    pub fn is_source(&self, task: usize) -> bool {
        self.job.tasks[task].kind == SOURCE
    }
}

type Rule = (u32, fn(&Job, Fault) -> bool);

/// The first answer whose rule the job meets, or 0.
pub fn check(job: &Job, fault: Fault) -> u32 {
    let mut rules: [Rule; 9] = [
        (1, task_number),
        (2, channel_number),
        (3, task_values),
        (4, record_values),
        (5, source_parts),
        (6, channel_ends),
        (7, task_inputs),
        (8, walks),
        (9, worst_counts),
    ];
    match fault {
        Fault::PartsBeforeRecords => rules.swap(3, 4),
        Fault::LoopsBeforeInputs => rules.swap(6, 7),
        _ => {}
    }
    let met = rules.iter().find(|(_, rule)| rule(job, fault));
    met.map_or(0, |(number, _)| *number)
}

fn task_number(job: &Job, fault: Fault) -> bool {
    let most = 16 + usize::from(fault == Fault::SeventeenTasks);
    job.tasks.is_empty() || job.tasks.len() > most
}

fn channel_number(job: &Job, fault: Fault) -> bool {
    let most = 32 + usize::from(fault == Fault::ManyChannels);
    job.channels.len() > most
}

fn task_values(job: &Job, fault: Fault) -> bool {
    let scale = 30 + i64::from(fault == Fault::ScaleWide);
    let inside = |task: &Task| match task.kind {
        SOURCE | RANGE | CYLINDER => true,
        PASS | SPREAD => (task.a == 0 && task.b == 0) || fault == Fault::PassParameters,
        SCALE => (0..=scale).contains(&task.a) && task.b == 0,
        _ => false,
    };
    !job.tasks.iter().all(inside)
}

fn record_values(job: &Job, fault: Fault) -> bool {
    let first = 1 - i64::from(fault == Fault::CylinderZero);
    let inside = |record: &Record| (first..=20).contains(&record.cylinder);
    job.records.len() > 16_384 || !job.records.iter().all(inside)
}

fn source_parts(job: &Job, fault: Fault) -> bool {
    let records = job.records.len() as i64 - i64::from(fault == Fault::PartToEnd);
    let longest = 4_096 + i64::from(fault == Fault::LongPart);
    let outside =
        |task: &Task| task.a < 0 || !(0..=longest).contains(&task.b) || task.a + task.b > records;
    job.tasks.iter().any(|t| t.kind == SOURCE && outside(t))
}

fn channel_ends(job: &Job, _: Fault) -> bool {
    let names = |end: i64| (0..job.tasks.len() as i64).contains(&end);
    !job.channels.iter().all(|c| names(c.from) && names(c.to))
}

fn task_inputs(job: &Job, fault: Fault) -> bool {
    job.tasks.iter().enumerate().any(|(number, task)| {
        let fed = job.channels.iter().any(|c| c.to == number as i64);
        if task.kind == SOURCE {
            fed && fault != Fault::SourceInput
        } else {
            !fed
        }
    })
}

/// Is some task reached from itself along one or more channels?
fn walks(job: &Job, fault: Fault) -> bool {
    let tasks = job.tasks.len();
    let mut reaches = vec![vec![false; tasks]; tasks];
    for channel in &job.channels {
        let one_channel_loop = channel.from == channel.to;
        if !(one_channel_loop && fault == Fault::SelfLoop) {
            reaches[channel.from as usize][channel.to as usize] = true;
        }
    }
    for middle in 0..tasks {
        for from in 0..tasks {
            for to in 0..tasks {
                reaches[from][to] |= reaches[from][middle] && reaches[middle][to];
            }
        }
    }
    (0..tasks).any(|task| reaches[task][task])
}

/// As many rounds as tasks reach every worst count, since no walk is longer.
pub fn worst(job: &Job, fault: Fault) -> Vec<u128> {
    let mut worst = vec![0u128; job.tasks.len()];
    for _ in 0..job.tasks.len() {
        let before = worst.clone();
        for (number, task) in job.tasks.iter().enumerate() {
            let feeding = job.channels.iter().filter(|c| c.to == number as i64);
            let mut inputs: Vec<i64> = feeding.map(|c| c.from).collect();
            if fault == Fault::WorstByTasks {
                inputs.sort_unstable();
                inputs.dedup();
            }
            worst[number] = match task.kind {
                SOURCE => task.b as u128,
                _ => inputs.iter().map(|from| before[*from as usize]).sum(),
            };
        }
    }
    worst
}

fn worst_counts(job: &Job, fault: Fault) -> bool {
    let most = u128::from(COUNT_LIMIT) - u128::from(fault == Fault::WorstAtLimit);
    worst(job, fault).iter().any(|count| *count > most)
}
