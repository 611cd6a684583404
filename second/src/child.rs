//! Runs another program on one text and takes what it prints.

use std::io::{Read, Write};
use std::process::{Child, Command, ExitStatus, Stdio};
use std::sync::mpsc;
use std::thread;
use std::time::{Duration, Instant};

const PATIENCE: Duration = Duration::from_secs(300);
/// No text gives more than a few hundred thousand bytes.
const LONGEST_OUTPUT: u64 = 16 << 20;

/// The standard output of the command line, split on blanks, for this text; or what went wrong.
pub fn ask(command: &str, text: &[u8]) -> Result<Vec<u8>, String> {
    let mut words = command.split_whitespace();
    let program = words.next().ok_or("the command is empty")?;
    let mut child = Command::new(program)
        .args(words)
        .stdin(Stdio::piped())
        .stdout(Stdio::piped())
        .stderr(Stdio::null())
        .spawn()
        .map_err(|error| format!("{program} does not start: {error}"))?;
    let deadline = Instant::now() + PATIENCE;
    let output = converse(&mut child, text.to_vec());
    let output = output.recv_timeout(PATIENCE);
    let status = wait_until(&mut child, deadline)?;
    let output = output.map_err(|_| "its output does not end".to_string())?;
    match status.success() {
        true => Ok(output),
        false => Err(format!("it ended with {status}")),
    }
}

/// Writes the text and reads the output, each on its own thread so that neither waits.
fn converse(child: &mut Child, text: Vec<u8>) -> mpsc::Receiver<Vec<u8>> {
    let (sender, receiver) = mpsc::channel();
    if let Some(mut input) = child.stdin.take() {
        // A child may stop reading early: a broken pipe is no failure.
        thread::spawn(move || drop(input.write_all(&text)));
    }
    if let Some(output) = child.stdout.take() {
        thread::spawn(move || {
            let mut bytes = Vec::new();
            let read = output.take(LONGEST_OUTPUT).read_to_end(&mut bytes);
            if read.is_ok() {
                drop(sender.send(bytes));
            }
        });
    }
    receiver
}

/// The child's status, or its end when the time is over.
fn wait_until(child: &mut Child, deadline: Instant) -> Result<ExitStatus, String> {
    loop {
        let status = child.try_wait().map_err(|error| error.to_string())?;
        if let Some(status) = status {
            return Ok(status);
        }
        if Instant::now() >= deadline {
            drop(child.kill());
            drop(child.wait());
            return Err("it was ended after 300 s".to_string());
        }
        thread::sleep(Duration::from_micros(100));
    }
}
