//! Texts broken in each way the rules name, and texts that only look broken.

use super::graph::{self, Shape};
use super::lengths::{far_too_long, limit_exact, limit_passed};
use super::mixed::with_steps;
use crate::random::Random;
use crate::text::{join, Text};

pub type Lines = Vec<Vec<u8>>;
type Breaking = fn(&mut Random, Lines) -> Vec<u8>;

const WAYS: [Breaking; 26] = [
    minus_zero,
    leading_zero,
    plus,
    odd_number,
    outside_blanks,
    line_ends,
    last_end,
    wrong_order,
    wrong_word,
    field_number,
    quotes,
    beyond_32_bits,
    odd_step,
    last_field,
    empty_lines,
    odd_bytes,
    limit_exact,
    limit_passed,
    far_too_long,
    header,
    any_byte,
    cut_off,
    looks_broken,
    looks_broken,
    looks_broken,
    broken_and_refused,
];

pub fn text(random: &mut Random, seed: u64) -> Vec<u8> {
    let way = WAYS[(seed % WAYS.len() as u64) as usize];
    let lines = small(random).lines();
    way(random, lines)
}

/// A small text with at least one line of each group.
fn small(random: &mut Random) -> Text {
    let shape = Shape {
        tasks: 5,
        records: 6,
        budget: 500,
        extreme: false,
    };
    loop {
        let job = graph::accepted(random, &shape);
        if !job.records.is_empty() && !job.channels.is_empty() {
            let steps = 1 + random.below(8);
            return with_steps(random, job, steps);
        }
    }
}

/// Puts another text in place of one number of one line.
fn replace_number(random: &mut Random, lines: &mut Lines, with: impl Fn(&str) -> String) {
    let place = random.below(lines.len());
    let line = String::from_utf8_lossy(&lines[place]).into_owned();
    let mut fields: Vec<String> = line.split(',').map(str::to_string).collect();
    let field = 1 + random.below(fields.len() - 1);
    fields[field] = with(&fields[field]);
    lines[place] = fields.join(",").into_bytes();
}

/// A minus before a zero: only the sign is at fault.
fn minus_zero(random: &mut Random, mut lines: Lines) -> Vec<u8> {
    match random.chance(1, 2) {
        true => lines.push(
            random
                .pick(&["step,0,0,-0", "step,0,-0,0", "step,-0,0,0"])
                .into(),
        ),
        false => replace_number(random, &mut lines, |_| "-0".to_string()),
    }
    join(&lines)
}

fn leading_zero(random: &mut Random, mut lines: Lines) -> Vec<u8> {
    let zeros = random.pick(&["0", "0", "00", "0000000000"]);
    replace_number(random, &mut lines, |number| {
        match number.strip_prefix('-') {
            Some(digits) => format!("-{zeros}{digits}"),
            None => format!("{zeros}{number}"),
        }
    });
    join(&lines)
}

fn plus(random: &mut Random, mut lines: Lines) -> Vec<u8> {
    replace_number(random, &mut lines, |number| {
        format!("+{}", number.trim_start_matches('-'))
    });
    join(&lines)
}

/// Other ways in which a number is not written.
fn odd_number(random: &mut Random, mut lines: Lines) -> Vec<u8> {
    let ways = [
        "-", "", "--1", "N-", "0xN", "Ne0", "N.0", "N_0", "1 0", "NaN", "N,", "\u{0663}", "-N",
        "N1", "1N", "-1", ".N", "(N)", "N\n", "'N'",
    ];
    let way = random.pick(&ways);
    replace_number(random, &mut lines, |number| way.replace('N', number));
    join(&lines)
}

fn outside_blanks(random: &mut Random, mut lines: Lines) -> Vec<u8> {
    let blank = random.pick(&[" ", " ", "\t", "\u{a0}"]);
    let before = random.chance(1, 2);
    if random.chance(1, 3) {
        let place = random.below(lines.len());
        let at = if before { 0 } else { lines[place].len() };
        lines[place].splice(at..at, blank.bytes());
    } else {
        replace_number(random, &mut lines, |number| match before {
            true => format!("{blank}{number}"),
            false => format!("{number}{blank}"),
        });
    }
    join(&lines)
}

/// LF alone, CR alone, LF before CR, or a doubled CR, on one line or on all.
fn line_ends(random: &mut Random, lines: Lines) -> Vec<u8> {
    let end = random.pick(&["\n", "\n", "\n", "\n", "\r", "\n\r", "\r\r\n", ";\r\n"]);
    let one = random.below(lines.len());
    let all = random.chance(1, 2);
    let mut bytes = Vec::new();
    for (place, line) in lines.iter().enumerate() {
        bytes.extend_from_slice(line);
        let odd = all || place == one;
        bytes.extend_from_slice(if odd { end } else { "\r\n" }.as_bytes());
    }
    bytes
}

fn last_end(random: &mut Random, lines: Lines) -> Vec<u8> {
    let mut bytes = join(&lines);
    match random.below(6) {
        0 => bytes.truncate(bytes.len() - 1),
        1 => {
            bytes.truncate(bytes.len() - 2);
            bytes.push(b'\n');
        }
        _ => bytes.truncate(bytes.len() - 2),
    }
    bytes
}

/// A line out of its group, two groups swapped, or the whole text twice.
fn wrong_order(random: &mut Random, mut lines: Lines) -> Vec<u8> {
    match random.below(4) {
        0 => lines.reverse(),
        1 => lines.extend(lines.clone()),
        2 => {
            let first = lines.remove(0);
            lines.push(first);
        }
        _ => {
            // May leave the groups in order: then the text is well-formed.
            let line = lines.remove(random.below(lines.len()));
            lines.insert(random.below(lines.len() + 1), line);
        }
    }
    join(&lines)
}

fn wrong_word(random: &mut Random, mut lines: Lines) -> Vec<u8> {
    let words = [
        "Task", "TASK", "tasks", "tas", "", "records", "steps", "Step", "channel ", "source", "0",
        "kanal", "task\0", "STEP",
    ];
    let place = random.below(lines.len());
    let line = String::from_utf8_lossy(&lines[place]).into_owned();
    let rest = line.split_once(',').map_or("", |(_, rest)| rest);
    lines[place] = format!("{},{rest}", random.pick(&words)).into_bytes();
    join(&lines)
}

fn field_number(random: &mut Random, mut lines: Lines) -> Vec<u8> {
    let place = random.below(lines.len());
    let line = String::from_utf8_lossy(&lines[place]).into_owned();
    let shorter = line.rsplit_once(',').map_or("", |(before, _)| before);
    lines[place] = match random.below(6) {
        0 => format!("{line},0"),
        1 => format!("{line},"),
        2 => format!(",{line}"),
        3 => format!("{shorter},"),
        4 => line.replace(',', ";"),
        _ => shorter.to_string(),
    }
    .into_bytes();
    join(&lines)
}

fn quotes(random: &mut Random, mut lines: Lines) -> Vec<u8> {
    let place = random.below(lines.len());
    let line = String::from_utf8_lossy(&lines[place]).into_owned();
    match random.below(8) {
        0 => lines[place] = format!("\"{line}\"").into_bytes(),
        1 => {
            let (word, rest) = line.split_once(',').unwrap_or((&line, ""));
            lines[place] = format!("\"{word}\",{rest}").into_bytes();
        }
        _ => replace_number(random, &mut lines, |number| format!("\"{number}\"")),
    }
    join(&lines)
}

fn beyond_32_bits(random: &mut Random, mut lines: Lines) -> Vec<u8> {
    let numbers = [
        "2147483648",
        "-2147483649",
        "4294967296",
        "4294967295",
        "8589934592",
        "9223372036854775807",
        "18446744073709551616",
        "-18446744073709551616",
        "99999999999999999999999999999999999999999",
        "42949672960000000000",
    ];
    let number = random.pick(&numbers);
    replace_number(random, &mut lines, |_| number.to_string());
    join(&lines)
}

fn odd_step(random: &mut Random, mut lines: Lines) -> Vec<u8> {
    let number = random.pick(&[
        65_536i64,
        65_536,
        -1,
        65_568,
        70_000,
        2_147_483_647,
        -65_536,
    ]);
    lines.push(format!("step,{number},0,0").into_bytes());
    join(&lines)
}

/// A last field that should be 0, or the third field of a step.
fn last_field(random: &mut Random, mut lines: Lines) -> Vec<u8> {
    let word: &[u8] = random.pick(&[b"channel,", b"record,", b"step,"]);
    let field = random.pick(&["1", "-1", "20", "00", "", "2147483647", "0 "]);
    let found = lines.iter().rposition(|line| line.starts_with(word));
    let line = &mut lines[found.unwrap_or(0)];
    match random.chance(1, 3) && word == b"step," {
        true => {
            line.truncate(line.len() - 3);
            line.extend_from_slice(format!("{field},0").as_bytes());
        }
        false => {
            line.truncate(line.len() - 1);
            line.extend_from_slice(field.as_bytes());
        }
    }
    join(&lines)
}

fn empty_lines(random: &mut Random, mut lines: Lines) -> Vec<u8> {
    let line: &[u8] = random.pick(&[b"", b"", b"", b"", b" ", b",,,"]);
    let places = [0, lines.len(), random.below(lines.len())];
    lines.insert(random.pick(&places), line.to_vec());
    if random.chance(1, 8) {
        lines = vec![line.to_vec()];
    }
    join(&lines)
}

fn odd_bytes(random: &mut Random, lines: Lines) -> Vec<u8> {
    let odd: [&[u8]; 8] = [
        b"\xff",
        "\u{e9}".as_bytes(),
        b"\0",
        "\u{feff}".as_bytes(),
        b"\x1a",
        b"\x80",
        "\u{ff11}".as_bytes(),
        b"\x0c",
    ];
    let odd = random.pick(&odd);
    let mut bytes = join(&lines);
    let places = [0, bytes.len(), random.below(bytes.len())];
    let place = random.pick(&places);
    bytes.splice(place..place, odd.iter().copied());
    bytes
}

fn header(random: &mut Random, mut lines: Lines) -> Vec<u8> {
    let header: &[u8] = random.pick(&[
        b"task,kind,a,b" as &[u8],
        b"word,first,second,third",
        b"row,number,first,second,third,fourth",
    ]);
    lines.insert(0, header.to_vec());
    join(&lines)
}

/// One byte changed, dropped or put in; the text may stay well-formed.
fn any_byte(random: &mut Random, lines: Lines) -> Vec<u8> {
    let mut bytes = join(&lines);
    let place = random.below(bytes.len());
    let common = b"0123456789-,\r\n+ \"tas";
    let byte = match random.chance(3, 4) {
        true => random.pick(common),
        false => random.below(256) as u8,
    };
    match random.below(3) {
        0 => bytes[place] = byte,
        1 => drop(bytes.remove(place)),
        _ => bytes.insert(place, byte),
    }
    bytes
}

fn cut_off(random: &mut Random, lines: Lines) -> Vec<u8> {
    let mut bytes = join(&lines);
    bytes.truncate(random.below(bytes.len()));
    bytes
}

/// Well-formed, whatever the job then answers.
fn looks_broken(random: &mut Random, mut lines: Lines) -> Vec<u8> {
    let only: &[u8] = random.pick(&[b"task,", b"channel,", b"record,", b"step,"]);
    match random.below(6) {
        0 => lines.clear(),
        1 => lines.retain(|line| line.starts_with(only)),
        2 => lines.retain(|line| !line.starts_with(only)),
        3 => lines.push(b"step,65535,0,0".to_vec()),
        4 => replace_number(random, &mut lines, |_| "-2147483648".to_string()),
        _ => lines.insert(0, b"task,-1,2147483647,-2147483648".to_vec()),
    }
    join(&lines)
}

/// A text to be refused with 10 whose job is to be refused too.
fn broken_and_refused(random: &mut Random, mut lines: Lines) -> Vec<u8> {
    match random.chance(1, 2) {
        true => lines.insert(0, b"task,6,0,0".to_vec()),
        false => lines.retain(|line| !line.starts_with(b"task,")),
    }
    let ways: [Breaking; 5] = [minus_zero, quotes, last_end, odd_step, header];
    let way = random.pick(&ways);
    way(random, lines)
}
