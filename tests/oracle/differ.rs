// differ.rs: holds a program's output against the expected one, line by line of the script.

use crate::coverage::name_of;
use crate::maker::is_call;
use crate::text;

// How many lines answer this line: the group record is shown by seventeen.
fn answer_lines(line: &[u8]) -> usize {
    match text::columns(line) {
        Some(row) if row[0] == 143 => 17,
        _ => 1,
    }
}

// Takes this many lines off the front, or all that is left.
fn taken<'a>(rest: &mut &'a [u8], lines: usize) -> &'a [u8] {
    let ends =
        rest.iter().enumerate().filter(|(_, byte)| **byte == b'\n').map(|(place, _)| place + 1);
    let length = ends.take(lines).nth(lines - 1).unwrap_or(rest.len());
    let (front, back) = rest.split_at(length);
    *rest = back;
    front
}

// A show line is long, so its first differing value is told by its place, from 0.
fn first_value(want: &[u8], got: &[u8]) -> String {
    let is_end = |byte: &u8| matches!(*byte, b',' | b'\n');
    let mut wanted = want.split(is_end);
    let mut given = got.split(is_end);
    for place in 0.. {
        match (wanted.next(), given.next()) {
            (None, None) => break,
            (one, other) if one != other => {
                let told = |value: Option<&[u8]>| {
                    value.map_or("none".to_string(), |v| v.escape_ascii().to_string())
                };
                return format!("value {place} expected {}, given {}", told(one), told(other));
            }
            _ => {}
        }
    }
    "the line ends differ".to_string()
}

fn shortened(bytes: &[u8]) -> String {
    let told = bytes.escape_ascii().to_string();
    match told.len() {
        0 => "nothing".to_string(),
        1..=400 => told,
        all => format!("{} ... ({all} bytes)", &told[..400]),
    }
}

pub struct Difference {
    pub line: usize,
    pub told: String,
}

fn told(place: usize, line: &[u8], want: &[u8], got: &[u8]) -> Difference {
    let name = text::columns(line).map_or("bad text", |row| name_of(row[0]));
    let told = format!(
        "script line {}: {} ({name})\n  expected {}\n  given    {}\n  {}",
        place + 1,
        line.escape_ascii(),
        shortened(want),
        shortened(got),
        first_value(want, got)
    );
    Difference { line: place, told }
}

// The first script line whose answer differs, or how many calls were compared.
pub fn first(script: &[u8], want: &[u8], got: &[u8]) -> Result<u64, Difference> {
    let (mut wanted, mut given) = (want, got);
    let mut calls = 0;
    let lines = text::lines(script);
    for (place, line) in lines.iter().enumerate() {
        let count = answer_lines(line);
        let (one, other) = (taken(&mut wanted, count), taken(&mut given, count));
        if one != other {
            return Err(told(place, line, one, other));
        }
        calls += u64::from(text::columns(line).is_some_and(|row| is_call(row[0])));
        if wanted.is_empty() && given.is_empty() {
            break;
        }
    }
    if wanted.is_empty() && given.is_empty() {
        return Ok(calls);
    }
    Err(told(lines.len(), b"behind the last line", wanted, given))
}

pub fn compare(script: &[u8], want: &[u8], got: &[u8]) -> Result<String, String> {
    match first(script, want, got) {
        Ok(calls) => Ok(format!("{calls} calls, every byte the same")),
        Err(difference) => Err(difference.told),
    }
}
