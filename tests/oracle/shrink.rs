// shrink.rs: finds a shortest script on which a program's output still differs from the expected one.

use crate::console;
use crate::differ;
use crate::text;
use std::io::Write;
use std::process::{Command, Stdio};

type Lines = Vec<Vec<u8>>;

fn joined(lines: &[Vec<u8>]) -> Vec<u8> {
    let mut script = Vec::new();
    for line in lines {
        script.extend_from_slice(line);
        script.extend_from_slice(b"\r\n");
    }
    script
}

// The program may end before it has read all, so a failed write is no failure here.
fn output_of(program: &str, args: &[&str], script: &[u8]) -> Result<Vec<u8>, String> {
    let told = |error: std::io::Error| format!("{program}: {error}");
    let mut command = Command::new(program);
    command.args(args).stdin(Stdio::piped()).stdout(Stdio::piped()).stderr(Stdio::null());
    let mut child = command.spawn().map_err(told)?;
    let mut input = child.stdin.take().ok_or("no standard input")?;
    let script = script.to_vec();
    let writer = std::thread::spawn(move || {
        let _ = input.write_all(&script);
    });
    let output = child.wait_with_output().map_err(told)?;
    let _ = writer.join();
    Ok(output.stdout)
}

// Drops runs of lines, long ones first, as long as the difference stays.
fn dropped(lines: Lines, differs: &dyn Fn(&[Vec<u8>]) -> bool) -> Lines {
    let mut lines = lines;
    let mut run = lines.len() / 2;
    while run > 0 {
        let mut start = 0;
        let mut any = false;
        while start < lines.len() {
            let end = (start + run).min(lines.len());
            let fewer = [&lines[..start], &lines[end..]].concat();
            if !fewer.is_empty() && differs(&fewer) {
                lines = fewer;
                any = true;
            } else {
                start += run;
            }
        }
        // Single lines are tried again until none can go.
        if run > 1 || !any {
            run /= 2;
        }
    }
    lines
}

fn smaller(value: u64) -> Vec<u64> {
    let mut tries = vec![0, 1, 2, 3, value / 2, value.wrapping_sub(1)];
    tries.retain(|candidate| *candidate < value);
    tries.dedup();
    tries
}

fn with_column(line: &[u8], column: usize, value: u64) -> Option<Vec<u8>> {
    let mut row = text::columns(line)?;
    row[column] = value;
    Some(row.map(|number| number.to_string()).join(",").into_bytes())
}

// Makes one column of one line smaller if the difference stays; says whether it did.
fn simplified_at(
    lines: &mut Lines,
    line: usize,
    column: usize,
    differs: &dyn Fn(&[Vec<u8>]) -> bool,
) -> bool {
    let Some(row) = text::columns(&lines[line]) else { return false };
    for value in smaller(row[column]) {
        let Some(simpler) = with_column(&lines[line], column, value) else { continue };
        let old = std::mem::replace(&mut lines[line], simpler);
        if differs(lines) {
            return true;
        }
        lines[line] = old;
    }
    false
}

fn with_values(lines: &[Vec<u8>], old: u64, new: u64) -> Lines {
    let replaced = |line: &Vec<u8>| {
        let Some(mut row) = text::columns(line) else { return line.clone() };
        row[1..].iter_mut().filter(|value| **value == old).for_each(|value| *value = new);
        row.map(|number| number.to_string()).join(",").into_bytes()
    };
    lines.iter().map(replaced).collect()
}

// A domain or a number often stands on several lines, which must change together.
fn simplified_everywhere(mut lines: Lines, differs: &dyn Fn(&[Vec<u8>]) -> bool) -> Lines {
    let rows = lines.iter().filter_map(|line| text::columns(line));
    let mut values: Vec<u64> = rows.flat_map(|row| row[1..].to_vec()).collect();
    values.sort_unstable();
    values.dedup();
    for old in values {
        for new in smaller(old) {
            let simpler = with_values(&lines, old, new);
            if differs(&simpler) {
                lines = simpler;
                break;
            }
        }
    }
    lines
}

// The call's own number stays: another call would be another difference.
fn simplified(lines: Lines, differs: &dyn Fn(&[Vec<u8>]) -> bool) -> Lines {
    let mut lines = simplified_everywhere(lines, differs);
    for line in 0..lines.len() {
        for column in 1..5 {
            while simplified_at(&mut lines, line, column, differs) {}
        }
    }
    lines
}

// A reset forgets all, so the lines from the last reset before the difference mostly do.
fn from_last_reset(lines: &[Vec<u8>]) -> Lines {
    let is_reset = |line: &Vec<u8>| line.starts_with(b"150,");
    let start = lines.iter().rposition(is_reset).map_or(0, |place| place + 1);
    lines[start..].to_vec()
}

pub fn shortest(script: &[u8], program: &str, args: &[&str]) -> Result<Vec<u8>, String> {
    let got = output_of(program, args, script)?;
    let want = console::output(script);
    let Err(difference) = differ::first(script, &want, &got) else {
        return Err("no difference: every byte the same".to_string());
    };
    eprintln!("{}", difference.told);
    let all: Lines = text::lines(script).iter().map(|line| line.to_vec()).collect();
    let head = all[..all.len().min(difference.line + 1)].to_vec();
    let differs = |lines: &[Vec<u8>]| {
        let script = joined(lines);
        output_of(program, args, &script).is_ok_and(|got| got != console::output(&script))
    };
    let tail = from_last_reset(&head);
    let start = [tail, head, all].into_iter().find(|lines| !lines.is_empty() && differs(lines));
    let Some(start) = start else { return Err("the difference does not come again".to_string()) };
    let short = simplified(dropped(start, &differs), &differs);
    let short = joined(&dropped(short, &differs));
    // The difference as it is now, which is not always the one that was found first.
    let got = output_of(program, args, &short)?;
    if let Err(difference) = differ::first(&short, &console::output(&short), &got) {
        eprintln!("in the shortest script, {}", difference.told);
    }
    Ok(short)
}
