// sequencesmet.rs: what a call that registers a whole list meets, told before it is run, and that its two readings agree.

use crate::atonce::{self, Room};
use crate::console::Console;
use crate::queue::Queue;
use crate::rows::Row;
use crate::sequences::Took;

pub const NAMES: &[&str] = &[
    "register_all: an empty list",
    "register_all: an empty list, no token left",
    "register_all: an empty list, no row left",
    "register_all: all taken",
    "register_all: all 64 taken",
    "register_all: 0 is the first number",
    "register_all: 0 behind numbers that are taken",
    "register_all: 0 where no token is left",
    "register_all: 0 where no row is left",
    "register_all: no token for the first number",
    "register_all: tokens for some numbers",
    "register_all: neither token nor row left",
    "register_all: no row for the first number",
    "register_all: rows for some numbers",
    "register_all: the 4,096th row, and numbers left",
    "register_all: as many numbers as tokens are left",
    "register_all: one number more than tokens are left",
    "register_all: as many numbers as rows are left",
    "register_all: one number more than rows are left",
    "register_all: taken while an undo is out",
    "register_all: taken while failed",
    "register_all: taken while a ticket is ready",
    "register_all: 1, an empty list",
    "register_all: 1, a list of numbers",
    "register_all: 1, the list begins with 0",
    "register_all of a group: 1, an empty list",
    "register_all of a group: 1, a list",
    "register_all: the used rows don't fit, an empty list",
    "register_all: the used rows don't fit, a list of numbers",
    "register_all: 10, an empty list",
    "register_all: 10, a list of numbers",
    "register_all: 10, the list begins with 0",
];

pub fn is_sequence(number: u64) -> bool {
    matches!(number, 19 | 39 | 79)
}

fn room(console: &Console, line: &Row) -> Result<Room, u64> {
    match line[0] {
        19 => atonce::room(&console.queue),
        39 => atonce::room_in_log(&console.queue, console.lent, console.used),
        _ => atonce::room_in_group(&console.groups, line[1]),
    }
}

fn readings_differ(console: &Console, line: &Row) -> bool {
    let Console { queue, groups, used, list, .. } = console;
    match line[0] {
        19 => atonce::plain_differs(queue, list),
        39 => atonce::recorded_differs(queue, &console.log[..console.lent], *used, list),
        _ => atonce::group_differs(groups, line[1], list),
    }
}

// Refused as a whole, for the record, the log or the id; what the list holds must not matter.
fn at_refusal(console: &Console, line: &Row, refusal: u64, names: &mut Vec<&'static str>) {
    names.push(match (refusal, console.list.first()) {
        (1, None) if line[0] == 79 => "register_all of a group: 1, an empty list",
        (1, Some(_)) if line[0] == 79 => "register_all of a group: 1, a list",
        (1, None) => "register_all: 1, an empty list",
        (1, Some(0)) => "register_all: 1, the list begins with 0",
        (1, Some(_)) => "register_all: 1, a list of numbers",
        (_, None) => "register_all: 10, an empty list",
        (_, Some(0)) => "register_all: 10, the list begins with 0",
        (_, Some(_)) => "register_all: 10, a list of numbers",
    });
}

fn at_used_rows(console: &Console, names: &mut Vec<&'static str>) {
    let fine = atonce::room(&console.queue).is_ok();
    match (fine && console.used > console.lent as u64 / 5, console.list.is_empty()) {
        (true, true) => names.push("register_all: the used rows don't fit, an empty list"),
        (true, false) => names.push("register_all: the used rows don't fit, a list of numbers"),
        _ => {}
    }
}

fn at_empty_list(room: Room, names: &mut Vec<&'static str>) {
    names.push("register_all: an empty list");
    if room.tokens == 0 {
        names.push("register_all: an empty list, no token left");
    }
    if room.rows == 0 {
        names.push("register_all: an empty list, no row left");
    }
}

// What ends the call, and what else would have refused the same number.
fn at_end(took: Took, room: Room, names: &mut Vec<&'static str>) {
    let taken = took.taken as usize;
    names.push(match (took.refusal, taken) {
        (0, 64) => "register_all: all 64 taken",
        (0, _) => "register_all: all taken",
        (2, 0) => "register_all: 0 is the first number",
        (2, _) => "register_all: 0 behind numbers that are taken",
        (3, 0) => "register_all: no token for the first number",
        (3, _) => "register_all: tokens for some numbers",
        (_, 0) => "register_all: no row for the first number",
        (_, _) => "register_all: rows for some numbers",
    });
    match (took.refusal, room.tokens == taken, room.rows == taken) {
        (2, true, false) => names.push("register_all: 0 where no token is left"),
        (2, false, true) => names.push("register_all: 0 where no row is left"),
        (3, _, true) => names.push("register_all: neither token nor row left"),
        _ => {}
    }
}

// Lists just as long as there is room for, and one longer; a 0 would end them for another cause.
fn at_lengths(numbers: &[u64], room: Room, names: &mut Vec<&'static str>) {
    if numbers.contains(&0) {
        return;
    }
    for (left, same, more) in [
        (
            room.tokens,
            "register_all: as many numbers as tokens are left",
            "register_all: one number more than tokens are left",
        ),
        (
            room.rows,
            "register_all: as many numbers as rows are left",
            "register_all: one number more than rows are left",
        ),
    ] {
        match numbers.len().checked_sub(left) {
            Some(0) => names.push(same),
            Some(1) => names.push(more),
            _ => {}
        }
    }
}

fn at_marks(queue: &Queue, names: &mut Vec<&'static str>) {
    match (queue.selected, queue.issued, queue.failed) {
        (Some(_), true, _) => names.push("register_all: taken while an undo is out"),
        (Some(_), _, true) => names.push("register_all: taken while failed"),
        (Some(_), _, _) => names.push("register_all: taken while a ticket is ready"),
        (None, ..) => {}
    }
}

fn at_list(console: &Console, line: &Row, room: Room, names: &mut Vec<&'static str>) {
    if console.list.is_empty() {
        return at_empty_list(room, names);
    }
    let took = atonce::decided(&console.list, Ok(room));
    at_end(took, room, names);
    at_lengths(&console.list, room, names);
    if line[0] == 79 || took.taken == 0 {
        return;
    }
    at_marks(&console.queue, names);
    if line[0] == 39 && took.refusal == 17 && console.used + took.taken == 4096 {
        names.push("register_all: the 4,096th row, and numbers left");
    }
}

pub fn met(console: &Console, line: &Row) -> Vec<&'static str> {
    let mut names = Vec::new();
    if readings_differ(console, line) {
        names.push("the two readings of register_all differ");
    }
    match room(console, line) {
        Ok(room) => at_list(console, line, room, &mut names),
        Err(refusal) => at_refusal(console, line, refusal, &mut names),
    }
    if line[0] == 39 {
        at_used_rows(console, &mut names);
    }
    names
}
