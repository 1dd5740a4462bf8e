// situations.rs: finer cases than an answer shows, told from the state that a call meets.

use crate::clauses;
use crate::console::Console;
use crate::groups;
use crate::limitsmet;
use crate::questions::drained;
use crate::queue::{pending, well_formed, Phase, Queue};
use crate::rows::{Row, TOP};
use crate::sequencesmet;

pub const NAMES: &[&str] = &[
    "pop: Nothing, issued",
    "pop: Nothing, failed",
    "pop: Nothing, none waiting",
    "pop: a ready ticket",
    "pop: a ready ticket with next at the top",
    "pop: a fresh ticket",
    "pop: a fresh ticket of the last attempt",
    "pop: a fresh ticket passes over an empty slot",
    "complete: nothing issued",
    "complete: another domain alone",
    "complete: another token alone",
    "complete: another attempt alone",
    "complete: right ticket, bad outcome",
    "complete: failed keeping another number",
    "complete: failed keeping none",
    "retry: not failed",
    "retry: the slot is empty",
    "retry: the slot is empty, next at the top",
    "retry: next at the top",
    "retry: to the last attempt",
    "land: Pending",
    "land: Stopping",
    "land: 64 tokens and not pending",
    "admit: Idle, target fits in another order or with repeats",
    "admit: Idle, target is a part",
    "admit: Idle, target has one more",
    "admit: Idle, committed and target empty",
    "admit: target fits, not Idle",
    "recorded: used rows don't fit",
    "recorded: 4,096 rows used",
    "recorded: more than 4,096 rows used",
    "recorded: 4,095 rows used",
    "recorded: no whole free row, some words free",
    "recorded: no word free",
    "recorded: last whole row free",
    "close: not empty, settled",
    "close: Idle and empty",
    "close: pending and empty",
    "open: 16 live and the ids used up",
    "open: a freed place below the last live one",
    "open: the last id",
    "reader: a part row at the end",
    "reader: row 4,096",
    "reader: 4,096 rows lent",
];

fn at_pop(queue: &Queue, names: &mut Vec<&'static str>) {
    let newest = queue.slots.iter().rposition(|number| *number != 0);
    let name = match (queue.selected, newest) {
        _ if queue.issued => "pop: Nothing, issued",
        _ if queue.failed => "pop: Nothing, failed",
        (Some(_), _) => "pop: a ready ticket",
        (None, None) => "pop: Nothing, none waiting",
        (None, Some(_)) => "pop: a fresh ticket",
    };
    names.push(name);
    if name == "pop: a ready ticket" && queue.next == TOP {
        names.push("pop: a ready ticket with next at the top");
    }
    if name == "pop: a fresh ticket" && queue.next == TOP - 1 {
        names.push("pop: a fresh ticket of the last attempt");
    }
    if name == "pop: a fresh ticket" && newest.is_some_and(|newest| newest + 1 < queue.tokens) {
        names.push("pop: a fresh ticket passes over an empty slot");
    }
}

// The line's ticket, outcome and kept number, wherever the call has them.
fn at_complete(
    queue: &Queue,
    ticket: [u64; 3],
    outcome: u64,
    kept: u64,
    names: &mut Vec<&'static str>,
) {
    let Some(right) = queue.selected.filter(|_| queue.issued) else {
        names.push("complete: nothing issued");
        return;
    };
    let same = [ticket[0] == right.domain, ticket[1] == right.token, ticket[2] == right.attempt];
    match same {
        [false, true, true] => names.push("complete: another domain alone"),
        [true, false, true] => names.push("complete: another token alone"),
        [true, true, false] => names.push("complete: another attempt alone"),
        [true, true, true] if outcome > 1 => names.push("complete: right ticket, bad outcome"),
        [true, true, true] if outcome == 1 && kept == 0 => {
            names.push("complete: failed keeping none")
        }
        [true, true, true] if outcome == 1 => names.push("complete: failed keeping another number"),
        _ => {}
    }
}

fn at_retry(queue: &Queue, names: &mut Vec<&'static str>) {
    let slot = queue.selected.map_or(0, |ticket| queue.slots[ticket.token as usize]);
    names.push(match (queue.failed, slot, queue.next) {
        (false, _, _) => "retry: not failed",
        (true, 0, TOP) => "retry: the slot is empty, next at the top",
        (true, 0, _) => "retry: the slot is empty",
        (true, _, TOP) => "retry: next at the top",
        (true, _, next) if next == TOP - 1 => "retry: to the last attempt",
        _ => return,
    });
}

fn at_land(queue: &Queue, names: &mut Vec<&'static str>) {
    match queue.phase {
        Phase::Pending => names.push("land: Pending"),
        Phase::Stopping => names.push("land: Stopping"),
        _ if queue.tokens == 64 => names.push("land: 64 tokens and not pending"),
        _ => {}
    }
}

fn at_admit(queue: &Queue, target: &[u64], names: &mut Vec<&'static str>) {
    let committed = &queue.bindings[..queue.bound];
    let lacks = committed.iter().any(|member| !target.contains(member));
    let more = target.iter().any(|member| !committed.contains(member));
    let name = match (queue.phase == Phase::Idle, lacks, more) {
        (true, false, false) if committed.is_empty() => "admit: Idle, committed and target empty",
        (true, false, false) if committed != target => {
            "admit: Idle, target fits in another order or with repeats"
        }
        (true, true, false) => "admit: Idle, target is a part",
        (true, false, true) => "admit: Idle, target has one more",
        (false, false, false) => "admit: target fits, not Idle",
        _ => return,
    };
    names.push(name);
}

fn at_log(console: &Console, names: &mut Vec<&'static str>) {
    let free = console.lent as u128;
    let taken = 5 * u128::from(console.used);
    let name = match (console.used, free.checked_sub(taken)) {
        (_, None) => "recorded: used rows don't fit",
        (4095, Some(_)) => "recorded: 4,095 rows used",
        (4096, Some(_)) => "recorded: 4,096 rows used",
        (4097.., Some(_)) => "recorded: more than 4,096 rows used",
        (_, Some(0)) => "recorded: no word free",
        (_, Some(1..=4)) => "recorded: no whole free row, some words free",
        (_, Some(5..=9)) => "recorded: last whole row free",
        _ => return,
    };
    names.push(name);
}

fn at_step(console: &Console, queue: &Queue, line: &Row, kind: u64, names: &mut Vec<&'static str>) {
    let [number, a, b, c, d] = *line;
    let domain = console.held_domain;
    match kind {
        1 => at_land(queue, names),
        2 => at_pop(queue, names),
        3 if number == 73 => at_complete(queue, [domain, b, c], d, console.held_number, names),
        3 => at_complete(queue, [domain, a, b], c, d, names),
        4 => at_retry(queue, names),
        5 => at_admit(queue, &console.list, names),
        _ => {}
    }
}

fn at_groups(console: &Console, line: &Row, names: &mut Vec<&'static str>) {
    let places = &console.groups.places;
    let live = places.iter().filter(|place| place.live).count();
    let last = places.iter().rposition(|place| place.live);
    let lowest_free = places.iter().position(|place| !place.live);
    let next = console.groups.next;
    if line[0] == 63 {
        let place = places.iter().find(|place| place.live && place.id == line[1]);
        let Some(queue) = place.map(|place| place.queue).filter(|queue| !drained(queue)) else {
            return;
        };
        let bare = queue.selected.is_none() && queue.slots == [0; 64];
        names.push(match (bare, queue.phase) {
            (true, phase) if pending(phase) => "close: pending and empty",
            (true, _) => "close: Idle and empty",
            (false, Phase::Ended | Phase::Closed) => "close: not empty, settled",
            _ => return,
        });
    } else if live == 16 && next == 65_536 {
        names.push("open: 16 live and the ids used up");
    } else if next == 65_535 && live < 16 {
        names.push("open: the last id");
    } else if lowest_free < last && last.is_some() && lowest_free.is_some() {
        names.push("open: a freed place below the last live one");
    }
}

fn at_reader(console: &Console, names: &mut Vec<&'static str>) {
    match console.lent {
        20_480 => names.push("reader: 4,096 rows lent"),
        20_481.. => names.push("reader: row 4,096"),
        lent if lent % 5 != 0 => names.push("reader: a part row at the end"),
        _ => {}
    }
}

fn is_of_groups(number: u64) -> bool {
    matches!(number, 60..=89 | 100..=112)
}

// The names of all that this line meets, before it is run.
pub fn met(console: &Console, line: &Row) -> Vec<&'static str> {
    let number = line[0];
    let groups_fine = is_of_groups(number) && !clauses::groups_break_something(&console.groups);
    let mut names = limitsmet::met(console, line, groups_fine);
    if clauses::breaks_something(&console.queue) == well_formed(&console.queue) {
        names.push("the clauses and the whole check differ");
    }
    if is_of_groups(number) && groups_fine != groups::is_well_formed(&console.groups) {
        names.push("the clauses and the whole check of groups differ");
    }
    if sequencesmet::is_sequence(number) {
        names.extend(sequencesmet::met(console, line));
    }
    match number {
        10..=18 | 30..=38 | 42 | 43 if well_formed(&console.queue) => {
            at_step(console, &console.queue, line, number % 10, &mut names);
            if (30..=38).contains(&number) {
                at_log(console, &mut names);
            }
        }
        39 if well_formed(&console.queue) => at_log(console, &mut names),
        50 => at_reader(console, &mut names),
        61..=63 if groups_fine => at_groups(console, line, &mut names),
        70..=78 if groups_fine => {
            let place =
                console.groups.places.iter().find(|place| place.live && place.id == line[1]);
            if let Some(place) = place {
                at_step(console, &place.queue, line, number - 70, &mut names);
            }
        }
        _ => {}
    }
    names
}
