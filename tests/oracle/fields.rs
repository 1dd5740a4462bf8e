// fields.rs: setting one field of a record by its number, and showing a whole record as decimals.

use crate::groups::{Groups, PLACES};
use crate::queue::{Phase, Queue, Ticket, BINDINGS, SLOTS};

const PHASES: [Phase; 5] =
    [Phase::Idle, Phase::Pending, Phase::Ended, Phase::Stopping, Phase::Closed];

// A kind or a mark has two values; another makes the line bad.
fn mark(value: u64) -> Option<bool> {
    match value {
        0 => Some(false),
        1 => Some(true),
        _ => None,
    }
}

fn place_in(length: usize, index: u64) -> Option<usize> {
    (index < length as u64).then_some(index as usize)
}

// A ticket of zeros is selected first if none is.
fn ticket(queue: &mut Queue) -> &mut Ticket {
    queue.selected.get_or_insert(Ticket { domain: 0, token: 0, attempt: 0 })
}

fn set_selected(queue: &mut Queue, value: u64) -> Option<()> {
    if mark(value)? {
        ticket(queue);
    } else {
        queue.selected = None;
    }
    Some(())
}

// None where the field, the index or the value can't be set.
pub fn set_queue(queue: &mut Queue, field: u64, index: u64, value: u64) -> Option<()> {
    match field {
        0 => queue.iterator = mark(value)?,
        1 => queue.domain = value,
        2 => queue.next = value,
        3 => queue.slots[place_in(SLOTS, index)?] = value,
        4 => queue.tokens = value as usize,
        5 => set_selected(queue, value)?,
        6 => ticket(queue).domain = value,
        7 => ticket(queue).token = value,
        8 => ticket(queue).attempt = value,
        9 => queue.failed = mark(value)?,
        10 => queue.issued = mark(value)?,
        11 => queue.phase = PHASES[place_in(PHASES.len(), value)?],
        12 => queue.bindings[place_in(BINDINGS, index)?] = value,
        13 => queue.bound = value as usize,
        _ => return None,
    }
    Some(())
}

pub fn set_groups(groups: &mut Groups, field: u64, value: u64) -> Option<()> {
    match field {
        0 => groups.base = value,
        1 => groups.next = value,
        2 => groups.sealed = mark(value)?,
        _ => return None,
    }
    Some(())
}

pub fn set_place(groups: &mut Groups, place: u64, field: u64, value: u64) -> Option<()> {
    let place = &mut groups.places[place_in(PLACES, place)?];
    match field {
        0 => place.id = value,
        1 => place.live = mark(value)?,
        _ => return None,
    }
    Some(())
}

pub fn set_place_queue(groups: &mut Groups, set: [u64; 4]) -> Option<()> {
    let [place, field, index, value] = set;
    set_queue(&mut groups.places[place_in(PLACES, place)?].queue, field, index, value)
}

// The 92 decimals of a queue.
pub fn queue_values(queue: &Queue) -> Vec<u64> {
    let ticket = queue.selected.unwrap_or(Ticket { domain: 0, token: 0, attempt: 0 });
    let phase = PHASES.iter().position(|phase| *phase == queue.phase).unwrap_or(0);
    let mut values = vec![u64::from(queue.iterator), queue.domain, queue.next];
    values.extend(queue.slots);
    values.push(queue.tokens as u64);
    values.push(u64::from(queue.selected.is_some()));
    values.extend([ticket.domain, ticket.token, ticket.attempt]);
    values.extend([u64::from(queue.failed), u64::from(queue.issued), phase as u64]);
    values.extend(queue.bindings);
    values.push(queue.bound as u64);
    values
}

// A line for the record, then one for each place.
pub fn groups_values(groups: &Groups) -> Vec<Vec<u64>> {
    let mut lines = vec![vec![groups.base, groups.next, u64::from(groups.sealed)]];
    for place in &groups.places {
        let mut values = vec![place.id, u64::from(place.live)];
        values.extend(queue_values(&place.queue));
        lines.push(values);
    }
    lines
}
