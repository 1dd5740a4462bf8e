// questions.rs: the queue's yes-or-no calls, each refused with 1 on a spoiled record.

use crate::queue::{pending, well_formed, Phase, Queue};
use crate::rows::TOP;

fn settled(phase: Phase) -> bool {
    matches!(phase, Phase::Ended | Phase::Closed)
}

pub fn cancelled(phase: Phase) -> bool {
    matches!(phase, Phase::Stopping | Phase::Closed)
}

// Nothing waiting and nothing selected is: no slot holds a number and no ticket is out.
pub fn empty(queue: &Queue) -> bool {
    queue.selected.is_none() && queue.slots.iter().all(|number| *number == 0)
}

pub fn drained(queue: &Queue) -> bool {
    empty(queue) && settled(queue.phase) && !pending(queue.phase)
}

pub fn retry_allowed(queue: &Queue) -> bool {
    let Some(ticket) = queue.selected else { return false };
    queue.failed && queue.slots[ticket.token as usize] != 0 && queue.next < TOP
}

// Each member of one stands in the other; order and repeats don't count.
fn equal_sets(one: &[u64], other: &[u64]) -> bool {
    let within = |few: &[u64], many: &[u64]| few.iter().all(|member| many.contains(member));
    within(one, other) && within(other, one)
}

pub fn finishable(queue: &Queue, target: &[u64]) -> bool {
    queue.selected.is_none()
        && !pending(queue.phase)
        && !cancelled(queue.phase)
        && equal_sets(target, &queue.bindings[..queue.bound])
}

// The questions by their place in the console's row: is_empty 0 to can_retry 6, can_finish 7.
pub fn asked(queue: &Queue, question: u64, target: &[u64]) -> Result<bool, u64> {
    if !well_formed(queue) {
        return Err(1);
    }
    Ok(match question {
        0 => empty(queue),
        1 => queue.issued,
        2 => pending(queue.phase),
        3 => settled(queue.phase),
        4 => cancelled(queue.phase),
        5 => queue.failed,
        6 => retry_allowed(queue),
        _ => finishable(queue, target),
    })
}

pub fn domain(queue: &Queue) -> Result<u64, u64> {
    if well_formed(queue) {
        Ok(queue.domain)
    } else {
        Err(1)
    }
}
