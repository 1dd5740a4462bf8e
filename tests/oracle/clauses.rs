// clauses.rs: well-formedness clause by clause, so that coverage can tell which one alone is broken.

use crate::groups::{Groups, Place, IDS, LARGEST_BASE};
use crate::queue::{open_scope, well_formed, Phase, Queue, BINDINGS, SLOTS};

pub const OF_QUEUE: [&str; 16] = [
    "more than 64 tokens",
    "more than 16 bindings",
    "unused slot not 0",
    "unused binding not 0",
    "ticket of another domain",
    "ticket's token not issued",
    "ticket's attempt not below next",
    "failed with nothing selected",
    "issued with nothing selected",
    "failed and issued both",
    "issued with the slot occupied",
    "ready with the slot empty",
    "scope with bindings",
    "scope Idle",
    "scope Pending",
    "scope Stopping",
];

// The fifth is told apart by the clause of the queue.
pub const OF_GROUPS: [&str; 9] = [
    "base too large",
    "next above 65,536",
    "a live id not below next",
    "two live ids the same",
    "a live queue not well formed",
    "a live queue of another domain",
    "a free place with an id",
    "a free place with another queue",
    "sealed with one live",
];

const LIVE_QUEUE: usize = 4;

// The places of the clauses that the queue breaks, in the order of their names.
fn broken_by_queue(queue: &Queue) -> Vec<usize> {
    let Queue { failed, issued, iterator, phase, .. } = *queue;
    let ticket = queue.selected;
    let slot = ticket.and_then(|ticket| queue.slots.get(ticket.token as usize));
    let holds = slot.map(|number| *number != 0);
    let broken = [
        queue.tokens > SLOTS,
        queue.bound > BINDINGS,
        queue.slots.iter().skip(queue.tokens).any(|number| *number != 0),
        queue.bindings.iter().skip(queue.bound).any(|binding| *binding != 0),
        ticket.is_some_and(|ticket| ticket.domain != queue.domain),
        ticket.is_some_and(|ticket| ticket.token >= queue.tokens as u64),
        ticket.is_some_and(|ticket| ticket.attempt >= queue.next),
        failed && ticket.is_none(),
        issued && ticket.is_none(),
        failed && issued && ticket.is_some(),
        issued && !failed && holds == Some(true),
        !failed && !issued && holds == Some(false),
        !iterator && queue.bound != 0,
        !iterator && phase == Phase::Idle,
        !iterator && phase == Phase::Pending,
        !iterator && phase == Phase::Stopping,
    ];
    (0..broken.len()).filter(|place| broken[*place]).collect()
}

// The one clause that the queue breaks, if it breaks one alone.
pub fn alone_in_queue(queue: &Queue) -> Option<usize> {
    match broken_by_queue(queue)[..] {
        [only] => Some(only),
        _ => None,
    }
}

fn broken_by_groups(groups: &Groups) -> Vec<usize> {
    let live: Vec<&Place> = groups.places.iter().filter(|place| place.live).collect();
    let twice = |place: &Place| live.iter().filter(|other| other.id == place.id).count() > 1;
    let blank = open_scope(0, 0);
    let mut free = groups.places.iter().filter(|place| !place.live);
    let broken = [
        groups.base > LARGEST_BASE,
        groups.next > IDS,
        live.iter().any(|place| place.id >= groups.next),
        live.iter().any(|place| twice(place)),
        live.iter().any(|place| !well_formed(&place.queue)),
        live.iter().any(|place| groups.base.checked_add(place.id) != Some(place.queue.domain)),
        free.clone().any(|place| place.id != 0),
        free.any(|place| place.queue != blank),
        groups.sealed && !live.is_empty(),
    ];
    (0..broken.len()).filter(|place| broken[*place]).collect()
}

pub fn alone_in_groups(groups: &Groups) -> Option<usize> {
    match broken_by_groups(groups)[..] {
        [only] => Some(only),
        _ => None,
    }
}

// The only spoiled live queue, if nothing else is amiss.
pub fn only_spoiled_queue(groups: &Groups) -> Option<&Queue> {
    if alone_in_groups(groups) != Some(LIVE_QUEUE) {
        return None;
    }
    let spoiled = |place: &&Place| place.live && !well_formed(&place.queue);
    let mut spoiled = groups.places.iter().filter(spoiled);
    let first = spoiled.next()?;
    spoiled.next().is_none().then_some(&first.queue)
}

pub fn breaks_something(queue: &Queue) -> bool {
    !broken_by_queue(queue).is_empty()
}

pub fn groups_break_something(groups: &Groups) -> bool {
    !broken_by_groups(groups).is_empty()
}
