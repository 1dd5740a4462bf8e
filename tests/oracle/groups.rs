// groups.rs: the group record, its well-formedness and every group call, as the rules state them.

use crate::questions::{cancelled, drained, finishable, retry_allowed};
use crate::queue::{open_iterator, open_scope, pending, retry, well_formed, Queue};

pub const PLACES: usize = 16;
pub const LARGEST_BASE: u64 = 18_446_744_073_709_486_079;
pub const IDS: u64 = 65_536;

#[derive(Clone, Copy, PartialEq, Eq, Debug)]
pub struct Place {
    pub id: u64,
    pub live: bool,
    pub queue: Queue,
}

#[derive(Clone, PartialEq, Eq, Debug)]
pub struct Groups {
    pub base: u64,
    pub next: u64,
    pub sealed: bool,
    pub places: [Place; PLACES],
}

fn free_place() -> Place {
    Place { id: 0, live: false, queue: open_scope(0, 0) }
}

fn empty_record(base: u64) -> Groups {
    Groups { base, next: 0, sealed: false, places: [free_place(); PLACES] }
}

// The number comes beside the record because a refused one gives the empty record of base 0.
pub fn new(base: u64) -> (u64, Groups) {
    if base > LARGEST_BASE {
        return (19, empty_record(0));
    }
    let mut groups = empty_record(base);
    groups.places[0] = Place { id: 0, live: true, queue: open_scope(base, 0) };
    groups.next = 1;
    (0, groups)
}

// Only asked with id below next and next at most 65,536, so the sum can't wrap.
fn live_place_fits(groups: &Groups, place: &Place) -> bool {
    place.id < groups.next
        && well_formed(&place.queue)
        && place.queue.domain == groups.base + place.id
        && !groups.sealed
}

fn ids_distinct(groups: &Groups) -> bool {
    let mut ids: Vec<u64> = live(groups).map(|place| place.id).collect();
    let all = ids.len();
    ids.sort_unstable();
    ids.dedup();
    ids.len() == all
}

pub fn is_well_formed(groups: &Groups) -> bool {
    let fits = |place: &Place| {
        if place.live {
            live_place_fits(groups, place)
        } else {
            *place == free_place()
        }
    };
    groups.base <= LARGEST_BASE
        && groups.next <= IDS
        && groups.places.iter().all(fits)
        && ids_distinct(groups)
}

fn live(groups: &Groups) -> impl Iterator<Item = &Place> {
    groups.places.iter().filter(|place| place.live)
}

fn checked(groups: &Groups) -> Result<(), u64> {
    if is_well_formed(groups) {
        Ok(())
    } else {
        Err(1)
    }
}

// Refusal 1, then 10.
fn place_of(groups: &Groups, id: u64) -> Result<usize, u64> {
    checked(groups)?;
    groups.places.iter().position(|place| place.live && place.id == id).ok_or(10)
}

// Bindings are given for an iterator only; the order is 1, 12, 14, 11, 19.
pub fn open(groups: &mut Groups, bindings: Option<&[u64]>) -> Result<u64, u64> {
    checked(groups)?;
    if groups.sealed {
        return Err(12);
    }
    let domain = groups.base + groups.next;
    let (number, queue) = match bindings {
        None => (0, open_scope(domain, 0)),
        Some(list) => open_iterator(domain, 0, list),
    };
    if number != 0 {
        return Err(number);
    }
    let Some(free) = groups.places.iter().position(|place| !place.live) else { return Err(11) };
    if groups.next >= IDS {
        return Err(19);
    }
    let id = groups.next;
    groups.places[free] = Place { id, live: true, queue };
    groups.next += 1;
    Ok(id)
}

pub fn close(groups: &mut Groups, id: u64) -> Result<(), u64> {
    let place = place_of(groups, id)?;
    if !drained(&groups.places[place].queue) {
        return Err(13);
    }
    groups.places[place] = free_place();
    Ok(())
}

pub fn seal(groups: &mut Groups) -> Result<(), u64> {
    checked(groups)?;
    if groups.sealed {
        return Err(12);
    }
    if !live(groups).all(|place| drained(&place.queue)) {
        return Err(13);
    }
    groups.places = [free_place(); PLACES];
    groups.sealed = true;
    Ok(())
}

// Any step of one group's queue: 1, 10, then as the queue; the other groups stay.
pub fn step<A>(
    groups: &mut Groups,
    id: u64,
    made: impl FnOnce(&Queue) -> Result<(Queue, A), u64>,
) -> Result<A, u64> {
    let place = place_of(groups, id)?;
    let (after, answer) = made(&groups.places[place].queue)?;
    groups.places[place].queue = after;
    Ok(answer)
}

// The group's queue for questions and for get: 1, then 10.
pub fn get(groups: &Groups, id: u64) -> Result<&Queue, u64> {
    place_of(groups, id).map(|place| &groups.places[place].queue)
}

fn any(groups: &Groups, holds: impl Fn(&Queue) -> bool) -> Result<bool, u64> {
    checked(groups)?;
    Ok(live(groups).any(|place| holds(&place.queue)))
}

pub fn has_pending(groups: &Groups) -> Result<bool, u64> {
    any(groups, |queue| pending(queue.phase))
}

pub fn has_issued(groups: &Groups) -> Result<bool, u64> {
    any(groups, |queue| queue.issued)
}

pub fn has_failed(groups: &Groups) -> Result<bool, u64> {
    any(groups, |queue| queue.failed)
}

// At least one failed, and each failed one may be retried.
pub fn can_retry_all(groups: &Groups) -> Result<bool, u64> {
    let stuck = any(groups, |queue| queue.failed && !retry_allowed(queue))?;
    Ok(has_failed(groups)? && !stuck)
}

// All that failed or none: whether it was done.
pub fn retry_all(groups: &mut Groups) -> Result<bool, u64> {
    if !can_retry_all(groups)? {
        return Ok(false);
    }
    for place in groups.places.iter_mut().filter(|place| place.live && place.queue.failed) {
        place.queue = retry(&place.queue)?.0;
    }
    Ok(true)
}

// R118: neither pending nor failed; of every id but 0 also the queue's own can_finish.
pub fn can_finish(groups: &Groups, target: &[u64]) -> Result<bool, u64> {
    checked(groups)?;
    let fit = |place: &Place| {
        let calm = !pending(place.queue.phase) && !place.queue.failed;
        calm && (place.id == 0 || finishable(&place.queue, target))
    };
    Ok(live(groups).all(fit))
}

pub fn can_seal(groups: &Groups) -> Result<bool, u64> {
    any(groups, |queue| !drained(queue)).map(|undrained| !undrained)
}

pub fn contains(groups: &Groups, id: u64) -> Result<bool, u64> {
    checked(groups)?;
    Ok(live(groups).any(|place| place.id == id))
}

pub fn len(groups: &Groups) -> Result<u64, u64> {
    checked(groups)?;
    Ok(live(groups).count() as u64)
}

pub fn is_empty(groups: &Groups) -> Result<bool, u64> {
    len(groups).map(|count| count == 0)
}

pub fn accepts_acquisition(groups: &Groups, id: u64) -> Result<bool, u64> {
    get(groups, id).map(|queue| !cancelled(queue.phase))
}

pub fn may_open(groups: &Groups) -> Result<bool, u64> {
    checked(groups)?;
    let room = live(groups).count() < PLACES;
    Ok(!groups.sealed && room && groups.next < IDS)
}
