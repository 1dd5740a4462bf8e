// spoiled.rs: queue records with fields set to edge values, each followed by every call.

use crate::coverage::Seen;
use crate::edges::{self, State};
use crate::fields;
use crate::histories;
use crate::maker::{Maker, Way};
use crate::queue::Queue;
use crate::rows::TOP;

const STATES: [State; 14] = [
    (false, 3, ""),
    (false, 3, "rr"),
    (false, 3, "rrp"),
    (false, 3, "rrpf"),
    (false, 3, "rrph"),
    (false, 3, "rrpft"),
    (false, 3, "rcp"),
    (false, 3, "wrp"),
    (true, 3, ""),
    (true, 3, "a"),
    (true, 3, "arp"),
    (true, 3, "acrpf"),
    (true, 3, "aerpft"),
    (true, TOP - 1, "crp"),
];

// A field, an index and a value.
pub type Spoil = [u64; 3];

fn marks_and_ticket(queue: &Queue) -> Vec<Spoil> {
    let tokens = queue.tokens as u64;
    let mut spoils = vec![[0, 0, 0], [0, 0, 1], [5, 0, 0], [5, 0, 1], [9, 0, 0], [9, 0, 1]];
    spoils.extend([[10, 0, 0], [10, 0, 1]]);
    spoils.extend([0, queue.domain.wrapping_add(1), TOP].map(|domain| [1, 0, domain]));
    spoils.extend([0, queue.domain, TOP].map(|domain| [6, 0, domain]));
    let below = tokens.wrapping_sub(1);
    spoils.extend([0, below, tokens, 63, 64, TOP].map(|token| [7, 0, token]));
    let attempts = [0, queue.next.wrapping_sub(1), queue.next, TOP];
    spoils.extend(attempts.map(|attempt| [8, 0, attempt]));
    spoils
}

fn counts_and_places(queue: &Queue) -> Vec<Spoil> {
    let (tokens, bound) = (queue.tokens as u64, queue.bound as u64);
    let attempt = queue.selected.map_or(0, |ticket| ticket.attempt);
    let mut spoils: Vec<Spoil> = (0..5).map(|phase| [11, 0, phase]).collect();
    spoils.extend([0, attempt, attempt.wrapping_add(1), TOP].map(|next| [2, 0, next]));
    let counts = [0, tokens.wrapping_sub(1), tokens.wrapping_add(1), 63, 64, 65, TOP];
    spoils.extend(counts.map(|count| [4, 0, count]));
    for slot in [0, tokens.saturating_sub(1), tokens, 63] {
        spoils.extend([0, 1, TOP].map(|number| [3, slot, number]));
    }
    for binding in [0, bound, 15] {
        spoils.extend([0, TOP].map(|member| [12, binding, member]));
    }
    let counts = [0, bound.wrapping_sub(1), bound.wrapping_add(1), 15, 16, 17, TOP];
    spoils.extend(counts.map(|count| [13, 0, count]));
    spoils
}

// Each alone; what can't be set, or changes nothing, is left out.
pub fn single(queue: &Queue) -> Vec<Spoil> {
    let mut spoils = marks_and_ticket(queue);
    spoils.extend(counts_and_places(queue));
    spoils.retain(|spoil| spoiled(queue, &[*spoil]).is_some());
    spoils
}

// Several fields together, for what no single one brings about.
fn joined(queue: &Queue) -> Vec<Vec<Spoil>> {
    let tokens = queue.tokens as u64;
    let slot = queue.selected.map_or(0, |ticket| ticket.token);
    let bare = [[0, 0, 0], [13, 0, 0], [12, 0, 0], [12, 1, 0]];
    let mut all = vec![
        vec![[9, 0, 1], [10, 0, 1]],
        vec![[5, 0, 0], [9, 0, 1], [10, 0, 1]],
        vec![[9, 0, 0], [10, 0, 0], [3, slot, 0]],
        vec![[9, 0, 0], [10, 0, 1], [3, slot, 7]],
        vec![[7, 0, tokens], [3, tokens, 9]],
        vec![[13, 0, 1], [12, 0, 5]],
        vec![[13, 0, 17], [4, 0, 65]],
        vec![[0, 0, 1], [13, 0, 16], [12, 15, 3]],
    ];
    all.extend([0, 1, 2, 3].map(|phase| [&bare[..], &[[11, 0, phase]]].concat()));
    all
}

// The queue with its fields set, if they can be set and change it.
pub fn spoiled(queue: &Queue, spoils: &[Spoil]) -> Option<Queue> {
    let mut after = *queue;
    for [field, index, value] in spoils {
        fields::set_queue(&mut after, *field, *index, *value)?;
    }
    (after != *queue).then_some(after)
}

// Every call; the arguments would be refused later than by 1, or not at all.
fn every_line(queue: &Queue) -> Vec<Vec<u64>> {
    let ticket = queue.selected.map_or([0, 0], |ticket| [ticket.token, ticket.attempt]);
    let mut lines: Vec<Vec<u64>> = (20..30).map(|number| vec![number]).collect();
    for base in [10, 30] {
        lines.push(vec![base, 0]);
        lines.extend((0..3).map(|kind| vec![base + kind, 8]));
        lines.push(vec![base + 3, ticket[0], ticket[1], 0, 0]);
        lines.push(vec![base + 3, ticket[0], ticket[1], 2, 8]);
        lines.extend((4..10).map(|kind| vec![base + kind]));
    }
    lines.extend([vec![42], vec![43, ticket[0], ticket[1], 1, 8]]);
    // These come last, for an opening writes over the spoiled record.
    lines.extend([vec![50, 1, 7, 0], vec![50, 0, 7, 0], vec![0, 9, 1], vec![1, 9, 1]]);
    lines
}

// The state's queue as it is before it is spoiled.
fn state_queue(state: &State) -> Queue {
    let mut maker = Maker::new(0, Seen::new(false));
    edges::build(&mut maker, state, Way::Plain);
    maker.console.queue
}

fn all_spoils() -> Vec<(usize, Vec<Spoil>)> {
    let mut all = Vec::new();
    for (place, state) in STATES.iter().enumerate() {
        let clean = state_queue(state);
        let single = single(&clean).into_iter().map(|spoil| vec![spoil]);
        let joined = joined(&clean).into_iter().filter(|spoil| spoiled(&clean, spoil).is_some());
        all.extend(single.chain(joined).map(|spoil| (place, spoil)));
    }
    all
}

// Spoils are dealt out by eights, so that the list of them is not made anew for each.
const DEAL: usize = 8;

pub fn count() -> usize {
    all_spoils().len().div_ceil(DEAL)
}

fn set_all(maker: &mut Maker, spoils: &[Spoil]) {
    for spoil in spoils {
        maker.say(&[&[130], &spoil[..]].concat());
    }
}

// The lent words are few, so that they can be shown after each recorded call.
fn build_spoiled(maker: &mut Maker, state: &State, spoils: &[Spoil]) {
    maker.reset();
    edges::build(maker, state, Way::Plain);
    if let Some(ticket) = maker.console.queue.selected {
        maker.say(&[90, ticket.domain]);
    }
    set_all(maker, spoils);
    maker.say(&[135, 10]);
}

fn said_and_shown(maker: &mut Maker, line: &[u64]) {
    maker.say(line);
    // A question changes nothing, so the show behind the next call will do.
    if !(20..30).contains(&line[0]) {
        maker.show();
    }
    // A refused call must leave the lent words as well; many words are shown by the reset.
    if (30..40).contains(&line[0]) && maker.console.lent < 20 {
        maker.say(&[142]);
    }
}

// Every call on the queue as it stands, each on what the one before left.
pub fn every_call(maker: &mut Maker) {
    for line in every_line(&maker.console.queue.clone()) {
        said_and_shown(maker, &line);
    }
}

// A refusal changes nothing, so only a change asks for the record to be built again.
fn one_spoil(maker: &mut Maker, state: &State, spoils: &[Spoil]) {
    build_spoiled(maker, state, spoils);
    let start = maker.console.queue;
    for line in every_line(&start) {
        if maker.console.queue != start || maker.console.used != 0 {
            build_spoiled(maker, state, spoils);
        }
        said_and_shown(maker, &line);
    }
}

pub fn piece(maker: &mut Maker, place: usize) {
    for (state, spoils) in all_spoils().into_iter().skip(place * DEAL).take(DEAL) {
        one_spoil(maker, &STATES[state], &spoils);
    }
}

// A history that is broken off, spoiled in some fields and met by every call without being built again.
pub fn broken_off(maker: &mut Maker) {
    maker.reset();
    let iterator = maker.random.chance(500);
    let (domain, first) = (maker.random.pick(&[0, 5, TOP]), maker.random.pick(&[0, 3, TOP - 2]));
    maker.open(iterator, domain, first, &edges::COMMITTED);
    for _ in 0..maker.random.between(2, 25) {
        histories::one_call(maker, Way::Plain);
    }
    for _ in 0..maker.random.between(1, 3) {
        let spoils = single(&maker.console.queue);
        let spoil = maker.random.pick(&spoils);
        set_all(maker, &[spoil]);
    }
    maker.say(&[135, 10]);
    every_call(maker);
}
