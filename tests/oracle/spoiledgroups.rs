// spoiledgroups.rs: group records with fields set to edge values, each followed by every call.

use crate::clauses;
use crate::coverage::Seen;
use crate::edges::COMMITTED;
use crate::groups::{Groups, LARGEST_BASE};
use crate::histories;
use crate::maker::{Maker, Way};
use crate::rows::TOP;
use crate::spoiled::{self, Spoil};

const BASE: u64 = 40;

// How many shapes the match below tells apart.
const SHAPES: usize = 6;

// The lines that set what is spoiled.
type Lines = Vec<Vec<u64>>;

fn build(maker: &mut Maker, shape: usize) {
    maker.reset();
    match shape {
        0 => round_a_freed_place(maker),
        1 => {
            maker.say(&[60, BASE]);
        }
        2 => {
            maker.say(&[60, BASE]);
            maker.say(&[64]);
        }
        // Refused, so it has no live group.
        3 => {
            maker.say(&[60, TOP]);
        }
        4 => every_selection(maker),
        _ => {
            maker.say(&[60, BASE]);
            (0..15).for_each(|turn| {
                maker.open_group(turn % 2 == 0, &[]);
            });
        }
    }
}

fn round_a_freed_place(maker: &mut Maker) {
    maker.say(&[60, BASE]);
    maker.open_group(false, &[]);
    maker.open_group(true, &COMMITTED);
    maker.steps(Way::Group(0), "r");
    maker.say(&[63, 1]);
}

// A live queue each: failed, issued and pending, ready, failed keeping none, nothing selected.
fn every_selection(maker: &mut Maker) {
    maker.say(&[60, BASE]);
    maker.steps(Way::Group(0), "rrpf");
    for steps in ["arrp", "rpft", "acrph", "alr"] {
        let id = maker.open_group(true, &COMMITTED);
        maker.steps(Way::Group(id), steps);
    }
    let id = maker.open_group(false, &[]);
    maker.steps(Way::Group(id), "rrp");
}

fn built(shape: usize) -> Groups {
    let mut maker = Maker::new(0, Seen::new(false));
    build(&mut maker, shape);
    maker.console.groups
}

fn of_the_record(groups: &Groups) -> Vec<Lines> {
    let next = groups.next;
    let bases = [0, BASE + 1, LARGEST_BASE, LARGEST_BASE + 1, TOP];
    let nexts = [0, 1, next.wrapping_sub(1), next + 1, 65_535, 65_536, 65_537, TOP];
    let mut all: Vec<Lines> = Vec::new();
    all.extend(bases.map(|base| vec![vec![131, 0, base]]));
    all.extend(nexts.map(|next| vec![vec![131, 1, next]]));
    all.extend([0, 1].map(|sealed| vec![vec![131, 2, sealed]]));
    // A base too large whose live queue has the domain that it asks for.
    let root = vec![133, 0, 1, 0, LARGEST_BASE + 1];
    all.push(vec![vec![131, 0, LARGEST_BASE + 1], root]);
    all
}

// The first two places, the last live one and the last of all.
fn of_the_places(groups: &Groups) -> Vec<Lines> {
    let last = groups.places.iter().rposition(|place| place.live).unwrap_or(0) as u64;
    let mut places = vec![0, 1, last, 15];
    places.sort_unstable();
    places.dedup();
    let mut all: Vec<Lines> = Vec::new();
    for place in places {
        let ids = [0, 1, groups.next, 65_536, TOP];
        all.extend(ids.map(|id| vec![vec![132, place, 0, id]]));
        all.extend([0, 1].map(|live| vec![vec![132, place, 1, live]]));
    }
    all
}

// The last live place takes the root's id and domain, so that nothing else is amiss.
fn twins(groups: &Groups) -> Vec<Lines> {
    let last = groups.places.iter().rposition(|place| place.live).unwrap_or(0);
    if last == 0 {
        return vec![];
    }
    let place = last as u64;
    let mut lines = vec![vec![132, place, 0, 0], vec![133, place, 1, 0, groups.base]];
    if groups.places[last].queue.selected.is_some() {
        lines.push(vec![133, place, 6, 0, groups.base]);
    }
    vec![lines]
}

// Of a free place's queue each field once or twice, since 1 is all that may come.
const OF_A_FREE_QUEUE: [Spoil; 16] = [
    [0, 0, 1],
    [1, 0, BASE + 1],
    [2, 0, 7],
    [3, 0, 9],
    [3, 63, 9],
    [4, 0, 1],
    [4, 0, 65],
    [5, 0, 1],
    [6, 0, BASE],
    [7, 0, 64],
    [8, 0, 9],
    [9, 0, 1],
    [10, 0, 1],
    [11, 0, 4],
    [12, 15, 2],
    [13, 0, 1],
];

// Each clause of a live queue broken alone, by up to two fields of each place.
fn of_a_live_queue(groups: &Groups, place: usize) -> Vec<Spoil> {
    let queue = &groups.places[place].queue;
    let mut counts = [0; clauses::OF_QUEUE.len()];
    // Another domain of the queue itself would break a clause of the record as well.
    let first_two = |spoil: &Spoil| {
        if spoil[0] == 1 {
            return false;
        }
        let after = spoiled::spoiled(queue, &[*spoil]);
        let Some(clause) = after.as_ref().and_then(clauses::alone_in_queue) else { return false };
        counts[clause] += 1;
        counts[clause] <= 2
    };
    spoiled::single(queue).into_iter().filter(first_two).collect()
}

fn of_the_queues(groups: &Groups, shape: usize) -> Vec<Lines> {
    let mut all = Vec::new();
    for place in 0..16 {
        let live = groups.places[place].live;
        let spoils = match (shape, live) {
            (0 | 1 | 4, true) => of_a_live_queue(groups, place),
            (0, false) if place == 1 => OF_A_FREE_QUEUE.to_vec(),
            (0..=4, false) if place == 15 => OF_A_FREE_QUEUE.to_vec(),
            _ => vec![],
        };
        let lines = |spoil: &Spoil| vec![[&[133, place as u64], &spoil[..]].concat()];
        all.extend(spoils.iter().map(lines));
    }
    all
}

fn all_spoils() -> Vec<(usize, Lines)> {
    let mut all = Vec::new();
    for shape in 0..SHAPES {
        let groups = built(shape);
        let kinds = [
            of_the_record(&groups),
            of_the_places(&groups),
            twins(&groups),
            of_the_queues(&groups, shape),
        ];
        all.extend(kinds.concat().into_iter().map(|lines| (shape, lines)));
    }
    all
}

// Every call: of live ids, of a freed one and of one not yet given.
fn every_line(groups: &Groups) -> Lines {
    let last = groups.next.wrapping_sub(1) % 65_536;
    let mut lines: Lines = vec![vec![89]];
    for number in 80..=88 {
        lines.push(vec![number, if number % 2 == 0 { 0 } else { last }]);
    }
    for number in (100..=112).filter(|number| *number != 104) {
        let ids: &[u64] = if matches!(number, 107 | 110 | 111) { &[0, 99] } else { &[0] };
        lines.extend(ids.iter().map(|id| vec![number, *id]));
    }
    lines.extend((70..=79).map(|number| vec![number, number % 2 * last, 3, 0, 2]));
    lines.extend([vec![72, last], vec![88, 99], vec![70, 99, 5], vec![79, 99]]);
    lines.extend([vec![104], vec![61], vec![62]]);
    lines.extend([0, 1, last].map(|id| vec![63, id]));
    // A new record comes last, for it writes over the spoiled one.
    lines.extend([vec![64], vec![60, 7]]);
    lines
}

fn build_spoiled(maker: &mut Maker, shape: usize, spoil: &Lines) {
    build(maker, shape);
    for line in spoil {
        maker.say(line);
    }
}

// A refusal changes nothing, so only a change asks for the record to be built again.
fn one_spoil(maker: &mut Maker, shape: usize, spoil: &Lines) {
    build_spoiled(maker, shape, spoil);
    let start = maker.console.groups.clone();
    for (turn, line) in every_line(&start).iter().enumerate() {
        if maker.console.groups != start {
            build_spoiled(maker, shape, spoil);
        }
        maker.say(line);
        // The whole record is long, so it is shown now and then; a change is shown by the reset.
        if turn % 16 == 15 {
            maker.say(&[143]);
        }
    }
}

const DEAL: usize = 4;

pub fn count() -> usize {
    all_spoils().len().div_ceil(DEAL)
}

pub fn piece(maker: &mut Maker, place: usize) {
    for (shape, spoil) in all_spoils().iter().skip(place * DEAL).take(DEAL) {
        one_spoil(maker, *shape, spoil);
    }
}

// Every call on the record as it stands, each on what the one before left.
pub fn every_call(maker: &mut Maker) {
    for line in every_line(&maker.console.groups.clone()) {
        maker.say(&line);
    }
}

// A group history that is broken off, spoiled once or twice and met by every call.
pub fn broken_off(maker: &mut Maker) {
    histories::few_groups(maker);
    for _ in 0..maker.random.between(1, 2) {
        let groups = maker.console.groups.clone();
        let mut spoils = [of_the_record(&groups), of_the_places(&groups)].concat();
        spoils.extend(of_the_queues(&groups, 0));
        let place = maker.random.place(spoils.len());
        spoils[place].iter().for_each(|line| {
            maker.say(line);
        });
    }
    every_call(maker);
}
