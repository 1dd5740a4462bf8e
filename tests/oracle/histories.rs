// histories.rs: random histories over plain, recorded, lent and group calls, each followed by every call.

use crate::calls::Call;
use crate::console::LENT_WORDS;
use crate::generate::number;
use crate::groups::LARGEST_BASE;
use crate::maker::{Maker, Way};
use crate::queue::{pending, Phase, Queue, Ticket};
use crate::rows::TOP;
use crate::spoiled;
use crate::spoiledgroups;

const FIRSTS: [u64; 9] = [0, 0, 0, 1, 7, 1 << 63, TOP - 12, TOP - 3, TOP];
const DOMAINS: [u64; 6] = [0, 1, 5, 5, TOP - 1, TOP];

// Few different members, so that targets often fit and often nearly fit; seldom as many as may be.
fn bindings(maker: &mut Maker, most: usize) -> Vec<u64> {
    let many = maker.random.chance(40);
    let count =
        if many { maker.random.pick(&[15, 16, 17, 64]) } else { maker.random.between(0, most) };
    (0..count).map(|_| maker.random.pick(&[0, 1, 4, 9, 9, TOP])).collect()
}

// The committed members, now and then turned, repeated, shortened or with one more.
fn target(maker: &mut Maker, queue: &Queue) -> Vec<u64> {
    let mut members = queue.bindings[..queue.bound.min(16)].to_vec();
    match maker.random.below(8) {
        0 => members.reverse(),
        1 => members.extend(members.clone()),
        2 => members.truncate(1),
        3 => members.push(maker.random.below(12)),
        _ => {}
    }
    members
}

fn near(maker: &mut Maker, value: u64) -> u64 {
    let step = maker.random.pick(&[1, TOP, 2]);
    value.wrapping_add(step)
}

fn wrong_ticket(maker: &mut Maker, queue: &Queue) -> Ticket {
    let blank = Ticket { domain: queue.domain, token: 0, attempt: queue.next };
    let mut ticket = queue.selected.unwrap_or(blank);
    match maker.random.below(4) {
        0 => ticket.domain = near(maker, ticket.domain),
        1 => ticket.token = near(maker, ticket.token),
        2 => ticket.attempt = near(maker, ticket.attempt),
        _ => {}
    }
    ticket
}

fn completed(maker: &mut Maker, way: Way, queue: &Queue) {
    let ticket = match queue.selected {
        Some(ticket) if maker.random.chance(850) => ticket,
        _ => wrong_ticket(maker, queue),
    };
    let kept = number(&mut maker.random);
    let (outcome, kept) = match maker.random.below(40) {
        0 => (2, kept),
        1 => (TOP, 0),
        2 => (0, kept),
        3 => (1, 0),
        4..=19 => (1, kept),
        _ => (0, 0),
    };
    maker.call(way, &Call::Complete(ticket, outcome, kept));
}

fn staged(maker: &mut Maker, way: Way, queue: &Queue) {
    let undo = number(&mut maker.random);
    let goal = target(maker, queue);
    let call = match (queue.phase, maker.random.below(12)) {
        (_, 0) => Call::Cancel,
        (_, 1) => Call::End,
        (_, 2) => Call::Admit(None),
        (phase, 3..=9) if pending(phase) => Call::Land(undo),
        (Phase::Ended | Phase::Closed, 3..=8) => Call::Register(undo),
        (_, 10) => Call::Land(undo),
        _ => Call::Admit(Some(&goal)),
    };
    maker.call(way, &call);
}

// Mostly short, seldom as long as the console's list may be, and with a 0 somewhere one time in four.
fn sequence(maker: &mut Maker, way: Way) {
    let most = if maker.random.chance(60) { 64 } else { 6 };
    let mut numbers: Vec<u64> =
        (0..maker.random.between(0, most)).map(|_| number(&mut maker.random)).collect();
    if !numbers.is_empty() && maker.random.chance(250) {
        let place = maker.random.place(numbers.len());
        numbers[place] = 0;
    }
    maker.register_all(way, &numbers);
}

// A call that mostly fits the state, and now and then doesn't.
pub fn one_call(maker: &mut Maker, way: Way) {
    let queue = maker.queue(way);
    let undo = number(&mut maker.random);
    match maker.random.below(100) {
        0..=1 => maker.call(way, &Call::Register(0)),
        2 => maker.call(way, &Call::Land(0)),
        3..=5 => maker.call(way, &Call::Retry),
        6..=9 => maker.call(way, &Call::Pop),
        10..=13 => completed(maker, way, &queue),
        14..=33 => staged(maker, way, &queue),
        34..=49 => maker.call(way, &Call::Register(undo)),
        50..=52 => sequence(maker, way),
        _ if queue.issued => completed(maker, way, &queue),
        _ if queue.failed => maker.call(way, &Call::Retry),
        _ => maker.call(way, &Call::Pop),
    }
}

fn question(maker: &mut Maker, way: Way) {
    let queue = maker.queue(way);
    let goal = target(maker, &queue);
    let asked = maker.random.below(10);
    if asked == 7 {
        maker.list(&goal);
    }
    match way {
        Way::Group(_) if asked == 9 => maker.say(&[89]),
        Way::Group(id) => maker.say(&[80 + asked, id]),
        _ => maker.say(&[20 + asked]),
    };
}

fn hopeless(queue: &Queue) -> bool {
    let slot = queue.selected.map_or(1, |ticket| queue.slots[ticket.token as usize % 64]);
    (queue.failed && slot == 0) || queue.next == TOP
}

fn pick_way(maker: &mut Maker, leaning: u64) -> Way {
    match leaning {
        0 => Way::Plain,
        1 | 2 => Way::Recorded,
        3 => Way::Lent,
        _ => maker.random.pick(&[Way::Plain, Way::Recorded, Way::Lent]),
    }
}

// A small log, so that it can run full and be shown whole.
fn small_log(maker: &mut Maker) {
    let words = maker.random.pick(&[0, 4, 5, 12, 64, 150, 203, 300]);
    maker.say(&[135, words]);
    if maker.random.chance(100) {
        let used = maker.random.below(words / 5 + 2);
        maker.say(&[136, used]);
    }
}

// The log is cut to the used rows and read by the opening that made it, then by others.
fn read_back(maker: &mut Maker, opening: [u64; 3]) {
    let used = maker.console.used;
    if used <= 4096 {
        maker.say(&[135, 5 * used]);
    }
    let [kind, domain, first] = opening;
    maker.say(&[50, kind, domain, first]);
    maker.say(&[141]);
    maker.say(&[50, 1 - kind, domain, first]);
    maker.say(&[141]);
    if maker.console.lent <= 400 {
        maker.say(&[142]);
    }
}

pub fn queue_history(maker: &mut Maker) {
    maker.reset();
    let iterator = maker.random.chance(550);
    let (domain, first) = (maker.random.pick(&DOMAINS), maker.random.pick(&FIRSTS));
    let committed = bindings(maker, 3);
    let leaning = maker.random.below(6);
    if leaning > 0 && maker.random.chance(350) {
        small_log(maker);
    }
    maker.open(iterator, domain, first, &committed);
    for _ in 0..maker.random.between(10, 160) {
        let way = pick_way(maker, leaning);
        let before = maker.console.queue;
        one_call(maker, way);
        let often = if maker.console.queue == before { 200 } else { 700 };
        if maker.random.chance(often) {
            maker.show();
        }
        if maker.random.chance(120) {
            question(maker, Way::Plain);
        }
        if hopeless(&maker.console.queue) && maker.random.chance(150) {
            break;
        }
    }
    maker.show();
    maker.list(&committed);
    read_back(maker, [u64::from(iterator), domain, first]);
    // The log is full now; half of the time it has room again for the calls behind.
    if maker.random.chance(500) {
        maker.say(&[135, LENT_WORDS as u64]);
    }
    spoiled::every_call(maker);
}

// An id that is mostly live, and else dead, not yet given or never to be given.
fn some_id(maker: &mut Maker) -> u64 {
    let places = &maker.console.groups.places;
    let live: Vec<u64> = places.iter().filter(|place| place.live).map(|place| place.id).collect();
    let next = maker.console.groups.next;
    if live.is_empty() || maker.random.chance(40) {
        let below = maker.random.below(next.max(1));
        return maker.random.pick(&[next, below, 65_535, 65_536, TOP]);
    }
    maker.random.pick(&live)
}

fn open_or_close(maker: &mut Maker) {
    let id = some_id(maker);
    match maker.random.below(12) {
        0..=2 => {
            maker.open_group(false, &[]);
        }
        3..=6 => {
            let committed = bindings(maker, 3);
            maker.open_group(true, &committed);
        }
        7 => {
            maker.say(&[64]);
        }
        _ => {
            maker.say(&[63, id]);
        }
    }
}

fn question_of_all(maker: &mut Maker) {
    let asked = 100 + maker.random.below(13);
    let id = some_id(maker);
    if asked == 105 && maker.random.chance(500) {
        let goal = bindings(maker, 2);
        maker.list(&goal);
    }
    match asked {
        107 | 110 | 111 => maker.say(&[asked, id]),
        _ => maker.say(&[asked]),
    };
    if asked == 110 {
        maker.say(&[141]);
    }
}

// Cancels and drains a group, so that closing and sealing are often done.
fn drain(maker: &mut Maker, id: u64) {
    let way = Way::Group(id);
    let phase = maker.queue(way).phase;
    if maker.random.chance(500) || phase == Phase::Idle {
        maker.call(way, &Call::Cancel);
    }
    maker.call(way, &Call::End);
    for _ in 0..12 {
        let queue = maker.queue(way);
        match queue.selected {
            Some(ticket) if queue.issued => maker.call(way, &Call::Complete(ticket, 0, 0)),
            Some(_) if queue.failed => maker.call(way, &Call::Retry),
            None if queue.slots == [0; 64] => break,
            _ => maker.call(way, &Call::Pop),
        };
    }
    maker.say(&[63, id]);
}

fn group_turn(maker: &mut Maker) {
    let id = some_id(maker);
    match maker.random.below(100) {
        0..=13 => open_or_close(maker),
        14..=29 => question_of_all(maker),
        30..=37 => question(maker, Way::Group(id)),
        38..=40 => drain(maker, id),
        _ => {
            one_call(maker, Way::Group(id));
            if maker.random.chance(300) {
                maker.say(&[110, id]);
                maker.say(&[141]);
            }
        }
    }
}

fn some_groups(maker: &mut Maker) {
    maker.reset();
    let bases = [0, 0, 1, 700, 1 << 63, LARGEST_BASE - 1, LARGEST_BASE];
    let base = maker.random.pick(&bases);
    maker.say(&[60, base]);
    // A refused one is empty, and only there can id 0 be an iterator.
    if maker.random.chance(150) {
        maker.say(&[60, LARGEST_BASE + 1]);
    }
    for _ in 0..maker.random.between(1, 3) {
        open_or_close(maker);
    }
}

// A short one, for what comes behind it.
pub fn few_groups(maker: &mut Maker) {
    some_groups(maker);
    for _ in 0..maker.random.between(2, 20) {
        group_turn(maker);
    }
}

pub fn group_history(maker: &mut Maker) {
    some_groups(maker);
    for _ in 0..maker.random.between(10, 120) {
        group_turn(maker);
        if maker.random.chance(60) {
            maker.say(&[143]);
        }
        if maker.console.groups.sealed && maker.random.chance(80) {
            break;
        }
    }
    maker.say(&[143]);
    spoiledgroups::every_call(maker);
}
