// edges.rs: every call with its edge arguments in every small state, so each refusal at its edge.

use crate::calls::Call;
use crate::maker::{Maker, Way};
use crate::queue::{Queue, Ticket};
use crate::rows::TOP;

// Whether it is an iterator, the first attempt, and the steps that lead to it.
pub type State = (bool, u64, &'static str);

pub const COMMITTED: [u64; 2] = [4, 9];
const DOMAIN: u64 = 5;

pub const STATES: [State; 44] = [
    (false, 0, ""),
    (false, 0, "r"),
    (false, 0, "rrp"),
    (false, 0, "rrpf"),
    (false, 0, "rrph"),
    (false, 0, "rrpft"),
    (false, 0, "rrpftp"),
    (false, 0, "rpd"),
    (false, 0, "rrpdr"),
    (false, 0, "c"),
    (false, 0, "rcp"),
    (false, 0, "rrpd"),
    (true, 0, ""),
    (true, 0, "a"),
    (true, 0, "ae"),
    (true, 0, "ac"),
    (true, 0, "acl"),
    (true, 0, "ace"),
    (true, 0, "aec"),
    (true, 0, "c"),
    (true, 0, "al"),
    (true, 0, "ar"),
    (true, 0, "arp"),
    (true, 0, "arpf"),
    (true, 0, "arrpft"),
    (true, 0, "acrp"),
    (true, 0, "acrph"),
    (true, 0, "rrp"),
    (true, 0, "rpf"),
    (true, 0, "alpft"),
    (true, 0, "w"),
    (true, 0, "wa"),
    (true, 0, "war"),
    (true, 0, "wacr"),
    (false, 0, "wr"),
    (false, 0, "wrp"),
    (true, 0, "W"),
    (false, TOP, "r"),
    (false, TOP, "rr"),
    (false, TOP - 1, "r"),
    (false, TOP - 1, "rrpf"),
    (true, TOP - 1, "arpd"),
    (false, TOP - 2, "rpf"),
    (true, TOP - 2, "rpft"),
];

// Words lent and rows used; the first has three free rows and is short enough to be shown.
const LOGS: [(u64, u64); 17] = [
    (15, 0),
    (20_480, 4096),
    (9, 1),
    (4, 1),
    (20_480, 4095),
    (20_480, 4097),
    (20_500, 4096),
    (20_500, 4097),
    (20_500, 4100),
    (20_500, 4101),
    (20_484, 4096),
    (5, 1),
    (10, 1),
    (0, 0),
    (20_480, TOP),
    (20_480, 0),
    (20_480, 3_689_348_814_741_910_324),
];

// A scope among groups is the root, an iterator the group behind it.
fn group_of(state: &State) -> Way {
    Way::Group(u64::from(state.0))
}

pub fn build(maker: &mut Maker, state: &State, way: Way) {
    let (iterator, first, steps) = *state;
    match way {
        Way::Group(_) => {
            if iterator {
                maker.open_group(true, &COMMITTED);
            }
            if first != 0 {
                maker.set_field(way, 2, 0, first);
            }
        }
        _ => maker.open(iterator, DOMAIN, first, &COMMITTED),
    }
    let building = if matches!(way, Way::Group(_)) { way } else { Way::Plain };
    maker.steps(building, steps);
}

// The right ticket, or a likely one, and its neighbours in each part.
fn tickets(queue: &Queue) -> Vec<Ticket> {
    let likely = Ticket { domain: queue.domain, token: 0, attempt: queue.next.wrapping_sub(1) };
    let right = queue.selected.unwrap_or(likely);
    vec![
        right,
        Ticket { domain: right.domain.wrapping_add(1), ..right },
        Ticket { token: right.token.wrapping_add(1), ..right },
        Ticket { token: right.token.wrapping_sub(1), ..right },
        Ticket { attempt: right.attempt.wrapping_sub(1), ..right },
        Ticket { attempt: right.attempt.wrapping_add(1), ..right },
    ]
}

const TARGETS: [&[u64]; 6] = [&[4, 9], &[9, 4, 9], &[4], &[4, 9, 1], &[], &[9, 9]];

// Every call with its edge arguments; the right ticket takes all outcomes, a wrong one a few.
fn variants(queue: &Queue) -> Vec<Call<'static>> {
    let mut calls = vec![Call::Pop, Call::Retry, Call::Admit(None), Call::End, Call::Cancel];
    for number in [0, 1, TOP] {
        calls.extend([Call::Register(number), Call::Land(number)]);
    }
    calls.extend(TARGETS.iter().map(|target| Call::Admit(Some(target))));
    for (place, ticket) in tickets(queue).into_iter().enumerate() {
        let outcomes: &[u64] = if place == 0 { &[0, 1, 2, TOP] } else { &[0, 1, 2] };
        for outcome in outcomes {
            let kept: &[u64] = if place == 0 { &[0, 7] } else { &[7] };
            calls.extend(kept.iter().map(|kept| Call::Complete(ticket, *outcome, *kept)));
        }
    }
    calls
}

// Lists for register_all: none, one, more than a short log has rows for, and a 0 first and on the way.
const LISTS: [&[u64]; 5] = [&[], &[7], &[7, 8, 9, TOP], &[0, 7], &[7, 0, 8]];

fn set_log(maker: &mut Maker, log: (u64, u64)) {
    maker.say(&[135, log.0]);
    maker.say(&[136, log.1]);
}

fn rebuilt(maker: &mut Maker, state: &State, way: Way, log: (u64, u64)) {
    maker.reset();
    if let Way::Group(_) = way {
        maker.say(&[60, DOMAIN]);
    }
    build(maker, state, way);
    if way == Way::Recorded {
        set_log(maker, log);
    }
}

fn is_changed(maker: &Maker, way: Way, start: &Queue, log: (u64, u64)) -> bool {
    maker.queue(way) != *start || (way == Way::Recorded && maker.console.used != log.1)
}

// A refusal changes nothing, so only a change asks for the state to be built again.
fn every_variant(maker: &mut Maker, state: &State, way: Way, log: (u64, u64)) {
    rebuilt(maker, state, way, log);
    let start = maker.queue(way);
    for call in variants(&start) {
        if is_changed(maker, way, &start, log) {
            rebuilt(maker, state, way, log);
        }
        if way == Way::Lent && !matches!(call, Call::Pop | Call::Complete(..)) {
            continue;
        }
        maker.call(way, &call);
        shown_after(maker, way, maker.queue(way) != start);
    }
    if way != Way::Lent {
        every_list(maker, state, way, log, &start);
    }
}

// A list that is refused on the way has changed the state too.
fn every_list(maker: &mut Maker, state: &State, way: Way, log: (u64, u64), start: &Queue) {
    for list in LISTS {
        if is_changed(maker, way, start, log) {
            rebuilt(maker, state, way, log);
        }
        maker.register_all(way, list);
        shown_after(maker, way, maker.queue(way) != *start);
    }
}

fn shown_after(maker: &mut Maker, way: Way, changed: bool) {
    if let Way::Group(id) = way {
        if changed || maker.random.chance(250) {
            maker.say(&[110, id]);
            maker.say(&[141]);
        }
        return;
    }
    maker.show();
    if way == Way::Recorded && maker.console.lent < 20 {
        maker.say(&[142]);
    }
}

fn every_question(maker: &mut Maker, state: &State, way: Way) {
    rebuilt(maker, state, way, LOGS[0]);
    for asked in 0..10 {
        for target in &TARGETS[..if asked == 7 { 6 } else { 1 }] {
            if asked == 7 {
                maker.list(target);
            }
            match way {
                Way::Group(_) if asked == 9 => maker.say(&[89]),
                Way::Group(id) => maker.say(&[80 + asked, id]),
                _ => maker.say(&[20 + asked]),
            };
        }
    }
}

pub fn count() -> usize {
    STATES.len()
}

// All calls in the state of this place; four logs always, and the others in turn.
pub fn piece(maker: &mut Maker, place: usize) {
    let state = &STATES[place];
    let group = group_of(state);
    every_variant(maker, state, Way::Plain, LOGS[0]);
    every_variant(maker, state, Way::Lent, LOGS[0]);
    every_variant(maker, state, group, LOGS[0]);
    let extra = LOGS[4 + place % (LOGS.len() - 4)];
    for log in LOGS[..4].iter().chain([&extra]) {
        every_variant(maker, state, Way::Recorded, *log);
    }
    every_question(maker, state, Way::Plain);
    every_question(maker, state, group);
}
