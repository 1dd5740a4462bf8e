// limitsmet.rs: the last allowed and the first refused value of each limit, told before a call is run.

use crate::calls;
use crate::console::{named, Console};
use crate::groups::{IDS, LARGEST_BASE, PLACES};
use crate::queue::{open_iterator, open_scope, pending, well_formed, Queue};
use crate::replay::{self, Verdict};
use crate::rows::{Row, TOP};

pub const NAMES: &[&str] = &[
    "register: the 64th token",
    "register: a 65th token",
    "land: the 64th token",
    "land: a 65th token",
    "register or land: number 0",
    "register or land: number 1",
    "register or land: the largest number",
    "an iterator of 16 bindings",
    "an iterator of 17 bindings",
    "an iterator of 64 bindings",
    "a group of 16 bindings",
    "a group of 17 bindings",
    "the reader with 16 bindings",
    "the reader with 17 bindings",
    "a target of 64 numbers",
    "the 64th number of the list",
    "a recorded change: 5 words free",
    "a recorded change: 4 words free",
    "a recorded change: no word free",
    "a recorded change: the 4,096th row",
    "a recorded change: a 4,097th row",
    "recorded, no change: no row free",
    "recorded: the used rows end with the lent words",
    "recorded: the used rows end one word past the lent words",
    "recorded: 5 times the used count is past a u64",
    "a new record of the largest base",
    "a new record of the largest base and 1",
    "open: the 16th live group",
    "open: a 17th live group",
    "open: id 65,535",
    "open: an id past 65,535",
    "by id: 65,535, live",
    "by id: 65,536",
    "the reader: 4,096 good rows",
    "the reader: 4,096 good rows and a 4,097th",
];

fn at_births(queue: &Queue, kind: u64, number: u64, names: &mut Vec<&'static str>) {
    match number {
        0 => return names.push("register or land: number 0"),
        1 => names.push("register or land: number 1"),
        TOP => names.push("register or land: the largest number"),
        _ => {}
    }
    match (kind, queue.tokens) {
        (0, 63) => names.push("register: the 64th token"),
        (0, 64) => names.push("register: a 65th token"),
        (1, 63) if pending(queue.phase) => names.push("land: the 64th token"),
        (1, 64) if pending(queue.phase) => names.push("land: a 65th token"),
        _ => {}
    }
}

// Whether the recorded call would change the queue, so that it needs a row.
fn changes(console: &Console, line: &Row) -> bool {
    let [number, a, b, c, d] = *line;
    let call = named(number - 30, [a, b, c, d], console.held_domain, &console.list);
    let made = call.and_then(|call| calls::make(&console.queue, &call).ok());
    made.is_some_and(|made| made.after != console.queue)
}

fn at_log(console: &Console, line: &Row, names: &mut Vec<&'static str>) {
    let taken = 5 * u128::from(console.used);
    if taken > u128::from(TOP) {
        names.push("recorded: 5 times the used count is past a u64");
    }
    let free = console.lent as i128 - taken as i128;
    match (changes(console, line), free) {
        (_, -1) => names.push("recorded: the used rows end one word past the lent words"),
        (true, 5) => names.push("a recorded change: 5 words free"),
        (true, 4) => names.push("a recorded change: 4 words free"),
        (true, 0) => names.push("a recorded change: no word free"),
        (false, 0..=4) => names.push("recorded, no change: no row free"),
        _ => {}
    }
    match (changes(console, line), console.used, free) {
        (true, 4095, 5..) => names.push("a recorded change: the 4,096th row"),
        (true, 4096, 5..) => names.push("a recorded change: a 4,097th row"),
        (_, 1.., 0) => names.push("recorded: the used rows end with the lent words"),
        _ => {}
    }
}

fn at_lists(console: &Console, line: &Row, names: &mut Vec<&'static str>) {
    let name = match (line[0], console.list.len()) {
        (1, 16) => "an iterator of 16 bindings",
        (1, 17) => "an iterator of 17 bindings",
        (1, 64) => "an iterator of 64 bindings",
        (62, 16) => "a group of 16 bindings",
        (62, 17) => "a group of 17 bindings",
        (50, 16) if line[1] == 1 => "the reader with 16 bindings",
        (50, 17) if line[1] == 1 => "the reader with 17 bindings",
        (15 | 27, 64) => "a target of 64 numbers",
        (121, 63) => "the 64th number of the list",
        _ => return,
    };
    names.push(name);
}

fn at_openings(console: &Console, number: u64, names: &mut Vec<&'static str>) {
    let groups = &console.groups;
    if groups.sealed || groups.next > IDS || (number == 62 && console.list.len() > 16) {
        return;
    }
    match groups.places.iter().filter(|place| place.live).count() {
        PLACES => return names.push("open: a 17th live group"),
        15 => names.push("open: the 16th live group"),
        _ => {}
    }
    match groups.next {
        65_535 => names.push("open: id 65,535"),
        65_536 => names.push("open: an id past 65,535"),
        _ => {}
    }
}

fn at_ids(console: &Console, line: &Row, names: &mut Vec<&'static str>) {
    let live = console.groups.places.iter().any(|place| place.live && place.id == 65_535);
    match line[1] {
        65_535 if live => names.push("by id: 65,535, live"),
        65_536 => names.push("by id: 65,536"),
        _ => {}
    }
}

fn at_reader(console: &Console, line: &Row, names: &mut Vec<&'static str>) {
    if console.lent < 20_480 {
        return;
    }
    let start = match line[1] {
        0 => open_scope(line[2], line[3]),
        _ => open_iterator(line[2], line[3], &console.list).1,
    };
    let good = replay::read_words(start, &console.log[..20_480]).verdict == Verdict::Good;
    match console.lent {
        20_480 if good => names.push("the reader: 4,096 good rows"),
        20_485.. if good => names.push("the reader: 4,096 good rows and a 4,097th"),
        _ => {}
    }
}

fn at_base(base: u64, names: &mut Vec<&'static str>) {
    match base.checked_sub(LARGEST_BASE) {
        Some(0) => names.push("a new record of the largest base"),
        Some(1) => names.push("a new record of the largest base and 1"),
        _ => {}
    }
}

// The names of the limits that this line meets.
pub fn met(console: &Console, line: &Row, groups_fine: bool) -> Vec<&'static str> {
    let mut names = Vec::new();
    let number = line[0];
    let places = &console.groups.places;
    at_lists(console, line, &mut names);
    match number {
        10 | 11 | 30 | 31 if well_formed(&console.queue) => {
            at_births(&console.queue, number % 10, line[1], &mut names);
        }
        70 | 71 if groups_fine => {
            let place = places.iter().find(|place| place.live && place.id == line[1]);
            if let Some(place) = place {
                at_births(&place.queue, number % 10, line[2], &mut names);
            }
        }
        61 | 62 if groups_fine => at_openings(console, number, &mut names),
        50 => at_reader(console, line, &mut names),
        60 => at_base(line[1], &mut names),
        _ => {}
    }
    if (30..=38).contains(&number) && well_formed(&console.queue) {
        at_log(console, line, &mut names);
    }
    if groups_fine && matches!(number, 63 | 70..=88 | 107 | 110 | 111) {
        at_ids(console, line, &mut names);
    }
    names
}
