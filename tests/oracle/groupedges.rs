// groupedges.rs: every call of the whole group record in many of its states.

use crate::edges::COMMITTED;
use crate::groups::Groups;
use crate::maker::{Maker, Way};
use crate::rows::TOP;

// Groups as whether an iterator, first attempt and steps; then ids closed, sealing and next set.
struct Recipe {
    groups: &'static [(bool, u64, &'static str)],
    closed: &'static [u64],
    sealed: bool,
    next: Option<u64>,
}

const fn open(groups: &'static [(bool, u64, &'static str)]) -> Recipe {
    Recipe { groups, closed: &[], sealed: false, next: None }
}

const SIXTEEN: &[(bool, u64, &str)] = &[(false, 0, ""); 16];
const TWO: &[(bool, u64, &str)] = &[(false, 0, ""), (true, 0, "c")];

const RECIPES: [Recipe; 46] = [
    open(&[]),
    open(&[(false, 0, "")]),
    open(&[(true, 0, "")]),
    open(TWO),
    open(&[(false, 0, ""), (true, 0, "")]),
    open(&[(false, 0, ""), (false, 0, "")]),
    open(&[(false, 0, "r"), (true, 0, "")]),
    open(&[(false, 0, "rp"), (true, 0, "")]),
    open(&[(false, 0, "rpft"), (true, 0, "")]),
    open(&[(false, 0, "c"), (true, 0, "")]),
    open(&[(false, 0, "rpf"), (true, 0, "")]),
    open(&[(false, 0, ""), (true, 0, "r")]),
    open(&[(false, 0, ""), (true, 0, "rp")]),
    open(&[(false, 0, ""), (true, 0, "rpft")]),
    open(&[(false, 0, ""), (true, 0, "a")]),
    open(&[(false, 0, ""), (true, 0, "ac")]),
    open(&[(false, 0, ""), (true, 0, "ae")]),
    open(&[(false, 0, ""), (true, 0, "aec")]),
    open(&[(false, 0, ""), (true, 0, "acl")]),
    open(&[(false, 0, ""), (true, 0, "c")]),
    open(&[(true, 0, "a"), (false, 0, "")]),
    open(&[(true, 0, "ac"), (false, 0, "")]),
    open(&[(true, 0, "c"), (true, 0, "")]),
    open(&[(true, 0, "ae"), (true, 0, "")]),
    open(&[(false, 0, "rpd"), (false, 0, "rpd")]),
    open(&[(false, 0, "rpf"), (true, 0, "arpf")]),
    open(&[(false, 0, "rpf"), (true, 0, "rph")]),
    open(&[(false, 0, "rph"), (true, 0, "rpf")]),
    open(&[(false, 0, "rph")]),
    open(&[(false, TOP - 1, "rpf")]),
    open(&[(false, TOP - 2, "rpf"), (true, 0, "rp")]),
    open(&[(false, TOP - 1, "rpf"), (false, 0, "rpf")]),
    open(&[(false, TOP, "r"), (true, 0, "arrpf"), (true, 0, "rp"), (false, 0, "c")]),
    open(SIXTEEN),
    Recipe { groups: SIXTEEN, closed: &[0], sealed: false, next: None },
    Recipe { groups: SIXTEEN, closed: &[3, 15, 7], sealed: false, next: None },
    Recipe { groups: SIXTEEN, closed: &[15], sealed: false, next: Some(65_535) },
    Recipe { groups: SIXTEEN, closed: &[2], sealed: false, next: Some(65_536) },
    Recipe { groups: SIXTEEN, closed: &[], sealed: false, next: Some(65_536) },
    Recipe { groups: SIXTEEN, closed: &[], sealed: true, next: None },
    Recipe { groups: TWO, closed: &[0], sealed: false, next: None },
    Recipe { groups: TWO, closed: &[1], sealed: true, next: None },
    Recipe { groups: &[], closed: &[], sealed: true, next: Some(65_536) },
    Recipe { groups: &[], closed: &[], sealed: false, next: Some(65_535) },
    Recipe { groups: &[], closed: &[], sealed: false, next: Some(65_536) },
    Recipe { groups: &[], closed: &[], sealed: true, next: None },
];

// A record begins with its root; one whose id 0 is no scope grows from a refused opening.
fn begin(maker: &mut Maker, recipe: &Recipe, base: u64) -> usize {
    maker.reset();
    if matches!(recipe.groups.first(), Some((false, ..))) {
        maker.say(&[60, base]);
        return 1;
    }
    maker.say(&[60, TOP]);
    if base != 0 {
        maker.say(&[131, 0, base]);
    }
    0
}

fn build(maker: &mut Maker, recipe: &Recipe, base: u64) {
    let begun = begin(maker, recipe, base);
    for (place, (iterator, first, steps)) in recipe.groups.iter().enumerate() {
        let id = if place < begun { 0 } else { maker.open_group(*iterator, &COMMITTED) };
        if *first != 0 {
            maker.set_field(Way::Group(id), 2, 0, *first);
        }
        maker.steps(Way::Group(id), steps);
    }
    for id in recipe.closed {
        maker.say(&[63, *id]);
    }
    if recipe.sealed {
        maker.say(&[64]);
    }
    if let Some(next) = recipe.next {
        maker.say(&[131, 1, next]);
    }
}

// A list and a line each; too long a list comes before the places and the ids are looked at.
fn lines(groups: &Groups) -> Vec<(Vec<u64>, Vec<u64>)> {
    let mut lines = vec![(vec![], vec![61]), (vec![1; 17], vec![62]), (vec![4, 9], vec![62])];
    lines.push((vec![7; 16], vec![62]));
    for id in [0, 1, 2, 15, groups.next, 65_535, 65_536, TOP] {
        for number in [63, 107, 110, 111] {
            lines.push((vec![], vec![number, id]));
        }
    }
    for number in [64, 100, 101, 102, 103, 104, 106, 108, 109, 112, 89] {
        lines.push((vec![], vec![number]));
    }
    for target in [vec![4, 9], vec![9, 9, 4], vec![4], vec![], vec![4, 9, 1]] {
        lines.push((target, vec![105]));
    }
    lines
}

// What the list holds does not matter to an id that is not live.
fn stranger_lists(maker: &mut Maker, id: u64) {
    for list in [&[][..], &[0], &[7, 0]] {
        maker.register_all(Way::Group(id), list);
    }
}

// By-id calls of an id that is not live; 10 comes before all that the queue would refuse.
fn strangers(maker: &mut Maker) {
    let next = maker.console.groups.next;
    for id in [next, TOP] {
        for number in 70..=78 {
            maker.say(&[number, id, 0, 9, 2]);
        }
        stranger_lists(maker, id);
        for number in 80..=88 {
            maker.say(&[number, id]);
        }
    }
}

fn run(maker: &mut Maker, recipe: &Recipe, base: u64) {
    build(maker, recipe, base);
    let start = maker.console.groups.clone();
    maker.say(&[143]);
    for (list, line) in lines(&start) {
        if maker.console.groups != start {
            build(maker, recipe, base);
        }
        // Only two calls look at the list, so it is left alone for the others.
        if line[0] == 62 || line[0] == 105 {
            maker.list(&list);
        }
        maker.say(&line);
        if line[0] == 110 {
            maker.say(&[141]);
        }
        if maker.console.groups != start {
            maker.say(&[143]);
        }
    }
    strangers(maker);
    maker.say(&[143]);
}

pub fn count() -> usize {
    RECIPES.len()
}

pub fn piece(maker: &mut Maker, place: usize) {
    let base = maker.random.pick(&[0, 5, 1 << 40]);
    run(maker, &RECIPES[place], base);
}
