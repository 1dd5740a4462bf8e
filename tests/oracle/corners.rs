// corners.rs: what histories seldom reach: a reset, every field set, places that are not their ids'.

use crate::edges::COMMITTED;
use crate::maker::{Maker, Way};
use crate::rows::TOP;

type Corner = fn(&mut Maker);

const CORNERS: [Corner; 6] = [
    reset_of_everything,
    every_queue_field,
    every_place_field,
    reused_places,
    root_elsewhere,
    last_place_alone,
];

pub fn count() -> usize {
    CORNERS.len()
}

pub fn piece(maker: &mut Maker, place: usize) {
    maker.reset();
    CORNERS[place](maker);
}

fn all_shown(maker: &mut Maker) {
    maker.say(&[142]);
    maker.say(&[135, 20_500]);
    for number in [140, 141, 142, 143] {
        maker.say(&[number]);
    }
}

// Everything that the console holds is made other than at the start; the calls behind use what is not shown.
fn reset_of_everything(maker: &mut Maker) {
    maker.list(&COMMITTED);
    maker.say(&[1, 7, 3]);
    maker.steps(Way::Recorded, "arrp");
    maker.say(&[62]);
    maker.steps(Way::Group(1), "rp");
    maker.say(&[110, 1]);
    // Words all over the log and all of its last rows.
    for word in (0..20_470).step_by(97).chain(20_470..20_500) {
        maker.say(&[134, word, TOP]);
    }
    maker.say(&[90, 7, 8]);
    maker.say(&[135, 20_500]);
    maker.say(&[142]);
    maker.reset();
    all_shown(maker);
    maker.say(&[1, 0, 0]);
    maker.say(&[27]);
    maker.say(&[10, 5]);
    maker.say(&[12]);
    maker.say(&[13, 0, 0, 0, 0]);
    maker.say(&[70, 0, 6]);
    maker.say(&[72, 0]);
    maker.say(&[73, 0, 0, 0, 0]);
    maker.show();
    maker.say(&[143]);
}

fn every_queue_field(maker: &mut Maker) {
    for field in 0..14 {
        let indices = match field {
            3 => 64,
            12 => 16,
            _ => 1,
        };
        let marks = matches!(field, 0 | 5 | 9 | 10 | 11);
        for index in 0..indices {
            let value = if marks { 1 } else { 1000 * field + index };
            maker.say(&[130, field, index, value]);
        }
        maker.show();
    }
    for (field, value) in
        [(11, 4), (11, 3), (11, 2), (11, 0), (5, 1), (5, 0), (5, 1), (9, 0), (0, 0)]
    {
        maker.say(&[130, field, 0, value]);
        maker.show();
    }
}

// Each place gets values of its own, so that one place taken for another is seen.
fn every_place_field(maker: &mut Maker) {
    for place in 0..16 {
        maker.say(&[132, place, 0, 300 + place]);
        maker.say(&[132, place, 1, place % 2]);
        for field in 0..14 {
            let value =
                if matches!(field, 0 | 5 | 9 | 10 | 11) { place % 2 } else { 100 * place + field };
            maker.say(&[133, place, field, place, value]);
        }
        maker.say(&[133, place, 3, 63 - place, 7]);
    }
    maker.say(&[143]);
    for (field, value) in [(0, TOP), (1, TOP - 1), (2, 1)] {
        maker.say(&[131, field, value]);
    }
    maker.say(&[143]);
}

fn every_question_of(maker: &mut Maker, id: u64) {
    for number in (80..=88).chain([107, 110, 111]) {
        maker.say(&[number, id]);
    }
}

fn every_question_of_all(maker: &mut Maker) {
    for number in (100..=112).filter(|number| !matches!(number, 107 | 110 | 111)) {
        maker.say(&[number]);
    }
    maker.say(&[89]);
}

// Sixteen groups, five closed, and new ids in the freed places; then each live id is worked on.
fn reused_places(maker: &mut Maker) {
    maker.say(&[60, 500]);
    for turn in 0..15 {
        maker.open_group(turn % 4 == 2, &COMMITTED);
    }
    for id in [9, 0, 15, 4, 1] {
        maker.say(&[63, id]);
    }
    for turn in 0..4 {
        maker.open_group(turn % 2 == 0, &COMMITTED);
    }
    for id in 0..21 {
        maker.steps(Way::Group(id), ["rrpf", "rp", "rrpd", "c", "rpft"][id as usize % 5]);
        every_question_of(maker, id);
        if id % 4 == 0 {
            maker.say(&[143]);
        }
    }
    every_question_of_all(maker);
}

// With base 0 the root is the blank queue, so its place can be freed and another one be given id 0.
fn root_elsewhere(maker: &mut Maker) {
    for steps in ["", "r", "rp", "rpf", "rph", "c"] {
        maker.reset();
        maker.say(&[132, 0, 1, 0]);
        maker.say(&[132, 3, 1, 1]);
        maker.steps(Way::Group(0), steps);
        maker.list(&[5]);
        every_question_of_all(maker);
        every_question_of(maker, 0);
        // The lowest free place is the first, and what is there is not asked less.
        maker.list(&COMMITTED);
        maker.say(&[62]);
        every_question_of_all(maker);
        maker.list(&[]);
        every_question_of_all(maker);
        maker.say(&[143]);
    }
}

// Only the group in the last place is other than empty, so a walk that ends early is seen.
fn last_place_alone(maker: &mut Maker) {
    for steps in ["r", "rp", "rpf", "rph", "rpft", "a", "ac", "c", "ae"] {
        maker.reset();
        (0..14).for_each(|_| {
            maker.open_group(false, &[]);
        });
        maker.open_group(true, &COMMITTED);
        maker.steps(Way::Group(15), steps);
        every_question_of(maker, 15);
        every_question_of_all(maker);
        maker.list(&[]);
        maker.say(&[105]);
        maker.say(&[63, 15]);
        maker.say(&[64]);
        maker.say(&[143]);
    }
}
