// logs.rs: the reader on logs that recorded calls made, and on the same logs damaged.

use crate::console::LOG_WORDS;
use crate::damage::ROW_DAMAGES;
use crate::maker::{Maker, Way};
use crate::rows::{Row, TOP};

const TUNES: [&str; 16] = [
    "rrpdpd",
    "rrpftpdrpd",
    "rpftpftph",
    "alalprdpd",
    "alacl",
    "arace",
    "aecrp",
    "crrpdpd",
    "rrrpdrpdpdpd",
    "alrpfalttpd",
    "rpfrtrpdpdpd",
    "ac",
    "rprprd",
    "rrpfrtpfctpdpd",
    "spdzpd",
    "aslpszftpd",
];

fn read(maker: &mut Maker, opening: [u64; 3]) {
    let [kind, domain, first] = opening;
    maker.say(&[50, kind, domain, first]);
    maker.say(&[141]);
}

// One word changed, read, and put back.
fn word_damaged(maker: &mut Maker, opening: [u64; 3]) {
    let words = (maker.console.lent).max(1);
    let place = maker.random.place(words);
    let old = maker.console.log[place];
    let values = [0, 1, 2, 7, 8, old.wrapping_add(1), old.wrapping_sub(1), TOP];
    let new = maker.random.pick(&values);
    maker.say(&[134, place as u64, new]);
    read(maker, opening);
    maker.say(&[134, place as u64, old]);
}

// Fewer or more words than the rows have; what lies behind is zeros.
fn cut(maker: &mut Maker, opening: [u64; 3]) {
    let words = maker.console.lent as u64;
    let more = maker.random.below(12);
    let cut = if maker.random.chance(700) { words.saturating_sub(more) } else { words + more };
    maker.say(&[135, cut.min(LOG_WORDS as u64)]);
    read(maker, opening);
    maker.say(&[135, words]);
}

fn other_opening(maker: &mut Maker, opening: [u64; 3]) {
    let [kind, domain, first] = opening;
    let firsts = [first.wrapping_add(1), first.wrapping_sub(1), TOP, first];
    let first = maker.random.pick(&firsts);
    let kind = if maker.random.chance(500) { 1 - kind } else { kind };
    read(maker, [kind, domain ^ 1, first]);
}

fn write_rows(maker: &mut Maker, rows: &[Row]) {
    for (place, word) in rows.concat().iter().enumerate() {
        if maker.console.log[place] != *word {
            maker.say(&[134, place as u64, *word]);
        }
    }
    maker.say(&[135, 5 * rows.len() as u64]);
}

// A damage of whole rows, written word by word, read, and put back.
fn rows_damaged(maker: &mut Maker, opening: [u64; 3]) {
    let words = &maker.console.log[..maker.console.lent];
    let rows: Vec<Row> = words.chunks_exact(5).map(|w| [w[0], w[1], w[2], w[3], w[4]]).collect();
    if rows.is_empty() || rows.len() > 100 {
        return;
    }
    let mut damaged = rows.clone();
    let place = maker.random.place(ROW_DAMAGES.len());
    ROW_DAMAGES[place].1(&mut maker.random, &mut damaged);
    write_rows(maker, &damaged);
    read(maker, opening);
    write_rows(maker, &rows);
}

pub fn damaged_log(maker: &mut Maker) {
    maker.reset();
    let iterator = maker.random.chance(600);
    let first = maker.random.pick(&[0, 0, 3, 1 << 63, TOP - 3]);
    let committed = maker.random.pick(&[&[][..], &[4, 9], &[1, 1, 2]]);
    maker.list(committed);
    maker.open(iterator, 5, first, committed);
    for _ in 0..maker.random.between(1, 4) {
        let tune = maker.random.pick(&TUNES);
        maker.steps(Way::Recorded, tune);
    }
    maker.list(committed);
    let words = 5 * maker.console.used;
    maker.say(&[135, words]);
    let opening = [u64::from(iterator), 5, first];
    read(maker, opening);
    for _ in 0..maker.random.between(4, 12) {
        match maker.random.below(8) {
            0 => cut(maker, opening),
            1 => other_opening(maker, opening),
            2..=4 => rows_damaged(maker, opening),
            _ => word_damaged(maker, opening),
        }
    }
    read(maker, opening);
}
