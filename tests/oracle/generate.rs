// generate.rs: makers of openings, good histories and whole texts, class by class.

use crate::damage::{BYTE_DAMAGES, ROW_DAMAGES, SHEET_DAMAGES};
use crate::queue::{self, Call, Phase, Queue, Ticket};
use crate::random::Random;
use crate::replay::{self, Verdict};
use crate::rows::{Opening, Row, TOP};

// A text before it is bytes: lines of columns.
pub type Sheet = Vec<Vec<String>>;

// How a history leans; birth and stage are of 1000 calls, close of stage calls, the rest of completes.
#[derive(Clone, Copy)]
struct Mood {
    birth: u64,
    stage: u64,
    close: u64,
    fail: u64,
    hollow: u64,
}

const MOODS: [Mood; 6] = [
    Mood { birth: 150, stage: 100, close: 60, fail: 500, hollow: 1 },
    Mood { birth: 600, stage: 150, close: 30, fail: 300, hollow: 1 },
    Mood { birth: 40, stage: 20, close: 100, fail: 800, hollow: 1 },
    Mood { birth: 150, stage: 300, close: 200, fail: 300, hollow: 100 },
    Mood { birth: 350, stage: 150, close: 5, fail: 100, hollow: 0 },
    Mood { birth: 80, stage: 120, close: 2, fail: 650, hollow: 0 },
];

pub fn opening(random: &mut Random) -> Opening {
    let domains = [0, 1, 5, 5, 700, TOP - 1, TOP, random.word()];
    let near_top = TOP - random.below(40);
    let middle = 1 << 63;
    let firsts = [0, 0, 0, 1, 7, 1 << 32, middle - 1, middle, middle + 1, near_top, random.word()];
    Opening {
        iterator: random.chance(500),
        domain: random.pick(&domains),
        first: random.pick(&firsts),
    }
}

// An undo number; small ones come often so that a kept number is often the popped one.
pub fn number(random: &mut Random) -> u64 {
    match random.below(12) {
        0 => TOP,
        1 => TOP - 1,
        2 => 1 << 32,
        3 => random.word() | 1,
        4 => random.below(100_000) + 1,
        5..=8 => random.below(99) + 1,
        _ => random.below(2) + 71,
    }
}

fn birth_or_stage(random: &mut Random, mood: &Mood, queue: &Queue, roll: u64) -> Call {
    if roll < mood.birth {
        return Call::Register(number(random));
    }
    let closes = random.chance(mood.close);
    let number = number(random);
    match (queue.phase, closes) {
        (Phase::Idle, false) => Call::Admit,
        (Phase::Pending, false) => Call::Land(number),
        (Phase::Pending, true) => random.pick(&[Call::End, Call::Cancel]),
        (Phase::Stopping, _) => random.pick(&[Call::End, Call::Land(number)]),
        (_, true) => Call::Cancel,
        (_, false) => Call::Register(number),
    }
}

// With births nearly used up, the last try must go on failing or the history would end early.
fn completion(random: &mut Random, mood: &Mood, queue: &Queue, ticket: Ticket, left: usize) -> Call {
    let seen = queue::counts(queue);
    let roll = random.below(1000);
    let must_go_on = left > 1 && seen.waiting == 0 && seen.tokens > 56;
    let (outcome, kept) = if must_go_on || roll < mood.fail {
        (1, number(random))
    } else if roll < mood.fail + mood.hollow {
        (1, 0)
    } else {
        (0, 0)
    };
    Call::Complete(ticket, outcome, kept)
}

fn choose(random: &mut Random, mood: &Mood, queue: &Queue, left: usize) -> Call {
    let roll = random.below(1000);
    if roll < mood.birth + mood.stage {
        return birth_or_stage(random, mood, queue, roll);
    }
    match (queue.selected, queue.issued, queue.failed) {
        (Some(ticket), true, _) => completion(random, mood, queue, ticket, left),
        (_, _, true) => Call::Retry,
        _ => Call::Pop,
    }
}

// A good log of at most the wanted rows; a history that can't go on ends early.
pub fn history(random: &mut Random, opening: &Opening, wanted: usize) -> Vec<Row> {
    let mood = random.pick(&MOODS);
    let mut queue = queue::open(opening);
    let mut rows = Vec::new();
    let mut in_vain = 0;
    while rows.len() < wanted && in_vain < 100 {
        let call = choose(random, &mood, &queue, wanted - rows.len());
        in_vain += 1;
        if let Ok((after, Some(row))) = queue::recorded(&queue, rows.len(), call) {
            queue = after;
            rows.push(row);
            in_vain = 0;
        }
    }
    rows
}

// Births by register, then one token fails and is tried again up to the wanted rows.
pub fn steady(first: u64, births: u64, number: u64, wanted: usize) -> Vec<Row> {
    let mut rows: Vec<Row> = (0..births).map(|token| [0, token, 0, 0, number]).collect();
    let token = births - 1;
    let mut attempt = first;
    while rows.len() < wanted {
        rows.push([2, token, attempt, 0, 0]);
        rows.push([3, token, attempt, 1, number]);
        attempt = attempt.wrapping_add(1);
        rows.push([4, token, attempt, 0, 0]);
    }
    rows.truncate(wanted);
    rows
}

pub fn sheet(opening: &Opening, rows: &[Row]) -> Sheet {
    let first = [u64::from(opening.iterator), opening.domain, opening.first, 0, 0];
    let line = |row: &Row| row.iter().map(|value| value.to_string()).collect();
    std::iter::once(&first).chain(rows).map(line).collect()
}

pub fn render(sheet: &Sheet, last_end: bool) -> Vec<u8> {
    let lines: Vec<String> = sheet.iter().map(|line| line.join(",")).collect();
    let mut text = lines.join("\r\n");
    if last_end {
        text.push_str("\r\n");
    }
    text.into_bytes()
}

pub fn written(opening: &Opening, rows: &[Row], last_end: bool) -> Vec<u8> {
    render(&sheet(opening, rows), last_end)
}

fn usual_length(random: &mut Random) -> usize {
    match random.below(20) {
        0 => random.between(0, 3),
        1..=11 => random.between(3, 40),
        12..=17 => random.between(40, 140),
        18 => random.between(140, 400),
        _ => random.between(400, 800),
    }
}

// A good log of the usual length, never empty so that there is a row to damage.
fn usual_log(random: &mut Random) -> (Opening, Vec<Row>) {
    let opening = opening(random);
    let wanted = usual_length(random);
    let mut rows = history(random, &opening, wanted);
    if rows.is_empty() {
        rows.push([0, 0, 0, 0, number(random)]);
    }
    (opening, rows)
}

fn good(random: &mut Random, low: usize, high: usize) -> Vec<u8> {
    let opening = opening(random);
    let wanted = random.between(low, high);
    let rows = history(random, &opening, wanted);
    let last_end = random.chance(700);
    written(&opening, &rows, last_end)
}

fn good_short(random: &mut Random) -> Vec<u8> {
    good(random, 0, 12)
}

fn good_middle(random: &mut Random) -> Vec<u8> {
    good(random, 13, 150)
}

fn good_long(random: &mut Random) -> Vec<u8> {
    good(random, 150, 800)
}

fn good_full(random: &mut Random) -> Vec<u8> {
    good(random, 800, 800)
}

fn good_without_last_end(random: &mut Random) -> Vec<u8> {
    let (opening, rows) = usual_log(random);
    written(&opening, &rows, false)
}

// Attempts run out on the way, so that the rest is births and stage rows.
fn good_at_the_top(random: &mut Random) -> Vec<u8> {
    let opening = Opening { first: TOP - random.below(25), ..opening(random) };
    let wanted = random.between(2, 160);
    written(&opening, &history(random, &opening, wanted), true)
}

fn attempt_past_the_top(random: &mut Random) -> Vec<u8> {
    let opening = Opening { first: TOP - random.below(12), ..opening(random) };
    let wanted = random.between(2, 60);
    let mut rows = history(random, &opening, wanted);
    let token = random.below(4);
    let kind = random.pick(&[2, 4]);
    let attempt = random.pick(&[TOP, TOP, 0, TOP - 1]);
    rows.push([kind, token, attempt, 0, 0]);
    written(&opening, &rows, true)
}

fn many_births(random: &mut Random) -> Vec<u8> {
    let opening = opening(random);
    let births = random.pick(&[63, 64, 64, 65, 66]);
    let wanted = births as usize + random.between(0, 12);
    written(&opening, &steady(opening.first, births, number(random), wanted), true)
}

// A full queue emptied token by token, newest first, with one row then damaged half the time.
fn emptied(random: &mut Random) -> Vec<u8> {
    let opening = opening(random);
    let births = random.below(64) + 1;
    let mut rows: Vec<Row> = (0..births).map(|token| [0, token, 0, 0, token + 1]).collect();
    for (count, token) in (0..births).rev().enumerate() {
        let attempt = opening.first.wrapping_add(count as u64);
        rows.push([2, token, attempt, 0, 0]);
        rows.push([3, token, attempt, 0, 0]);
    }
    if random.chance(500) {
        let place = random.place(rows.len());
        rows[place][1] = random.below(births + 1);
    }
    written(&opening, &rows, true)
}

// A row that fits the state in all but perhaps one thing: what a careless reader would take.
fn tempting_row(random: &mut Random, queue: &Queue) -> Row {
    let born = queue.tokens as u64;
    let chosen = queue.selected.map_or(born.saturating_sub(1), |ticket| ticket.token);
    let held = queue.selected.map_or(queue.next, |ticket| ticket.attempt);
    let older = random.below(born.max(1));
    let token = random.pick(&[chosen, chosen, chosen, older, born]);
    let attempt = random.pick(&[held, held, held, queue.next, queue.next.wrapping_add(1)]);
    let number = random.pick(&[0, 5, 5, 5, TOP]);
    let any = random.below(8);
    match random.pick(&[any, any, 1, 2, 3, 5, 6, 7]) {
        kind @ (0 | 1) => [kind, random.pick(&[born, born, born, chosen]), 0, 0, number],
        2 => [2, token, attempt, 0, 0],
        3 => [3, token, attempt, random.pick(&[0, 1, 1, 1, 2]), number],
        4 => [4, token, random.pick(&[queue.next, queue.next, held]), 0, 0],
        kind => [kind, 0, 0, 0, 0],
    }
}

// A next stage row by chance, so that the ends of rule 6 are all reached and passed.
fn stage_row(random: &mut Random, queue: &Queue) -> Row {
    let number = random.pick(&[0, 5, 71, TOP, 9]);
    match random.pick(&[1, 5, 6, 7]) {
        1 => [1, queue.tokens as u64, 0, 0, number],
        kind => [kind, 0, 0, 0, 0],
    }
}

type NextRow = fn(&mut Random, &Queue) -> Row;

// Adds such rows of the maker as prove good, and then one that may not.
fn walk(random: &mut Random, opening: &Opening, rows: &mut Vec<Row>, next: NextRow) {
    let mut queue = replay::read(queue::open(opening), rows).queue;
    for _ in 0..random.place(40) {
        let row = next(random, &queue);
        let reading = replay::read(queue, &[row]);
        if reading.verdict == Verdict::Good {
            rows.push(row);
            queue = reading.queue;
        }
    }
    rows.push(next(random, &queue));
}

pub fn tempting_log(random: &mut Random) -> (Opening, Vec<Row>) {
    let opening = opening(random);
    let wanted = random.pick(&[0, 0, 3, 8, 25, 70]);
    let mut rows = history(random, &opening, wanted);
    walk(random, &opening, &mut rows, tempting_row);
    (opening, rows)
}

pub fn stage_log(random: &mut Random) -> (Opening, Vec<Row>) {
    let opening = Opening { iterator: random.chance(900), ..opening(random) };
    let mut rows = Vec::new();
    walk(random, &opening, &mut rows, stage_row);
    (opening, rows)
}

fn tempting(random: &mut Random) -> Vec<u8> {
    let (opening, rows) = tempting_log(random);
    written(&opening, &rows, random.chance(700))
}

fn stage(random: &mut Random) -> Vec<u8> {
    let (opening, rows) = stage_log(random);
    written(&opening, &rows, random.chance(700))
}

fn random_bytes(random: &mut Random) -> Vec<u8> {
    let length = random.place(201);
    (0..length).map(|_| random.word() as u8).collect()
}

fn random_text_bytes(random: &mut Random) -> Vec<u8> {
    let length = random.place(201);
    (0..length).map(|_| random.pick(b"0000112345678,,,,,,,,\r\n\r\n\r\n -+\"")).collect()
}

// Whole lines of small numbers in any order: good text that is rarely a good log.
fn random_rows(random: &mut Random) -> Vec<u8> {
    let opening = Opening { first: random.below(3), ..opening(random) };
    let length = random.place(12);
    let rows: Vec<Row> = (0..length).map(|_| crate::damage::small_row(random)).collect();
    written(&opening, &rows, random.chance(500))
}

type Maker = fn(&mut Random) -> Vec<u8>;

const MAKERS: [(&str, Maker); 32] = [
    ("good, 0 to 12 rows", good_short),
    ("good, 0 to 12 rows", good_short),
    ("good, 13 to 150 rows", good_middle),
    ("good, 13 to 150 rows", good_middle),
    ("good, 150 to 800 rows", good_long),
    ("good, 800 rows if they come", good_full),
    ("good, no last CRLF", good_without_last_end),
    ("good, attempts at the top", good_at_the_top),
    ("good, attempts at the top", good_at_the_top),
    ("an attempt past the top", attempt_past_the_top),
    ("63 to 66 births", many_births),
    ("many births, emptied", emptied),
    ("many births, emptied", emptied),
    ("random bytes", random_bytes),
    ("random bytes of the text's kind", random_text_bytes),
    ("random small rows", random_rows),
    ("a tempting last row", tempting),
    ("a tempting last row", tempting),
    ("a tempting last row", tempting),
    ("a tempting last row", tempting),
    ("a tempting last row", tempting),
    ("a tempting last row", tempting),
    ("a tempting last row", tempting),
    ("a tempting last row", tempting),
    ("a tempting last row", tempting),
    ("a tempting last row", tempting),
    ("a tempting last row", tempting),
    ("a tempting last row", tempting),
    ("stage rows", stage),
    ("stage rows", stage),
    ("stage rows", stage),
    ("stage rows", stage),
];

pub fn class_count() -> usize {
    MAKERS.len() + ROW_DAMAGES.len() + SHEET_DAMAGES.len() + BYTE_DAMAGES.len()
}

// One text of the class with this place, and the class's name.
pub fn of_class(random: &mut Random, place: usize) -> (&'static str, Vec<u8>) {
    if place < MAKERS.len() {
        let (name, make) = MAKERS[place];
        return (name, make(random));
    }
    let place = place - MAKERS.len();
    let (opening, mut rows) = usual_log(random);
    let last_end = random.chance(700);
    if place < ROW_DAMAGES.len() {
        let (name, damage) = ROW_DAMAGES[place];
        damage(random, &mut rows);
        return (name, written(&opening, &rows, last_end));
    }
    let place = place - ROW_DAMAGES.len();
    let mut sheet = sheet(&opening, &rows);
    if place < SHEET_DAMAGES.len() {
        let (name, damage) = SHEET_DAMAGES[place];
        damage(random, &mut sheet);
        return (name, render(&sheet, last_end));
    }
    let (name, damage) = BYTE_DAMAGES[place - SHEET_DAMAGES.len()];
    let mut text = render(&sheet, last_end);
    damage(random, &mut text);
    (name, text)
}
