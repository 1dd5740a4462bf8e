// agree.rs: shows that the two readings of a log agree, over all short logs and many long ones.

use crate::damage::ROW_DAMAGES;
use crate::fixed;
use crate::generate::{history, opening, stage_log, steady, tempting_log};
use crate::language;
use crate::limits;
use crate::listsagree;
use crate::queue;
use crate::random::Random;
use crate::replay::{self, Verdict};
use crate::rows::{Opening, Row, LOG_ROWS, TOP};
use crate::text::{self, Reading};

// One opening's next level is searched only if it needs no more logs than this.
const LEVEL_BUDGET: usize = 2_000_000;

pub struct Difference {
    pub opening: Opening,
    pub rows: Vec<Row>,
    pub what: String,
}

fn two(opening: &Opening, rows: &[Row]) -> Verdict {
    match language::first_bad(opening, rows) {
        Some(place) => Verdict::Bad(place),
        None => Verdict::Good,
    }
}

// The counts that the two readings see after the good rows before the given place.
fn counts_differ(opening: &Opening, one: &queue::Queue, rows: &[Row]) -> Option<String> {
    let (mine, other) = (queue::counts(one), language::counts(rows));
    let next = queue_next_by_rules(opening, rows);
    if mine != other {
        return Some(format!("steps see {mine:?}, rules see {other:?}"));
    }
    if next != one.next as u128 {
        return Some(format!("steps have next {}, rules have {next}", one.next));
    }
    None
}

// Each first pop and each retry takes one attempt, so next is the first attempt and their count.
fn queue_next_by_rules(opening: &Opening, rows: &[Row]) -> u128 {
    opening.first as u128 + language::grants(rows).len() as u128
}

// The whole comparison: verdict on every prefix, counts, and that no bad prefix has a good whole.
pub fn differs(opening: &Opening, rows: &[Row]) -> Option<String> {
    let one = replay::read(queue::open(opening), rows);
    let other = two(opening, rows);
    if one.verdict != other {
        return Some(format!("steps say {:?}, rules say {other:?}", one.verdict));
    }
    if language::belongs(opening, rows) != (other == Verdict::Good) {
        return Some("the whole belongs but a prefix does not".to_string());
    }
    let good = match other {
        Verdict::Good => rows.len(),
        Verdict::Bad(place) => place,
    };
    counts_differ(opening, &one.queue, &rows[..good])
}

// Whether a log belongs, if both readings say the same; its rows but the last are known to be good.
fn agreed_extension(opening: &Opening, rows: &[Row]) -> Result<bool, String> {
    let one = replay::read(queue::open(opening), rows);
    let belongs = language::belongs(opening, rows);
    let due = if belongs { Verdict::Good } else { Verdict::Bad(rows.len() - 1) };
    if one.verdict != due {
        return Err(format!("steps say {:?}, rules say {due:?}", one.verdict));
    }
    let good = if belongs { rows.len() } else { rows.len() - 1 };
    match counts_differ(opening, &one.queue, &rows[..good]) {
        Some(what) => Err(what),
        None => Ok(belongs),
    }
}

fn named_rows(first: u64) -> Vec<Row> {
    let mut rows = Vec::new();
    for token in 0..3 {
        for number in [0, 5] {
            rows.push([0, token, 0, 0, number]);
            rows.push([1, token, 0, 0, number]);
        }
        for attempt in (0..4).map(|step| first.wrapping_add(step)) {
            rows.push([2, token, attempt, 0, 0]);
            rows.push([4, token, attempt, 0, 0]);
            for outcome in 0..3 {
                rows.push([3, token, attempt, outcome, 0]);
                rows.push([3, token, attempt, outcome, 5]);
            }
        }
    }
    rows.extend([[5, 0, 0, 0, 0], [6, 0, 0, 0, 0], [7, 0, 0, 0, 0]]);
    rows
}

// Rows that would be good but for an unnamed column, and kinds that there are not.
fn unformed_rows(first: u64) -> Vec<Row> {
    let next = first.wrapping_add(1);
    let mut rows = vec![[8, 0, 0, 0, 0], [TOP, 0, first, 0, 5]];
    for kind in [0, 1] {
        rows.extend([[kind, 0, 1, 0, 5], [kind, 0, 0, 1, 5], [kind, 1, 1, 0, 5]]);
    }
    rows.extend([[2, 0, first, 1, 0], [2, 0, first, 0, 5]]);
    rows.extend([[4, 0, next, 1, 0], [4, 0, next, 0, 5]]);
    for kind in [5, 6, 7] {
        rows.extend([[kind, 1, 0, 0, 0], [kind, 0, 1, 0, 0], [kind, 0, 0, 1, 0], [kind, 0, 0, 0, 5]]);
    }
    rows
}

fn search_openings() -> Vec<Opening> {
    let kinds = [false, true];
    let firsts = [0, TOP - 2, TOP - 1, TOP];
    let open = |iterator: bool| firsts.map(|first| Opening { iterator, domain: 5, first });
    kinds.into_iter().flat_map(open).collect()
}

// One level deeper: every good prefix with every row of the alphabet behind it.
fn deeper(opening: &Opening, level: &[Vec<Row>], alphabet: &[Row]) -> Result<Vec<Vec<Row>>, Difference> {
    let mut next = Vec::new();
    for prefix in level {
        for row in alphabet {
            let mut rows = prefix.clone();
            rows.push(*row);
            match agreed_extension(opening, &rows) {
                Ok(true) => next.push(rows),
                Ok(false) => (),
                Err(what) => return Err(Difference { opening: *opening, rows, what }),
            }
        }
    }
    Ok(next)
}

// Level by level, so that the first difference is one of the shortest.
fn search(opening: &Opening) -> Result<u64, Difference> {
    let mut alphabet = named_rows(opening.first);
    alphabet.extend(unformed_rows(opening.first));
    let mut level = vec![Vec::new()];
    let mut compared = 0;
    let mut good = 1;
    let mut depth = 0;
    while !level.is_empty() && level.len() * alphabet.len() <= LEVEL_BUDGET {
        compared += (level.len() * alphabet.len()) as u64;
        level = deeper(opening, &level, &alphabet)?;
        good += level.len();
        depth += 1;
    }
    let kind = if opening.iterator { "iterator" } else { "scope" };
    let whole = if level.is_empty() { ", none longer is good" } else { "" };
    println!("  {kind}, first attempt {}, {} rows to choose from:", opening.first, alphabet.len());
    println!("    logs of up to {depth} rows{whole}: {compared} compared, {good} good");
    Ok(compared)
}

// Every log of up to three rows, good prefix or not, to see that no bad prefix turns good again.
fn all_of_three(opening: &Opening) -> Result<u64, Difference> {
    let small = |row: &Row| row[1] < 2 && row[3] < 2;
    let alphabet: Vec<Row> = named_rows(opening.first).into_iter().filter(small).collect();
    let mut level: Vec<Vec<Row>> = vec![Vec::new()];
    let mut compared = 0;
    for _ in 0..3 {
        let longer = |prefix: &Vec<Row>| -> Vec<Vec<Row>> {
            alphabet.iter().map(|row| [&prefix[..], &[*row]].concat()).collect()
        };
        level = level.iter().flat_map(longer).collect();
        for rows in &level {
            compared += 1;
            if let Some(what) = differs(opening, rows) {
                return Err(Difference { opening: *opening, rows: rows.clone(), what });
            }
        }
    }
    Ok(compared)
}

// Drops rows one by one as long as the readings still differ.
fn smallest(opening: &Opening, rows: Vec<Row>, what: String) -> Difference {
    let mut best = Difference { opening: *opening, rows, what };
    let mut place = 0;
    while place < best.rows.len() {
        let mut fewer = best.rows.clone();
        fewer.remove(place);
        match differs(opening, &fewer) {
            Some(what) => best = Difference { opening: *opening, rows: fewer, what },
            None => place += 1,
        }
    }
    best
}

fn compared_log(opening: &Opening, rows: Vec<Row>) -> Result<(), Difference> {
    match differs(opening, &rows) {
        Some(what) => Err(smallest(opening, rows, what)),
        None => Ok(()),
    }
}

// Counts on every prefix of a good log, one replay each.
fn prefix_counts(opening: &Opening, rows: &[Row]) -> Result<(), Difference> {
    for length in 0..rows.len() {
        let one = replay::read(queue::open(opening), &rows[..length]);
        if let Some(what) = counts_differ(opening, &one.queue, &rows[..length]) {
            let rows = rows[..length].to_vec();
            return Err(Difference { opening: *opening, rows, what });
        }
    }
    Ok(())
}

const SEEN: [&str; 12] = [
    "64 tokens", "800 rows", "retries", "failures", "failures keeping none", "another number kept",
    "cancels", "admits", "lands", "ends", "attempts used up", "64 tokens all tried",
];

// What a history shows, in the order of the names above.
fn shown_by(opening: &Opening, rows: &[Row]) -> [bool; 12] {
    let any = |test: fn(&Row) -> bool| rows.iter().any(test);
    let births: Vec<&Row> = rows.iter().filter(|row| row[0] < 2).collect();
    let kept = |row: &&Row| row[0] == 3 && row[4] != 0;
    let other = rows.iter().filter(kept).any(|row| births[row[1] as usize][4] != row[4]);
    let after = replay::read(queue::open(opening), rows).queue;
    [
        births.len() == 64,
        rows.len() == 800,
        any(|row| row[0] == 4),
        any(|row| row[0] == 3 && row[3] == 1),
        any(|row| row[0] == 3 && row[3] == 1 && row[4] == 0),
        other,
        any(|row| row[0] == 7),
        any(|row| row[0] == 5),
        any(|row| row[0] == 1),
        any(|row| row[0] == 6),
        after.next == TOP,
        births.len() == 64 && queue::counts(&after).waiting == 0,
    ]
}

// One history: itself, its prefixes' counts, and damaged copies.
fn long_history(random: &mut Random, turn: usize, seen: &mut [u64; 12]) -> Result<u64, Difference> {
    let opening = opening(random);
    let wanted = if random.chance(400) { 800 } else { random.between(1, 800) };
    let rows = history(random, &opening, wanted);
    for (count, shown) in seen.iter_mut().zip(shown_by(&opening, &rows)) {
        *count += u64::from(shown);
    }
    let good = replay::read(queue::open(&opening), &rows).verdict == Verdict::Good;
    if !good {
        let what = "the maker's history is not good".to_string();
        return Err(Difference { opening, rows, what });
    }
    prefix_counts(&opening, &rows)?;
    compared_log(&opening, rows.clone())?;
    // A history that never began has no row to damage.
    if rows.is_empty() {
        return Ok(1);
    }
    for step in 0..7 {
        let mut copy = rows.clone();
        ROW_DAMAGES[(turn * 7 + step) % ROW_DAMAGES.len()].1(random, &mut copy);
        compared_log(&opening, copy)?;
    }
    Ok(8)
}

// The logs in the fixed texts and in those at the limits; both bring the 65th birth.
fn known_logs() -> Result<u64, Difference> {
    let fixed = fixed::all().into_iter().map(|case| case.text);
    let limits = limits::all().into_iter().map(|(_, text)| text);
    let mut compared = 0;
    for text in fixed.chain(limits) {
        if let Reading::Log(opening, rows) = text::read(&text) {
            compared_log(&opening, rows)?;
            compared += 1;
        }
    }
    Ok(compared)
}

// Short histories behind which a row tempts; many, since each is quick.
fn tempting_logs(random: &mut Random, count: usize) -> Result<u64, Difference> {
    for _ in 0..count {
        for make in [tempting_log, stage_log] {
            let (opening, rows) = make(random);
            compared_log(&opening, rows)?;
        }
    }
    Ok(2 * count as u64)
}

// The longest log allowed, one row more, and a part row behind.
fn full_logs() -> Result<u64, Difference> {
    let opening = Opening { iterator: false, domain: 5, first: 0 };
    let rows = steady(0, 64, 7, LOG_ROWS + 1);
    for (length, part) in [(LOG_ROWS, 0), (LOG_ROWS + 1, 0), (LOG_ROWS, 3), (100, 1), (0, 4), (100, 0)] {
        let mut words: Vec<u64> = rows[..length].concat();
        words.extend(vec![0; part]);
        let one = replay::read_words(queue::open(&opening), &words).verdict;
        let good = length <= LOG_ROWS && part == 0;
        let due = if good { Verdict::Good } else { Verdict::Bad(length.min(LOG_ROWS)) };
        if one != due || language::belongs_words(&opening, &words) != good {
            let what = format!("{length} rows and {part} words: steps say {one:?}");
            return Err(Difference { opening, rows: rows[..length].to_vec(), what });
        }
    }
    Ok(6)
}

fn short_logs() -> Result<u64, Difference> {
    println!("short logs, every good prefix with every row behind it:");
    let mut short = 0;
    for opening in search_openings() {
        short += search(&opening)?;
    }
    let mut three = 0;
    for opening in search_openings() {
        three += all_of_three(&opening)?;
    }
    println!("  all logs of up to 3 rows, good prefix or not: {three} compared");
    Ok(short + three)
}

pub fn run(seed: u64, count: usize) -> Result<(), Difference> {
    let short = short_logs()?;
    let known = full_logs()? + known_logs()?;
    let mut random = Random::new(seed);
    let mut seen = [0; 12];
    let mut long = 0;
    for turn in 0..count {
        long += long_history(&mut random, turn, &mut seen)?;
    }
    println!("long histories: {count} made, {long} logs compared on every prefix; how many had");
    for (name, count) in SEEN.iter().zip(seen) {
        println!("  {name}: {count}");
    }
    let tempted = tempting_logs(&mut random, count * 50)?;
    let lists = listsagree::run(&mut random, count * 50)?;
    println!(
        "agree: {short} short, {known} known, {long} long, {tempted} tempting logs, {lists} lists, no difference"
    );
    Ok(())
}
