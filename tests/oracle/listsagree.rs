// listsagree.rs: shows that the readings of register_all agree: in turn, decided at once, and by the language's rules.

use crate::agree::Difference;
use crate::atonce;
use crate::generate::{history, number, opening, steady};
use crate::language;
use crate::queue;
use crate::random::Random;
use crate::replay::{self, Verdict};
use crate::rows::{Opening, Row, LOG_ROWS};
use crate::sequences;
use std::collections::BTreeMap;

// A list of any length, past the last token too, with a 0 in it now and then.
fn numbers(random: &mut Random) -> Vec<u64> {
    let most = random.pick(&[0, 3, 10, 70, 200]);
    let mut numbers: Vec<u64> = (0..random.between(0, most)).map(|_| number(random)).collect();
    if !numbers.is_empty() && random.chance(400) {
        let place = random.place(numbers.len());
        numbers[place] = 0;
    }
    numbers
}

// To the rules a list is birth rows like others: they are good up to the first refusal, or to the last row that there is memory for.
fn taken_by_rules(opening: &Opening, rows: &[Row], numbers: &[u64], room: usize) -> usize {
    let tokens = rows.iter().filter(|row| row[0] < 2).count();
    let mut all = [rows, &atonce::birth_rows(tokens, numbers)].concat();
    all.truncate(room);
    language::first_bad(opening, &all).unwrap_or(all.len()) - rows.len()
}

// A list behind a good log: in turn, decided at once, and by the rules; then the log that it leaves is read back. Gives the refusal.
fn agreed_list(
    opening: &Opening,
    rows: &[Row],
    numbers: &[u64],
    spare: usize,
) -> Result<u64, String> {
    let mut queue = replay::read(queue::open(opening), rows).queue;
    let mut words = rows.concat();
    words.extend(vec![900; spare]);
    let mut used = rows.len() as u64;
    if atonce::recorded_differs(&queue, &words, used, numbers) {
        return Err(format!("in turn and at once differ on {numbers:?}, {spare} words free"));
    }
    let took = sequences::recorded(&mut queue, &mut words, &mut used, numbers);
    let by_rules = taken_by_rules(opening, rows, numbers, words.len() / 5);
    if took.taken != by_rules as u64 {
        return Err(format!(
            "{took:?}, by the rules {by_rules}, of {numbers:?}, {spare} words free"
        ));
    }
    let log = &words[..5 * used as usize];
    let reading = replay::read_words(queue::open(opening), log);
    let same = reading.verdict == Verdict::Good && reading.queue == queue;
    if !same || !language::belongs_words(opening, log) {
        return Err(format!("{numbers:?} leaves no good log"));
    }
    Ok(took.refusal)
}

// How many lists ended with each refusal.
type Ends = BTreeMap<u64, u64>;

fn compared_list(
    opening: &Opening,
    rows: &[Row],
    numbers: &[u64],
    spare: usize,
    ends: &mut Ends,
) -> Result<(), Difference> {
    match agreed_list(opening, rows, numbers, spare) {
        Ok(refusal) => *ends.entry(refusal).or_default() += 1,
        Err(what) => return Err(Difference { opening: *opening, rows: rows.to_vec(), what }),
    }
    Ok(())
}

// Behind random histories, with plenty of memory or little.
fn random_lists(random: &mut Random, count: usize, ends: &mut Ends) -> Result<(), Difference> {
    for _ in 0..count {
        let opening = opening(random);
        let wanted = random.pick(&[0, 0, 5, 30, 90]);
        let rows = history(random, &opening, wanted);
        let most = random.pick(&[0, 4, 9, 40, 1200]);
        let spare = random.between(0, most);
        compared_list(&opening, &rows, &numbers(random), spare, ends)?;
    }
    Ok(())
}

// At the last row that a log may have, and with more numbers than a queue has tokens.
fn long_lists(ends: &mut Ends) -> Result<(), Difference> {
    let opening = Opening { iterator: false, domain: 5, first: 0 };
    let near_the_end = steady(0, 2, 7, LOG_ROWS - 3);
    for count in 0..6 {
        compared_list(&opening, &near_the_end, &vec![9; count], 40, ends)?;
    }
    for count in [63, 64, 65, 1000] {
        compared_list(&opening, &[], &vec![9; count], 6000, ends)?;
    }
    Ok(())
}

pub fn run(random: &mut Random, count: usize) -> Result<u64, Difference> {
    let mut ends = Ends::new();
    long_lists(&mut ends)?;
    random_lists(random, count, &mut ends)?;
    println!("lists of numbers behind good logs, how many ended with");
    for (refusal, count) in &ends {
        println!("  {refusal}: {count}");
    }
    Ok(ends.values().sum())
}
