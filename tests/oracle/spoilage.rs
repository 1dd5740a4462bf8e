// spoilage.rs: for each clause that a record broke alone, which calls met it and in how many states.

use crate::clauses;
use crate::console::Console;
use crate::groups::Groups;
use crate::queue::Queue;
use std::collections::{BTreeMap, BTreeSet};

// The records that can be spoiled, their clauses, and in how many states each must be broken alone.
const RECORDS: [(&str, &[&str], usize); 3] = [
    ("queue", &clauses::OF_QUEUE, 3),
    ("group record", &clauses::OF_GROUPS, 2),
    ("a group's queue", &clauses::OF_QUEUE, 2),
];

#[derive(Default)]
struct Met {
    calls: u64,
    numbers: BTreeSet<u64>,
    states: BTreeSet<[u64; 5]>,
}

#[derive(Default)]
pub struct Spoilage {
    met: BTreeMap<(usize, usize), Met>,
}

// Every call that looks at a queue, and those that write over it.
fn is_of_queue(number: u64) -> bool {
    matches!(number, 0 | 1 | 10..=39 | 42 | 43 | 50)
}

fn is_of_groups(number: u64) -> bool {
    matches!(number, 60..=64 | 70..=89 | 100..=112)
}

fn queue_state(queue: &Queue) -> [u64; 5] {
    let selected = u64::from(queue.selected.is_some());
    let (failed, issued) = (u64::from(queue.failed), u64::from(queue.issued));
    [u64::from(queue.iterator), queue.phase as u64, selected, failed, issued]
}

fn groups_state(groups: &Groups) -> [u64; 5] {
    let live = groups.places.iter().filter(|place| place.live);
    let count =
        |of: fn(&Queue) -> bool| live.clone().filter(|place| of(&place.queue)).count() as u64;
    let all = live.clone().count() as u64;
    let selected = count(|queue| queue.selected.is_some());
    [all, u64::from(groups.sealed), selected, count(|queue| queue.failed), groups.next.min(20)]
}

impl Spoilage {
    fn note(&mut self, record: usize, clause: Option<usize>, number: u64, state: [u64; 5]) {
        let Some(clause) = clause else { return };
        let met = self.met.entry((record, clause)).or_default();
        met.calls += 1;
        met.numbers.insert(number);
        met.states.insert(state);
    }

    // Looks at the records that the call meets.
    pub fn before(&mut self, console: &Console, number: u64) {
        if is_of_queue(number) {
            let clause = clauses::alone_in_queue(&console.queue);
            self.note(0, clause, number, queue_state(&console.queue));
        }
        if is_of_groups(number) {
            let state = groups_state(&console.groups);
            self.note(1, clauses::alone_in_groups(&console.groups), number, state);
            if let Some(queue) = clauses::only_spoiled_queue(&console.groups) {
                self.note(2, clauses::alone_in_queue(queue), number, queue_state(queue));
            }
        }
    }

    // A line of the table, and how many calls and states it lacks.
    fn row(&self, record: usize, clause: usize) -> (String, usize) {
        let (name, clauses, least) = RECORDS[record];
        let none = Met::default();
        let met = self.met.get(&(record, clause)).unwrap_or(&none);
        let due =
            |number: &u64| if record == 0 { is_of_queue(*number) } else { is_of_groups(*number) };
        let all: Vec<u64> = (0..150).filter(due).collect();
        let lacking = all.iter().filter(|number| !met.numbers.contains(number)).count();
        let (seen, of, states) = (met.numbers.len(), all.len(), met.states.len());
        let calls = met.calls;
        let told =
            format!("| {name} | {} | {calls} | {seen} of {of} | {states} |", clauses[clause]);
        (told, lacking + least.saturating_sub(states))
    }

    pub fn rows(&self) -> Vec<(String, usize)> {
        let clauses =
            |record: usize| (0..RECORDS[record].1.len()).map(move |clause| (record, clause));
        let all = (0..RECORDS.len()).flat_map(clauses);
        all.map(|(record, clause)| self.row(record, clause)).collect()
    }
}
