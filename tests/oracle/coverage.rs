// coverage.rs: what the rules let each call answer, written down, and how often each was seen.

use crate::console::{Console, Said};
use crate::limitsmet;
use crate::rows::Row;
use crate::sequencesmet;
use crate::situations;
use crate::spoilage::Spoilage;
use crate::unseen::{self, Records};
use std::collections::BTreeMap;

// A call's number, its name, the refusals that it can give and the cases of its answers.
pub struct Can {
    pub number: u64,
    pub name: &'static str,
    pub refusals: &'static [u64],
    pub cases: &'static [u64],
}

const fn can(
    number: u64,
    name: &'static str,
    refusals: &'static [u64],
    cases: &'static [u64],
) -> Can {
    Can { number, name, refusals, cases }
}

// 9 is nowhere: a ready slot is occupied by well-formedness, and a waiting one by its meaning.
pub const LIST: &[Can] = &[
    can(0, "open scope", &[], &[1]),
    can(1, "open iterator", &[14], &[1]),
    can(10, "register", &[1, 2, 3], &[1]),
    can(11, "land", &[1, 2, 4, 3], &[1]),
    can(12, "pop", &[1, 5], &[1, 2]),
    can(13, "complete", &[1, 15, 6, 7], &[1]),
    can(14, "retry", &[1, 8, 20, 21], &[1]),
    can(15, "admit with target", &[1], &[1, 2]),
    can(16, "admit without", &[1], &[1, 2]),
    can(17, "end", &[1], &[1, 2]),
    can(18, "cancel", &[1], &[1]),
    can(19, "register_all", &[1, 2, 3], &[1]),
    can(20, "is_empty", &[1], &[1, 2]),
    can(21, "is_issued", &[1], &[1, 2]),
    can(22, "is_pending", &[1], &[1, 2]),
    can(23, "is_settled", &[1], &[1, 2]),
    can(24, "is_cancelled", &[1], &[1, 2]),
    can(25, "has_failed", &[1], &[1, 2]),
    can(26, "can_retry", &[1], &[1, 2]),
    can(27, "can_finish", &[1], &[1, 2]),
    can(28, "domain", &[1], &[1]),
    can(29, "well formed", &[], &[1, 2]),
    can(30, "recorded register", &[1, 2, 3, 17], &[1]),
    can(31, "recorded land", &[1, 2, 4, 3, 17], &[1]),
    can(32, "recorded pop", &[1, 5, 17], &[1, 2]),
    can(33, "recorded complete", &[1, 15, 6, 7, 17], &[1]),
    can(34, "recorded retry", &[1, 8, 20, 21, 17], &[1]),
    can(35, "recorded admit with target", &[1, 17], &[1, 2]),
    // Without a target admit never changes the queue, so 17 can't be seen.
    can(36, "recorded admit without", &[1], &[1, 2]),
    can(37, "recorded end", &[1, 17], &[1, 2]),
    can(38, "recorded cancel", &[1, 17], &[1]),
    can(39, "recorded register_all", &[1, 2, 3, 17], &[1]),
    can(42, "lent pop", &[1, 5], &[1, 2]),
    can(43, "lent complete", &[1, 15, 6, 7], &[1]),
    can(50, "reader", &[14, 16], &[1]),
    can(60, "new group record", &[19], &[1]),
    can(61, "open a scope group", &[1, 12, 11, 19], &[1]),
    can(62, "open an iterator group", &[1, 12, 14, 11, 19], &[1]),
    can(63, "close", &[1, 10, 13], &[1]),
    can(64, "seal", &[1, 12, 13], &[1]),
    can(70, "register of a group", &[1, 10, 2, 3], &[1]),
    can(71, "land of a group", &[1, 10, 2, 4, 3], &[1]),
    can(72, "pop of a group", &[1, 10, 5], &[1, 2]),
    can(73, "complete of a group", &[1, 10, 15, 6, 7], &[1]),
    can(74, "retry of a group", &[1, 10, 8, 20, 21], &[1]),
    can(75, "admit with target of a group", &[1, 10], &[1, 2]),
    can(76, "admit without of a group", &[1, 10], &[1, 2]),
    can(77, "end of a group", &[1, 10], &[1, 2]),
    can(78, "cancel of a group", &[1, 10], &[1]),
    can(79, "register_all of a group", &[1, 10, 2, 3], &[1]),
    can(80, "is_empty of a group", &[1, 10], &[1, 2]),
    can(81, "is_issued of a group", &[1, 10], &[1, 2]),
    can(82, "is_pending of a group", &[1, 10], &[1, 2]),
    can(83, "is_settled of a group", &[1, 10], &[1, 2]),
    can(84, "is_cancelled of a group", &[1, 10], &[1, 2]),
    can(85, "has_failed of a group", &[1, 10], &[1, 2]),
    can(86, "can_retry of a group", &[1, 10], &[1, 2]),
    can(87, "can_finish of a group", &[1, 10], &[1, 2]),
    can(88, "domain of a group", &[1, 10], &[1]),
    can(89, "groups well formed", &[], &[1, 2]),
    can(90, "set held", &[], &[1]),
    can(100, "has_pending", &[1], &[1, 2]),
    can(101, "has_issued", &[1], &[1, 2]),
    can(102, "has_failed of all", &[1], &[1, 2]),
    can(103, "can_retry_all", &[1], &[1, 2]),
    can(104, "retry_all", &[1], &[1, 2]),
    can(105, "can_finish of all", &[1], &[1, 2]),
    can(106, "can_seal", &[1], &[1, 2]),
    can(107, "contains", &[1], &[1, 2]),
    can(108, "len", &[1], &[1]),
    can(109, "is_empty of all", &[1], &[1, 2]),
    can(110, "get", &[1, 10], &[1]),
    can(111, "accepts_acquisition", &[1, 10], &[1, 2]),
    can(112, "may a group be opened", &[1], &[1, 2]),
    can(120, "set list empty", &[], &[1]),
    can(121, "set list longer", &[], &[1]),
    can(130, "set queue", &[], &[1]),
    can(131, "set group record", &[], &[1]),
    can(132, "set place", &[], &[1]),
    can(133, "set place's queue", &[], &[1]),
    can(134, "set log word", &[], &[1]),
    can(135, "set lent", &[], &[1]),
    can(136, "set used", &[], &[1]),
    can(150, "set all back", &[], &[1]),
];

const SHOWS: [&str; 4] = ["show queue", "show seen", "show log", "show groups"];

pub fn name_of(number: u64) -> &'static str {
    let listed = LIST.iter().find(|can| can.number == number).map(|can| can.name);
    let show = number.checked_sub(140).and_then(|place| SHOWS.get(place as usize).copied());
    listed.or(show).unwrap_or("no call")
}

pub struct Seen {
    watched: bool,
    answers: BTreeMap<(u64, u64, u64), u64>,
    named: BTreeMap<&'static str, u64>,
    shows: [u64; 4],
    spoilage: Spoilage,
    unseen: Records,
    pub bad_lines: u64,
    // Records written over before they were shown, and pieces that were left out: there must be none.
    pub lost: u64,
    pub left_out: u64,
}

fn known_names() -> impl Iterator<Item = &'static &'static str> {
    situations::NAMES.iter().chain(limitsmet::NAMES).chain(sequencesmet::NAMES)
}

// Rows of the table, each with how many of its cases were never seen.
type Rows = Vec<(String, usize)>;

impl Seen {
    pub fn new(watched: bool) -> Seen {
        Seen {
            watched,
            answers: BTreeMap::new(),
            named: BTreeMap::new(),
            shows: [0; 4],
            spoilage: Spoilage::default(),
            unseen: [false; 4],
            bad_lines: 0,
            lost: 0,
            left_out: 0,
        }
    }

    // A script begins with everything new, so that nothing is left to be shown.
    pub fn begin(&mut self) {
        self.unseen = [false; 4];
    }

    // Looks at the state that the call meets.
    pub fn before(&mut self, console: &Console, line: &Row) {
        if !self.watched {
            return;
        }
        for name in situations::met(console, line) {
            *self.named.entry(name).or_default() += 1;
        }
        self.spoilage.before(console, line[0]);
        let lost = unseen::lost(self.unseen, line[0]);
        self.lost += lost.iter().filter(|lost| **lost).count() as u64;
        self.unseen = unseen::after(self.unseen, line[0]);
    }

    pub fn after(&mut self, line: &Row, said: &Said) {
        match said {
            Said::Result(result, answer) => {
                *self.answers.entry((line[0], *result, answer.case)).or_default() += 1;
            }
            Said::Shown(_) => self.shows[(line[0] - 140) as usize] += 1,
            Said::Bad => self.bad_lines += 1,
        }
    }

    fn count(&self, call: u64, result: u64, case: u64) -> u64 {
        self.answers.get(&(call, result, case)).copied().unwrap_or(0)
    }

    // One line of the table, and how many of its cases were never seen.
    fn row(&self, can: &Can) -> (String, usize) {
        let refusals = can.refusals.iter().map(|no| (*no, self.count(can.number, *no, 0)));
        let cases = can.cases.iter().map(|case| (*case, self.count(can.number, 0, *case)));
        let (cases, refusals): (Vec<_>, Vec<_>) = (cases.collect(), refusals.collect());
        let never = cases.iter().chain(&refusals).filter(|(_, count)| *count == 0).count();
        let told = |cells: &[(u64, u64)]| {
            let cells: Vec<String> =
                cells.iter().map(|(no, count)| format!("{no}: {count}")).collect();
            cells.join(", ")
        };
        let (cases, refusals) = (told(&cases), told(&refusals));
        (format!("| {} | {} | {cases} | {refusals} |", can.number, can.name), never)
    }

    pub fn answer_rows(&self) -> Rows {
        LIST.iter().map(|can| self.row(can)).collect()
    }

    pub fn show_rows(&self) -> Rows {
        let row = |place: usize| {
            let count = self.shows[place];
            (format!("| {} | {} | {count} |", 140 + place, SHOWS[place]), usize::from(count == 0))
        };
        (0..4).map(row).collect()
    }

    pub fn named_rows(&self) -> Rows {
        let row = |name: &&'static str| {
            let count = self.named.get(name).copied().unwrap_or(0);
            (format!("| {name} | {count} |"), usize::from(count == 0))
        };
        known_names().map(row).collect()
    }

    pub fn spoilage_rows(&self) -> Rows {
        self.spoilage.rows()
    }

    // Answers and situations that the lists hold impossible; there must be none.
    pub fn unlisted(&self) -> Vec<String> {
        let listed = |number: u64, result: u64, case: u64| {
            let can = LIST.iter().find(|can| can.number == number);
            can.is_some_and(|can| match result {
                0 => can.cases.contains(&case),
                _ => can.refusals.contains(&result) && case == 0,
            })
        };
        let strange =
            self.answers.keys().filter(|(call, result, case)| !listed(*call, *result, *case));
        let told =
            strange.map(|(call, result, case)| format!("{call}: result {result}, case {case}"));
        let known = |name: &&'static str| known_names().any(|other| other == name);
        let named = self.named.keys().filter(|name| !known(name)).map(|name| name.to_string());
        told.chain(named).collect()
    }
}
