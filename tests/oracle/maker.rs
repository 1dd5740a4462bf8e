// maker.rs: writes a script line by line and its expected output beside it, on a console of its own.

use crate::calls::{Answer, Call};
use crate::console::{Console, Said, LOG_WORDS};
use crate::coverage::Seen;
use crate::groups;
use crate::queue::{Queue, Ticket};
use crate::random::Random;
use crate::rows::Row;
use crate::unseen::{self, Records};

// On what a call is made: the queue, in one of three ways, or a group by its id.
#[derive(Clone, Copy, PartialEq, Eq, Debug)]
pub enum Way {
    Plain,
    Recorded,
    Lent,
    Group(u64),
}

pub struct Maker {
    pub random: Random,
    pub console: Console,
    pub script: Vec<u8>,
    pub want: Vec<u8>,
    pub calls: u64,
    pub seen: Seen,
    unseen: Records,
}

pub fn is_call(number: u64) -> bool {
    number < 90 || (100..=112).contains(&number)
}

// The kind of a call, from register 0 to cancel 8, as the console numbers them.
fn kind(call: &Call) -> u64 {
    match call {
        Call::Register(_) => 0,
        Call::Land(_) => 1,
        Call::Pop => 2,
        Call::Complete(..) => 3,
        Call::Retry => 4,
        Call::Admit(Some(_)) => 5,
        Call::Admit(None) => 6,
        Call::End => 7,
        Call::Cancel => 8,
    }
}

// Only pop and complete are offered on a lent queue, so the rest is plain there.
fn numbered(way: Way, kind: u64) -> u64 {
    match way {
        Way::Plain => 10 + kind,
        Way::Recorded => 30 + kind,
        Way::Lent if kind == 2 || kind == 3 => 40 + kind,
        Way::Lent => 10 + kind,
        Way::Group(_) => 70 + kind,
    }
}

impl Maker {
    pub fn new(seed: u64, seen: Seen) -> Maker {
        Maker {
            random: Random::new(seed),
            console: Console::new(),
            script: Vec::new(),
            want: Vec::new(),
            calls: 0,
            seen,
            unseen: [false; 4],
        }
    }

    // A record that a call has met is shown before this line writes over it.
    pub fn say(&mut self, numbers: &[u64]) -> (u64, Answer) {
        let lost = unseen::lost(self.unseen, numbers[0]);
        for place in (0..4).filter(|place| lost[*place]) {
            if place == unseen::LOG {
                self.show_log();
            } else {
                self.tell(&[140 + place as u64]);
            }
        }
        self.tell(numbers)
    }

    // What a line doesn't use is not looked at, so the rest holds anything now and then.
    fn tell(&mut self, numbers: &[u64]) -> (u64, Answer) {
        let mut line: Row = [0; 5];
        line[..numbers.len()].copy_from_slice(numbers);
        if self.random.chance(30) {
            for column in &mut line[numbers.len()..] {
                *column = self.random.word();
            }
        }
        self.write(&line);
        self.calls += u64::from(is_call(line[0]));
        self.unseen = unseen::after(self.unseen, line[0]);
        self.seen.before(&self.console, &line);
        let said = self.console.answer(&line, &mut self.want);
        self.seen.after(&line, &said);
        match said {
            Said::Result(result, answer) => (result, answer),
            _ => (0, Answer { case: 0, values: [0; 4] }),
        }
    }

    // The used rows and two behind them; all words now and then, for those are 41,000 bytes.
    fn show_log(&mut self) {
        let (lent, used) = (self.console.lent as u64, self.console.used);
        let all = used > 4000 || self.random.chance(10);
        let words = if all { LOG_WORDS as u64 } else { 5 * used + 10 };
        if words != lent {
            self.tell(&[135, words]);
        }
        self.tell(&[142]);
        if words != lent {
            self.tell(&[135, lent]);
        }
    }

    fn write(&mut self, line: &Row) {
        let words: Vec<String> = line.iter().map(|column| column.to_string()).collect();
        self.script.extend_from_slice(words.join(",").as_bytes());
        self.script.extend_from_slice(b"\r\n");
    }

    pub fn list(&mut self, members: &[u64]) {
        if self.console.list == members {
            return;
        }
        self.say(&[120]);
        for member in members {
            self.say(&[121, *member]);
        }
    }

    // The queue that a call would meet; a dead group shows the blank one.
    pub fn queue(&self, way: Way) -> Queue {
        let Way::Group(id) = way else { return self.console.queue };
        let places = &self.console.groups.places;
        let place = places.iter().find(|place| place.live && place.id == id);
        place.map_or_else(|| groups::new(0).1.places[15].queue, |place| place.queue)
    }

    pub fn call(&mut self, way: Way, call: &Call) {
        let number = numbered(way, kind(call));
        match call {
            Call::Admit(Some(target)) => self.list(target),
            Call::Complete(ticket, outcome, kept) => {
                return self.complete(way, *ticket, *outcome, *kept);
            }
            _ => {}
        }
        let given = match call {
            Call::Register(number) | Call::Land(number) => vec![*number],
            _ => vec![],
        };
        let id = if let Way::Group(id) = way { vec![id] } else { vec![] };
        self.say(&[&[number], &id[..], &given[..]].concat());
    }

    // The list is the console's, which has room for 64 numbers.
    pub fn register_all(&mut self, way: Way, numbers: &[u64]) {
        self.list(numbers);
        match way {
            Way::Group(id) => self.say(&[79, id]),
            _ => self.say(&[numbered(way, 9)]),
        };
    }

    fn complete(&mut self, way: Way, ticket: Ticket, outcome: u64, kept: u64) {
        let Ticket { domain, token, attempt } = ticket;
        let held = (self.console.held_domain, self.console.held_number);
        if let Way::Group(id) = way {
            if held != (domain, kept) {
                self.say(&[90, domain, kept]);
            }
            self.say(&[73, id, token, attempt, outcome]);
            return;
        }
        if held.0 != domain {
            self.say(&[90, domain, held.1]);
        }
        self.say(&[numbered(way, 3), token, attempt, outcome, kept]);
    }

    // One field of the queue or of the group's queue.
    pub fn set_field(&mut self, way: Way, field: u64, index: u64, value: u64) {
        let Way::Group(id) = way else {
            self.say(&[130, field, index, value]);
            return;
        };
        let places = &self.console.groups.places;
        if let Some(place) = places.iter().position(|place| place.live && place.id == id) {
            self.say(&[133, place as u64, field, index, value]);
        }
    }

    // One letter, one step, made fit for the queue as it stands: see the match.
    fn letter(&mut self, way: Way, letter: char) {
        let queue = self.queue(way);
        let committed = queue.bindings[..queue.bound.min(16)].to_vec();
        let ticket = queue.selected.unwrap_or(Ticket { domain: 0, token: 0, attempt: 0 });
        let fresh = 70 + self.random.below(9);
        match letter {
            'r' => self.call(way, &Call::Register(fresh)),
            'l' => self.call(way, &Call::Land(fresh)),
            'p' => self.call(way, &Call::Pop),
            'd' => self.call(way, &Call::Complete(ticket, 0, 0)),
            'f' => self.call(way, &Call::Complete(ticket, 1, fresh)),
            'h' => self.call(way, &Call::Complete(ticket, 1, 0)),
            't' => self.call(way, &Call::Retry),
            'a' => self.call(way, &Call::Admit(Some(&committed))),
            'e' => self.call(way, &Call::End),
            'c' => self.call(way, &Call::Cancel),
            's' => self.register_all(way, &[fresh, fresh + 1, fresh + 2]),
            'z' => self.register_all(way, &[fresh, 0, fresh]),
            // Tokens issued long ago and done: their slots are empty, so the record stays well formed.
            'w' => self.set_field(way, 4, 0, 63),
            'W' => self.set_field(way, 4, 0, 64),
            _ => panic!("no step is named {letter}"),
        }
    }

    pub fn steps(&mut self, way: Way, letters: &str) {
        letters.chars().for_each(|letter| self.letter(way, letter));
    }

    pub fn show(&mut self) {
        self.say(&[140]);
    }

    pub fn reset(&mut self) {
        self.say(&[150]);
    }

    // Opens the queue; a scope has no bindings.
    pub fn open(&mut self, iterator: bool, domain: u64, first: u64, bindings: &[u64]) {
        if iterator {
            self.list(bindings);
        }
        self.say(&[u64::from(iterator), domain, first]);
    }

    pub fn open_group(&mut self, iterator: bool, bindings: &[u64]) -> u64 {
        if iterator {
            self.list(bindings);
        }
        self.say(&[61 + u64::from(iterator)]).1.values[0]
    }
}
