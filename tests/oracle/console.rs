// console.rs: the console's script: its own state, every line's call and the bytes that answer it.

use crate::calls::{self, one_value, plain_done, yes_or_no, Answer, Call};
use crate::fields;
use crate::groups::{self, Groups};
use crate::questions;
use crate::queue::{open_iterator, open_scope, well_formed, Queue, Ticket};
use crate::replay::{self, Verdict};
use crate::rows::Row;
use crate::sequences::{self, Took};
use crate::text;

pub const LOG_WORDS: usize = 20_500;
pub const LENT_WORDS: usize = 20_480;
pub const LIST_ROOM: usize = 64;

pub struct Console {
    pub queue: Queue,
    pub seen: Queue,
    pub log: Vec<u64>,
    pub lent: usize,
    pub used: u64,
    pub groups: Groups,
    pub list: Vec<u64>,
    pub held_domain: u64,
    pub held_number: u64,
}

// What a line brings: a result with its answer, lines that show, or nothing, for a bad line.
pub enum Said {
    Result(u64, Answer),
    Shown(Vec<Vec<u64>>),
    Bad,
}

fn refused(number: u64, first: u64) -> Said {
    Said::Result(number, Answer { case: 0, values: [first, 0, 0, 0] })
}

fn answered(answer: Answer) -> Said {
    Said::Result(0, answer)
}

fn outcome(result: Result<Answer, u64>) -> Said {
    result.map_or_else(|number| refused(number, 0), answered)
}

// A list that is refused part of the way tells how many were taken before.
fn took(took: Took) -> Said {
    match took.refusal {
        0 => answered(one_value(took.taken)),
        refusal => refused(refusal, took.taken),
    }
}

fn set(done: Option<()>) -> Said {
    done.map_or(Said::Bad, |()| answered(plain_done()))
}

// One decimal line; most numbers are 0, which is quick to write.
fn push_line(out: &mut Vec<u8>, values: &[u64]) {
    for (place, value) in values.iter().enumerate() {
        if place > 0 {
            out.push(b',');
        }
        if *value < 10 {
            out.push(b'0' + *value as u8);
        } else {
            out.extend_from_slice(value.to_string().as_bytes());
        }
    }
    out.extend_from_slice(b"\r\n");
}

// The call of this kind, from register 0 to cancel 8, with these four numbers.
pub fn named<'a>(kind: u64, args: [u64; 4], held_domain: u64, list: &'a [u64]) -> Option<Call<'a>> {
    let [a, b, c, d] = args;
    let ticket = Ticket { domain: held_domain, token: a, attempt: b };
    Some(match kind {
        0 => Call::Register(a),
        1 => Call::Land(a),
        2 => Call::Pop,
        3 => Call::Complete(ticket, c, d),
        4 => Call::Retry,
        5 => Call::Admit(Some(list)),
        6 => Call::Admit(None),
        7 => Call::End,
        8 => Call::Cancel,
        _ => return None,
    })
}

impl Console {
    pub fn new() -> Console {
        Console {
            queue: open_scope(0, 0),
            seen: open_scope(0, 0),
            log: vec![0; LOG_WORDS],
            lent: LENT_WORDS,
            used: 0,
            groups: groups::new(0).1,
            list: Vec::new(),
            held_domain: 0,
            held_number: 0,
        }
    }

    pub fn obey(&mut self, line: &Row) -> Said {
        match line[0] {
            0..=29 => self.plain(line),
            30..=38 => self.recorded(line),
            39 => self.all_recorded(),
            42 | 43 => self.plain(&[line[0] - 30, line[1], line[2], line[3], line[4]]),
            50 => self.read(line),
            60..=64 => self.membership(line),
            70..=89 => self.of_a_group(line),
            100..=112 => self.of_all_groups(line),
            90 | 120..=136 | 150 => set(self.set(line)),
            140..=143 => Said::Shown(self.shown(line[0])),
            _ => Said::Bad,
        }
    }

    fn plain(&mut self, line: &Row) -> Said {
        let [number, a, b, ..] = *line;
        match number {
            0 => self.opened((0, open_scope(a, b))),
            1 => self.opened(open_iterator(a, b, &self.list)),
            10..=18 => self.stepped(line),
            19 => took(sequences::plain(&mut self.queue, &self.list)),
            20..=27 => {
                outcome(questions::asked(&self.queue, number - 20, &self.list).map(yes_or_no))
            }
            28 => outcome(questions::domain(&self.queue).map(one_value)),
            29 => answered(yes_or_no(well_formed(&self.queue))),
            _ => Said::Bad,
        }
    }

    fn stepped(&mut self, line: &Row) -> Said {
        let [number, a, b, c, d] = *line;
        let call = named(number - 10, [a, b, c, d], self.held_domain, &self.list);
        let Some(call) = call else { return Said::Bad };
        match calls::make(&self.queue, &call) {
            Err(number) => refused(number, calls::given_back(&call)),
            Ok(made) => {
                self.queue = made.after;
                answered(made.answer)
            }
        }
    }

    fn opened(&mut self, (number, queue): (u64, Queue)) -> Said {
        self.queue = queue;
        if number == 0 {
            answered(plain_done())
        } else {
            refused(number, 0)
        }
    }

    fn recorded(&mut self, line: &Row) -> Said {
        let [number, a, b, c, d] = *line;
        let call = named(number - 30, [a, b, c, d], self.held_domain, &self.list);
        let Some(call) = call else { return Said::Bad };
        let words = &mut self.log[..self.lent];
        match calls::recorded(&self.queue, words, self.used, &call) {
            Err(number) => refused(number, calls::given_back(&call)),
            Ok((made, used)) => {
                self.queue = made.after;
                self.used = used;
                answered(made.answer)
            }
        }
    }

    fn all_recorded(&mut self) -> Said {
        let words = &mut self.log[..self.lent];
        took(sequences::recorded(&mut self.queue, words, &mut self.used, &self.list))
    }

    fn read(&mut self, line: &Row) -> Said {
        let [_, kind, domain, first, _] = *line;
        let (number, start) = match kind {
            0 => (0, open_scope(domain, first)),
            1 => open_iterator(domain, first, &self.list),
            _ => return Said::Bad,
        };
        self.seen = start;
        if number != 0 {
            return refused(number, 0);
        }
        let reading = replay::read_words(start, &self.log[..self.lent]);
        self.seen = reading.queue;
        match reading.verdict {
            Verdict::Good => answered(one_value(self.lent as u64 / 5)),
            Verdict::Bad(place) => refused(16, place as u64),
        }
    }

    fn membership(&mut self, line: &Row) -> Said {
        let [number, a, ..] = *line;
        match number {
            60 => {
                let (refusal, groups) = groups::new(a);
                self.groups = groups;
                if refusal == 0 {
                    answered(plain_done())
                } else {
                    refused(refusal, 0)
                }
            }
            61 => outcome(groups::open(&mut self.groups, None).map(one_value)),
            62 => outcome(groups::open(&mut self.groups, Some(&self.list)).map(one_value)),
            63 => outcome(groups::close(&mut self.groups, a).map(|()| plain_done())),
            64 => outcome(groups::seal(&mut self.groups).map(|()| plain_done())),
            _ => Said::Bad,
        }
    }

    fn of_a_group(&mut self, line: &Row) -> Said {
        let [number, id, ..] = *line;
        match number {
            70..=78 => self.step_of_a_group(line),
            79 => took(sequences::of_a_group(&mut self.groups, id, &self.list)),
            80..=87 => {
                let asked = |queue| questions::asked(queue, number - 80, &self.list);
                outcome(groups::get(&self.groups, id).and_then(asked).map(yes_or_no))
            }
            88 => outcome(groups::get(&self.groups, id).and_then(questions::domain).map(one_value)),
            89 => answered(yes_or_no(groups::is_well_formed(&self.groups))),
            _ => Said::Bad,
        }
    }

    fn step_of_a_group(&mut self, line: &Row) -> Said {
        let [number, id, b, c, d] = *line;
        // A complete by id has no column left for the kept number, so that one is held.
        let args = if number == 73 { [b, c, d, self.held_number] } else { [b, 0, 0, 0] };
        let call = named(number - 70, args, self.held_domain, &self.list);
        let Some(call) = call else { return Said::Bad };
        let made = |queue: &Queue| calls::make(queue, &call).map(|made| (made.after, made.answer));
        match groups::step(&mut self.groups, id, made) {
            Err(number) => refused(number, calls::given_back(&call)),
            Ok(answer) => answered(answer),
        }
    }

    fn of_all_groups(&mut self, line: &Row) -> Said {
        let [number, id, ..] = *line;
        let groups = &mut self.groups;
        match number {
            100 => outcome(groups::has_pending(groups).map(yes_or_no)),
            101 => outcome(groups::has_issued(groups).map(yes_or_no)),
            102 => outcome(groups::has_failed(groups).map(yes_or_no)),
            103 => outcome(groups::can_retry_all(groups).map(yes_or_no)),
            104 => outcome(groups::retry_all(groups).map(yes_or_no)),
            105 => outcome(groups::can_finish(groups, &self.list).map(yes_or_no)),
            106 => outcome(groups::can_seal(groups).map(yes_or_no)),
            107 => outcome(groups::contains(groups, id).map(yes_or_no)),
            108 => outcome(groups::len(groups).map(one_value)),
            109 => outcome(groups::is_empty(groups).map(yes_or_no)),
            110 => self.got(id),
            111 => outcome(groups::accepts_acquisition(groups, id).map(yes_or_no)),
            _ => outcome(groups::may_open(groups).map(yes_or_no)),
        }
    }

    fn got(&mut self, id: u64) -> Said {
        match groups::get(&self.groups, id) {
            Ok(queue) => {
                self.seen = *queue;
                answered(plain_done())
            }
            Err(number) => refused(number, 0),
        }
    }

    // None for what can't be set.
    fn set(&mut self, line: &Row) -> Option<()> {
        let [number, a, b, c, d] = *line;
        match number {
            90 => (self.held_domain, self.held_number) = (a, b),
            120 => self.list.clear(),
            121 if self.list.len() < LIST_ROOM => self.list.push(a),
            130 => fields::set_queue(&mut self.queue, a, b, c)?,
            131 => fields::set_groups(&mut self.groups, a, b)?,
            132 => fields::set_place(&mut self.groups, a, b, c)?,
            133 => fields::set_place_queue(&mut self.groups, [a, b, c, d])?,
            134 => *self.log.get_mut(usize::try_from(a).ok()?)? = b,
            135 if a <= LOG_WORDS as u64 => self.lent = a as usize,
            136 => self.used = a,
            150 => *self = Console::new(),
            _ => return None,
        }
        Some(())
    }

    fn shown(&self, number: u64) -> Vec<Vec<u64>> {
        match number {
            140 => vec![fields::queue_values(&self.queue)],
            141 => vec![fields::queue_values(&self.seen)],
            142 => vec![[&[self.lent as u64, self.used], &self.log[..self.lent]].concat()],
            _ => fields::groups_values(&self.groups),
        }
    }

    // Writes what answers the line; the used count is the one after it.
    pub fn answer(&mut self, line: &Row, out: &mut Vec<u8>) -> Said {
        let said = self.obey(line);
        match &said {
            Said::Result(result, answer) => {
                let [first, second, third, fourth] = answer.values;
                let values = [*result, answer.case, first, second, third, fourth, self.used];
                push_line(out, &values);
            }
            Said::Shown(lines) => lines.iter().for_each(|values| push_line(out, values)),
            Said::Bad => {}
        }
        said
    }

    pub fn bad_line(&self, line: usize, out: &mut Vec<u8>) {
        push_line(out, &[18, 0, line as u64, 0, 0, 0, self.used]);
    }
}

// The whole output of a script; a bad line ends the run.
pub fn output(script: &[u8]) -> Vec<u8> {
    let mut out = Vec::new();
    let mut console = Console::new();
    for (place, line) in text::lines(script).iter().enumerate() {
        let said = text::columns(line).map(|row| console.answer(&row, &mut out));
        if matches!(said, None | Some(Said::Bad)) {
            console.bad_line(place + 1, &mut out);
            break;
        }
    }
    out
}
