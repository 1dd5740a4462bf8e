// selftest.rs: cases worked out by hand from the rules: the marked cases, the phases, the refusals.

use crate::atonce;
use crate::fixed;
use crate::handwork;
use crate::language;
use crate::queue::*;
use crate::rows::TOP;
use crate::sequences::{self, Took};
use crate::text::{self, Reading};

struct Tally {
    done: u64,
    wrong: Vec<String>,
}

impl Tally {
    fn check(&mut self, name: &str, right: bool) {
        self.done += 1;
        if !right {
            self.wrong.push(name.to_string());
        }
    }
}

fn ticket(token: u64, attempt: u64) -> Ticket {
    Ticket { domain: 5, token, attempt }
}

// The number popped with its token and attempt, or None for Nothing.
fn popped(queue: &mut Queue) -> Option<(u64, u64, u64)> {
    let (after, out) = pop(queue).expect("pop is not refused here");
    *queue = after;
    out.map(|(ticket, number)| (ticket.token, ticket.attempt, number))
}

fn marked_one_to_five(tally: &mut Tally) -> Queue {
    let mut queue = open_scope(5, 0);
    tally.check("W1", popped(&mut queue).is_none());
    queue = register(&queue, 71).unwrap().0;
    queue = register(&queue, 72).unwrap().0;
    tally.check("W2", popped(&mut queue) == Some((1, 0, 72)));
    tally.check("W3", popped(&mut queue).is_none());
    queue = complete(&queue, ticket(1, 0), 1, 72).unwrap().0;
    tally.check("W4", popped(&mut queue).is_none());
    let (after, fresh) = retry(&queue).unwrap();
    queue = after;
    tally.check("W5 retry", fresh == ticket(1, 1));
    tally.check("W5 pop", popped(&mut queue) == Some((1, 1, 72)));
    queue
}

fn marked_six_to_nine(tally: &mut Tally, mut queue: Queue) {
    tally.check("W6", complete(&queue, ticket(1, 0), 0, 0) == Err(6));
    tally.check("W7", complete(&queue, ticket(1, 1), 0, 72) == Err(7));
    queue = complete(&queue, ticket(1, 1), 0, 0).unwrap().0;
    tally.check("W8", popped(&mut queue) == Some((0, 2, 71)));
    queue = complete(&queue, ticket(0, 2), 1, 0).unwrap().0;
    tally.check("W9 retry", retry(&queue) == Err(20));
    tally.check("W9 pop", popped(&mut queue).is_none());
}

fn marked_ten_to_twelve(tally: &mut Tally) {
    let mut queue = register(&open_scope(5, TOP - 1), 9).unwrap().0;
    tally.check("W10 pop", popped(&mut queue) == Some((0, TOP - 1, 9)));
    queue = complete(&queue, ticket(0, TOP - 1), 1, 9).unwrap().0;
    tally.check("W10", retry(&queue) == Err(21));
    let (number, queue) = open_iterator(5, 0, &[4, 9]);
    let (queue, admitted) = admit(&queue, Some(&[9, 4, 9])).unwrap();
    tally.check("W11 admit", number == 0 && admitted);
    let (queue, token) = land(&queue, 30).unwrap();
    tally.check("W11 land", token == 0);
    tally.check("W11 land again", land(&queue, 30) == Err(4));
    let mut queue = open_scope(5, 0);
    for _ in 0..63 {
        queue = register(&queue, 7).unwrap().0;
    }
    let (queue, token) = register(&queue, 7).unwrap();
    tally.check("W12 token 63", token == 63);
    tally.check("W12 full", register(&queue, 7) == Err(3));
}

// The table of R28: columns admit, land, end, cancel.
fn phases(tally: &mut Tally) {
    use Phase::*;
    let table = [
        (Idle, [Pending, Idle, Idle, Closed]),
        (Pending, [Pending, Idle, Ended, Stopping]),
        (Ended, [Ended, Ended, Ended, Closed]),
        (Stopping, [Stopping, Closed, Closed, Stopping]),
        (Closed, [Closed, Closed, Closed, Closed]),
    ];
    let events = [Event::Admit, Event::Land, Event::End, Event::Cancel];
    for (phase, next) in table {
        for (event, due) in events.iter().zip(next) {
            tally.check(&format!("{phase:?} {event:?}"), moved(phase, *event) == due);
        }
        tally.check("pending", pending(phase) == (phase == Pending || phase == Stopping));
    }
}

fn stage_answers(tally: &mut Tally) {
    let (_, queue) = open_iterator(5, 0, &[4, 9]);
    tally.check("admit without target", admit(&queue, None) == Ok((queue, false)));
    tally.check("admit of too few", admit(&queue, Some(&[4])) == Ok((queue, false)));
    tally.check("admit of too many", admit(&queue, Some(&[4, 9, 1])) == Ok((queue, false)));
    let (pending_queue, _) = admit(&queue, Some(&[4, 9])).unwrap();
    tally.check("admit again", admit(&pending_queue, None) == Ok((pending_queue, true)));
    tally.check("end when Idle", end(&queue) == Ok((queue, false)));
    let (ended, was_pending) = end(&pending_queue).unwrap();
    tally.check("end when Pending", was_pending && ended.phase == Phase::Ended);
    let (stopping, ()) = cancel(&pending_queue).unwrap();
    tally.check("cancel when Pending", stopping.phase == Phase::Stopping);
    tally.check("land when Stopping", land(&stopping, 1).unwrap().0.phase == Phase::Closed);
    let blank = open_scope(0, 0);
    tally.check("16 bindings", open_iterator(5, 0, &[1; 16]).0 == 0);
    tally.check("17 bindings", open_iterator(5, 0, &[1; 17]) == (14, blank));
}

// The orders: register 2, 3; land 2, 4, 3; complete 15, 6, 7; all behind 1 and before 17.
fn refusal_order(tally: &mut Tally) {
    let mut full = open_iterator(5, 0, &[]).1;
    for _ in 0..64 {
        full = register(&full, 7).unwrap().0;
    }
    tally.check("register 2 before 3", register(&full, 0) == Err(2));
    tally.check("land 2 before 4", land(&full, 0) == Err(2));
    tally.check("land 4 before 3", land(&full, 7) == Err(4));
    let pending_full = admit(&full, Some(&[])).unwrap().0;
    tally.check("land 3", land(&pending_full, 7) == Err(3));
    tally.check("complete 15 before 6", complete(&full, ticket(0, 0), 2, 7) == Err(15));
    tally.check("complete 6 before 7", complete(&full, ticket(0, 0), 0, 7) == Err(6));
    tally.check("3 before 17", recorded(&full, 4096, Call::Register(7)) == Err(3));
    tally.check("17", recorded(&full, 4096, Call::Pop) == Err(17));
    tally.check("no 17 without a change", recorded(&full, 4096, Call::End) == Ok((full, None)));
    let at_top = register(&open_scope(5, TOP), 7).unwrap().0;
    tally.check("pop 5 before 17", recorded(&at_top, 4096, Call::Pop) == Err(5));
    let other = Ticket { domain: 6, ..ticket(63, 0) };
    let out = pop(&full).unwrap().0;
    tally.check("another domain", complete(&out, other, 0, 0) == Err(6));
}

// Records that are not well formed, each spoiled in one place.
fn broken_records(tally: &mut Tally) {
    let fine = register(&open_scope(5, 3), 7).unwrap().0;
    let out = pop(&fine).unwrap().0;
    let failed = complete(&out, ticket(0, 3), 1, 0).unwrap().0;
    let spoiled = [
        Queue { tokens: 65, ..fine },
        Queue { tokens: 0, ..fine },
        Queue { bound: 17, ..fine },
        Queue { bound: 1, ..fine },
        Queue { phase: Phase::Idle, ..fine },
        Queue { failed: true, ..fine },
        Queue { issued: true, ..fine },
        Queue { selected: Some(ticket(0, 3)), ..fine },
        Queue { selected: Some(ticket(1, 3)), ..out },
        Queue { domain: 6, ..out },
        Queue { next: 3, ..out },
        Queue { failed: true, ..out },
        Queue { issued: false, ..out },
        Queue { slots: fine.slots, ..out },
    ];
    for (place, queue) in spoiled.iter().enumerate() {
        tally.check(&format!("spoiled {place}"), !well_formed(queue) && pop(queue) == Err(1));
    }
    for queue in [fine, out, failed] {
        tally.check("well formed", well_formed(&queue));
    }
}

// Tokens given out and a list, with how many are taken and the refusal, for both readings of register_all.
fn whole_lists(tally: &mut Tally) {
    let many = [7; 1000];
    let cases: [(usize, &[u64], u64, u64); 14] = [
        (0, &[], 0, 0),
        (0, &[7, 8, 9], 3, 0),
        (0, &[7, 0, 9], 1, 2),
        (0, &[0, 7], 0, 2),
        (0, &many[..64], 64, 0),
        (0, &many[..65], 64, 3),
        (0, &many, 64, 3),
        (62, &[7, 8, 9], 2, 3),
        (62, &[7, 8, 0], 2, 2),
        (64, &[], 0, 0),
        (64, &[0], 0, 2),
        (64, &[7], 0, 3),
        (65, &[], 0, 1),
        (65, &[0], 0, 1),
    ];
    for (tokens, numbers, taken, refusal) in cases {
        let queue = Queue { tokens, ..open_scope(5, 0) };
        let took = sequences::plain(&mut queue.clone(), numbers);
        let right = took == Took { taken, refusal } && !atonce::plain_differs(&queue, numbers);
        tally.check(&format!("{} numbers behind {tokens} tokens", numbers.len()), right);
    }
}

// The same with a log: its words and used rows, tokens given out, a list; how many are taken, and the refusal.
fn whole_lists_recorded(tally: &mut Tally) {
    let cases: [(usize, u64, usize, &[u64], u64, u64); 14] = [
        (15, 0, 0, &[7, 8], 2, 0),
        (15, 0, 0, &[7, 8, 9, 10], 3, 17),
        (15, 0, 0, &[7, 8, 9, 0], 3, 2),
        (15, 0, 61, &[7, 8, 9, 10], 3, 3),
        (14, 2, 0, &[7], 0, 17),
        (15, 3, 0, &[], 0, 0),
        (15, 3, 0, &[0], 0, 2),
        (15, 3, 64, &[7], 0, 3),
        (15, 4, 0, &[], 0, 1),
        (20_500, 4095, 0, &[7, 8], 1, 17),
        (20_500, 4096, 0, &[7], 0, 17),
        (20_500, 4100, 0, &[], 0, 0),
        (20_500, 4101, 0, &[], 0, 1),
        (20_500, TOP, 0, &[7], 0, 1),
    ];
    for (words, used, tokens, numbers, taken, refusal) in cases {
        let queue = Queue { tokens, ..open_scope(5, 0) };
        let (mut log, mut rows) = (vec![0; words], used);
        let took = sequences::recorded(&mut queue.clone(), &mut log, &mut rows, numbers);
        let right = (took, rows) == (Took { taken, refusal }, used + taken)
            && !atonce::recorded_differs(&queue, &vec![0; words], used, numbers);
        tally.check(&format!("{numbers:?} behind {used} rows of {words} words"), right);
    }
}

// What is taken leaves what the single calls leave.
fn lists_as_single_calls(tally: &mut Tally) {
    let three =
        register(&register(&register(&open_scope(5, 0), 7).unwrap().0, 8).unwrap().0, 9).unwrap().0;
    for list in [&[7, 8, 9][..], &[7, 8, 9, 0, 10]] {
        let (mut queue, mut log, mut used) = (open_scope(5, 0), [900; 16], 0);
        sequences::recorded(&mut queue, &mut log, &mut used, list);
        tally.check("the queue of three single calls", queue == three && used == 3);
        let rows = [0, 0, 0, 0, 7, 0, 1, 0, 0, 8, 0, 2, 0, 0, 9, 900];
        tally.check("the rows of three single calls", log == rows);
    }
}

fn fixed_answers(tally: &mut Tally) {
    for case in fixed::all() {
        let want = format!("{}{}\r\n", text::HEADER, case.want);
        tally.check(case.name, text::answer(&case.text) == want.as_bytes());
    }
}

// Rules 0 (rows formed) to 6 that some fixed case breaks alone, with its first bad row as its last.
fn broken_alone(iterator: bool) -> [bool; 7] {
    let mut alone = [false; 7];
    for case in fixed::all() {
        let Reading::Log(opening, rows) = text::read(&case.text) else { continue };
        let Some(bad) = language::first_bad(&opening, &rows) else { continue };
        let holding = language::holding(&opening, &rows[..=bad]);
        let broken: Vec<usize> = (0..7).filter(|rule| !holding[*rule]).collect();
        if opening.iterator == iterator && broken.len() == 1 {
            alone[broken[0]] = true;
        }
    }
    alone
}

// A rule that no case breaks alone would be left untested.
fn rules_alone(tally: &mut Tally) {
    for iterator in [false, true] {
        for (rule, alone) in broken_alone(iterator).iter().enumerate() {
            tally.check(&format!("rule {rule} broken alone, iterator {iterator}"), *alone);
        }
    }
}

fn console_scripts(tally: &mut Tally) {
    for (name, right) in handwork::all() {
        tally.check(&name, right);
    }
}

// How many checks were done, or the names of those that failed.
pub fn run() -> Result<u64, Vec<String>> {
    let mut tally = Tally { done: 0, wrong: Vec::new() };
    let queue = marked_one_to_five(&mut tally);
    marked_six_to_nine(&mut tally, queue);
    marked_ten_to_twelve(&mut tally);
    phases(&mut tally);
    stage_answers(&mut tally);
    refusal_order(&mut tally);
    broken_records(&mut tally);
    whole_lists(&mut tally);
    whole_lists_recorded(&mut tally);
    lists_as_single_calls(&mut tally);
    fixed_answers(&mut tally);
    rules_alone(&mut tally);
    console_scripts(&mut tally);
    if tally.wrong.is_empty() {
        Ok(tally.done)
    } else {
        Err(tally.wrong)
    }
}
