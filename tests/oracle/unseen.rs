// unseen.rs: which records calls have met since they were last shown, so that none goes unseen.

// The queue, `seen`, the log and the group record, in the order of the lines that show them, 140 to 143.
pub type Records = [bool; 4];

pub const LOG: usize = 2;

// What a call could have changed, rightly or not.
pub fn met(number: u64) -> Records {
    let queue = number <= 43;
    let seen = matches!(number, 50 | 110);
    let log = (30..=39).contains(&number);
    let groups = matches!(number, 60..=89 | 100..=112);
    [queue, seen, log, groups]
}

// What a line writes over, in part or whole.
pub fn overwritten(number: u64) -> Records {
    let all = number == 150;
    let queue = all || matches!(number, 0 | 1 | 130);
    let seen = all || matches!(number, 50 | 110);
    let log = all || number == 134;
    let groups = all || matches!(number, 60 | 131..=133);
    [queue, seen, log, groups]
}

// What is still unseen after this line; a reset makes everything new.
pub fn after(unseen: Records, number: u64) -> Records {
    if number == 150 {
        return [false; 4];
    }
    let met = met(number);
    let shown = |place: usize| number == 140 + place as u64;
    std::array::from_fn(|place| (unseen[place] && !shown(place)) || met[place])
}

// What this line would write over before it was shown.
pub fn lost(unseen: Records, number: u64) -> Records {
    let overwritten = overwritten(number);
    std::array::from_fn(|place| unseen[place] && overwritten[place])
}
