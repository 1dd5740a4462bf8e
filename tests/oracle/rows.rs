// rows.rs: a log row, a driver's opening and the five visible counts, as plain data.

pub const TOP: u64 = u64::MAX;

// The longest log that R77 allows; both readings name it, so it stands here.
pub const LOG_ROWS: usize = 4096;

// kind, token, attempt, outcome, number
pub type Row = [u64; 5];

#[derive(Clone, Copy, PartialEq, Eq, Debug)]
pub struct Opening {
    pub iterator: bool,
    pub domain: u64,
    pub first: u64,
}

#[derive(Clone, Copy, PartialEq, Eq, Debug)]
pub struct Counts {
    pub tokens: u64,
    pub waiting: u64,
    pub selected: bool,
    pub issued: bool,
    pub failed: bool,
}
