// limits.rs: the texts at every limit, the same whatever the seed.

use crate::generate::{steady, written};
use crate::rows::{Opening, Row, TOP};
use crate::text::{MAX_BYTES, MAX_ROWS};

pub type Named = (&'static str, Vec<u8>);

const SCOPE: Opening = Opening { iterator: false, domain: 5, first: 0 };
const ITERATOR: Opening = Opening { iterator: true, domain: 5, first: 0 };
const WIDE: Opening = Opening { iterator: true, domain: TOP, first: TOP - 1000 };

pub fn all() -> Vec<Named> {
    let mut list = Vec::new();
    smallest(&mut list);
    row_counts(&mut list);
    behind_row_800(&mut list);
    byte_counts(&mut list);
    odd_large_texts(&mut list);
    births(&mut list);
    top_attempts(&mut list);
    list
}

fn smallest(list: &mut Vec<Named>) {
    let texts: [&[u8]; 8] = [b"", b"\r\n", b"\r", b"\n", b"0", b",", b"0,0,0,0,0", b"1,0,0,0,0\r\n"];
    for text in texts {
        list.push(("limit: smallest texts", text.to_vec()));
    }
}

fn scope_rows(count: usize) -> Vec<Row> {
    steady(SCOPE.first, 2, 71, count)
}

fn row_counts(list: &mut Vec<Named>) {
    for count in [798, 799, 800, 801, 802] {
        list.push(("limit: rows", written(&SCOPE, &scope_rows(count), true)));
        list.push(("limit: rows, no last CRLF", written(&SCOPE, &scope_rows(count), false)));
    }
    for bad in [0, 1, 400, 798, 799] {
        let mut rows = scope_rows(800);
        rows[bad][3] = 7;
        list.push(("limit: 800 rows, one bad", written(&SCOPE, &rows, true)));
    }
    let mut rows = scope_rows(801);
    rows[3][3] = 7;
    list.push(("limit: 801 rows, one bad", written(&SCOPE, &rows, true)));
}

// The text with one byte of this line, counted from 1, made a letter.
fn with_bad_line(text: &[u8], line: usize) -> Vec<u8> {
    let mut ends = vec![0];
    ends.extend((0..text.len()).filter(|place| text[*place] == b'\n').map(|place| place + 1));
    let mut text = text.to_vec();
    text[ends[line - 1]] = b'x';
    text
}

fn behind_row_800(list: &mut Vec<Named>) {
    let full = written(&SCOPE, &scope_rows(800), true);
    let tails: [&[u8]; 8] = [b"\r\n", b"\r", b"\n", b"x", b"0", b"0,0,0,0", b"8,8,8,8,8\r\n", b"\0"];
    for tail in tails {
        list.push(("limit: behind row 800", [&full[..], tail].concat()));
    }
    let over = written(&SCOPE, &scope_rows(803), true);
    for line in [1, 2, 800, 801, 802, 803, 804] {
        list.push(("limit: 803 rows, one bad line", with_bad_line(&over, line)));
    }
    for line in [1, 801] {
        list.push(("limit: 800 rows, one bad line", with_bad_line(&full, line)));
    }
}

// A well-formed line of this many bytes with its end, from 11 to 106: no good row has all digits 1.
fn wide_line(bytes: usize) -> String {
    let mut spare = bytes - 11;
    let mut columns = Vec::new();
    for _ in 0..5 {
        let more = spare.min(19);
        spare -= more;
        columns.push("1".repeat(1 + more));
    }
    columns.join(",") + "\r\n"
}

// Good rows and then wide ones, so that the text has exactly these bytes and no bad line.
fn wide_text(good: usize, bytes: usize) -> Vec<u8> {
    let mut text = written(&WIDE, &steady(WIDE.first, 11, TOP, good), true);
    while text.len() < bytes {
        let left = bytes - text.len();
        let take = if left > 117 { 106 } else if left > 106 { left - 11 } else { left };
        text.extend_from_slice(wide_line(take).as_bytes());
    }
    text
}

fn byte_counts(list: &mut Vec<Named>) {
    for bytes in [32_766, 32_767, 32_768, 32_769, 32_770, 33_000] {
        let text = wide_text(700, bytes);
        let open_end = wide_text(700, bytes + 2)[..bytes].to_vec();
        let lines = text.iter().filter(|byte| **byte == b'\n').count();
        list.push(("limit: bytes, bad row at 700", text.clone()));
        list.push(("limit: bytes, no last CRLF", open_end));
        list.push(("limit: bytes, bad last line", with_bad_line(&text, lines)));
        list.push(("limit: bytes, bad line 1", with_bad_line(&text, 1)));
        list.push(("limit: bytes, bad row at 1", wide_text(1, bytes)[..].to_vec()));
    }
}

// The longest good log: token 10 has two digits, and all else has twenty.
fn longest_good() -> Vec<u8> {
    written(&WIDE, &steady(WIDE.first, 11, TOP, MAX_ROWS), true)
}

fn odd_large_texts(list: &mut Vec<Named>) {
    list.push(("limit: longest good text", longest_good()));
    let short = written(&ITERATOR, &vec![[5, 0, 0, 0, 0]; 1500], true);
    list.push(("limit: 1,500 short rows", short));
    // 2,979 lines of 11 bytes are the first to be over the bytes.
    for count in [2977, 2978] {
        let many = written(&ITERATOR, &vec![[7, 0, 0, 0, 0]; count], true);
        list.push(("limit: 2,977 and 2,978 short rows", many));
    }
    for bytes in [MAX_BYTES, MAX_BYTES + 1] {
        list.push(("limit: one line of digits", vec![b'1'; bytes]));
        list.push(("limit: one line of zeros", vec![b'0'; bytes]));
        list.push(("limit: only LF", vec![b'\n'; bytes]));
        list.push(("limit: only CRLF", b"\r\n".repeat(MAX_BYTES)[..bytes].to_vec()));
    }
}

// Births by land, each behind its admit.
fn landed(count: u64) -> Vec<Row> {
    (0..count).flat_map(|token| [[5, 0, 0, 0, 0], [1, token, 0, 0, TOP - token]]).collect()
}

fn births(list: &mut Vec<Named>) {
    for count in [63, 64, 65, 66] {
        let registered = steady(0, count, 9, count as usize);
        list.push(("limit: births by register", written(&SCOPE, &registered, true)));
        list.push(("limit: births by land", written(&ITERATOR, &landed(count), true)));
        let tried = steady(0, count, 9, count as usize + 5);
        list.push(("limit: births, then tries", written(&ITERATOR, &tried, false)));
    }
    let mut mixed = landed(63);
    mixed.extend([[0, 63, 0, 0, 1], [5, 0, 0, 0, 0], [1, 64, 0, 0, 1]]);
    list.push(("limit: births, the 65th by land", written(&ITERATOR, &mixed, true)));
    let mut emptied: Vec<Row> = (0..64).map(|token| [0, token, 0, 0, 1 + token]).collect();
    for token in (0..64).rev() {
        emptied.extend([[2, token, 63 - token, 0, 0], [3, token, 63 - token, 0, 0]]);
    }
    list.push(("limit: 64 tokens emptied", written(&SCOPE, &emptied, true)));
    emptied.push([0, 64, 0, 0, 1]);
    list.push(("limit: a birth behind 64 done", written(&SCOPE, &emptied, true)));
}

// Tries of one token until no attempt is left, and one row more.
fn top_attempts(list: &mut Vec<Named>) {
    for spare in 0..5 {
        let opening = Opening { first: TOP - spare, ..ITERATOR };
        for rows in [1, 2, 3, 4, 6, 7, 9, 10, 12, 13, 15, 16] {
            let log = steady(opening.first, 1, TOP, rows);
            list.push(("limit: attempts at the top", written(&opening, &log, rows % 2 == 0)));
        }
    }
}
