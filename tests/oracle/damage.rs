// damage.rs: ways to spoil a good log: in its rows, in its lines and in its bytes.

use crate::generate::{number, Sheet};
use crate::random::Random;
use crate::rows::{Row, TOP};

pub type RowDamage = fn(&mut Random, &mut Vec<Row>);
pub type SheetDamage = fn(&mut Random, &mut Sheet);
pub type ByteDamage = fn(&mut Random, &mut Vec<u8>);

pub const ROW_DAMAGES: [(&str, RowDamage); 14] = [
    ("column to a neighbour", column_neighbour),
    ("column to 0", column_zero),
    ("column to a random number", column_random),
    ("column of another row", column_of_another),
    ("token or attempt to a neighbour", ticket_neighbour),
    ("kind changed", kind_changed),
    ("row dropped", row_dropped),
    ("row doubled", row_doubled),
    ("row copied elsewhere", row_copied),
    ("two rows swapped", rows_swapped),
    ("two adjacent rows swapped", neighbours_swapped),
    ("small row put in", small_row_put_in),
    ("small row at the end", small_row_at_end),
    ("kept number of a complete changed", kept_changed),
];

pub const SHEET_DAMAGES: [(&str, SheetDamage); 17] = [
    ("leading zero", leading_zero),
    ("sign", sign),
    ("space", space),
    ("quote", quote),
    ("column dropped", column_dropped),
    ("column added", column_added),
    ("column emptied", column_emptied),
    ("18446744073709551616", just_too_large),
    ("20 digits", twenty_digits),
    ("21 digits", twenty_one_digits),
    ("18446744073709551615", largest),
    ("wrong opening kind", opening_kind),
    ("opening's last columns", opening_tail),
    ("opening missing or doubled", opening_missing),
    ("empty line", empty_line),
    ("bad row, then bad line", bad_row_and_line),
    ("letter in a number", letter),
];

pub const BYTE_DAMAGES: [(&str, ByteDamage); 13] = [
    ("byte changed", byte_changed),
    ("byte inserted", byte_inserted),
    ("byte deleted", byte_deleted),
    ("text byte changed", text_byte_changed),
    ("cut anywhere", cut),
    ("CR dropped", cr_dropped),
    ("LF dropped", lf_dropped),
    ("CRLF turned round", end_turned_round),
    ("all ends LF", all_ends_lf),
    ("CR or LF doubled", end_doubled),
    ("several bytes changed", several_bytes),
    ("bytes behind the end", bytes_behind),
    ("bytes before the start", bytes_before),
];

// Any row over small numbers, good or not.
pub fn small_row(random: &mut Random) -> Row {
    let kind = random.below(9);
    let token = random.below(3);
    let attempt = random.below(4);
    let outcome = random.below(3);
    let number = random.pick(&[0, 5]);
    match kind {
        0 | 1 => [kind, token, 0, 0, number],
        2 | 4 => [kind, token, attempt, 0, 0],
        3 => [kind, token, attempt, outcome, number],
        5..=7 => [kind, 0, 0, 0, 0],
        _ => [random.pick(&[8, 9, TOP, 0, 5]), token, attempt, outcome, number],
    }
}

fn column_neighbour(random: &mut Random, rows: &mut Vec<Row>) {
    let (row, column) = (random.place(rows.len()), random.place(5));
    let step = random.pick(&[1, TOP]);
    rows[row][column] = rows[row][column].wrapping_add(step);
}

fn column_zero(random: &mut Random, rows: &mut Vec<Row>) {
    let (row, column) = (random.place(rows.len()), random.place(5));
    rows[row][column] = 0;
}

fn column_random(random: &mut Random, rows: &mut Vec<Row>) {
    let (row, column) = (random.place(rows.len()), random.place(5));
    rows[row][column] = random.word();
}

fn column_of_another(random: &mut Random, rows: &mut Vec<Row>) {
    let (row, column) = (random.place(rows.len()), random.place(5));
    rows[row][column] = rows[random.place(rows.len())][column];
}

fn ticket_neighbour(random: &mut Random, rows: &mut Vec<Row>) {
    let (row, column) = (random.place(rows.len()), random.between(1, 2));
    let step = random.pick(&[1, 2, TOP]);
    rows[row][column] = rows[row][column].wrapping_add(step);
}

fn kind_changed(random: &mut Random, rows: &mut Vec<Row>) {
    let row = random.place(rows.len());
    rows[row][0] = random.below(9);
}

fn row_dropped(random: &mut Random, rows: &mut Vec<Row>) {
    rows.remove(random.place(rows.len()));
}

fn row_doubled(random: &mut Random, rows: &mut Vec<Row>) {
    let place = random.place(rows.len());
    rows.insert(place, rows[place]);
}

fn row_copied(random: &mut Random, rows: &mut Vec<Row>) {
    let row = random.pick(rows);
    rows.insert(random.place(rows.len() + 1), row);
}

fn rows_swapped(random: &mut Random, rows: &mut Vec<Row>) {
    let (one, other) = (random.place(rows.len()), random.place(rows.len()));
    rows.swap(one, other);
}

fn neighbours_swapped(random: &mut Random, rows: &mut Vec<Row>) {
    if rows.len() > 1 {
        let place = random.place(rows.len() - 1);
        rows.swap(place, place + 1);
    }
}

fn small_row_put_in(random: &mut Random, rows: &mut Vec<Row>) {
    let row = small_row(random);
    rows.insert(random.place(rows.len() + 1), row);
}

fn small_row_at_end(random: &mut Random, rows: &mut Vec<Row>) {
    rows.push(small_row(random));
}

fn kept_changed(random: &mut Random, rows: &mut Vec<Row>) {
    let completes: Vec<usize> = (0..rows.len()).filter(|place| rows[*place][0] == 3).collect();
    if completes.is_empty() {
        return column_neighbour(random, rows);
    }
    let place = random.pick(&completes);
    let other = number(random);
    rows[place][4] = random.pick(&[0, 0, 1, other]);
    if random.chance(300) {
        rows[place][3] = random.below(3);
    }
}

// A line and a column of it; an opening is as likely as any other line.
fn some_cell<'a>(random: &mut Random, sheet: &'a mut Sheet) -> &'a mut String {
    let line = random.place(sheet.len());
    let column = random.place(sheet[line].len());
    &mut sheet[line][column]
}

fn put_in(random: &mut Random, sheet: &mut Sheet, piece: &str) {
    let cell = some_cell(random, sheet);
    let place = random.pick(&[0, cell.len()]);
    cell.insert_str(place, piece);
}

fn leading_zero(random: &mut Random, sheet: &mut Sheet) {
    some_cell(random, sheet).insert(0, '0');
}

fn sign(random: &mut Random, sheet: &mut Sheet) {
    let sign = random.pick(&['+', '-']);
    some_cell(random, sheet).insert(0, sign);
}

fn space(random: &mut Random, sheet: &mut Sheet) {
    let space = random.pick(&[" ", "\t", "\u{a0}", "  "]);
    put_in(random, sheet, space);
}

fn quote(random: &mut Random, sheet: &mut Sheet) {
    let cell = some_cell(random, sheet);
    *cell = match random.below(3) {
        0 => format!("\"{cell}\""),
        1 => format!("\"{cell}"),
        _ => format!("'{cell}'"),
    };
}

fn column_dropped(random: &mut Random, sheet: &mut Sheet) {
    let line = random.place(sheet.len());
    let column = random.place(sheet[line].len());
    sheet[line].remove(column);
}

fn column_added(random: &mut Random, sheet: &mut Sheet) {
    let line = random.place(sheet.len());
    let column = random.place(sheet[line].len() + 1);
    let cell = random.pick(&["", "0", "1"]).to_string();
    sheet[line].insert(column, cell);
}

fn column_emptied(random: &mut Random, sheet: &mut Sheet) {
    some_cell(random, sheet).clear();
}

fn just_too_large(random: &mut Random, sheet: &mut Sheet) {
    *some_cell(random, sheet) = "18446744073709551616".to_string();
}

fn largest(random: &mut Random, sheet: &mut Sheet) {
    *some_cell(random, sheet) = TOP.to_string();
}

// A first digit 1 keeps about four in five of these within u64.
fn twenty_digits(random: &mut Random, sheet: &mut Sheet) {
    let first = random.pick(&["1", "1", "1", "2", "9"]);
    let rest = format!("{:019}", random.below(10_000_000_000_000_000_000));
    *some_cell(random, sheet) = format!("{first}{rest}");
}

fn twenty_one_digits(random: &mut Random, sheet: &mut Sheet) {
    let first = random.pick(&["10", "18", "99", "36"]);
    let rest = format!("{:019}", random.below(10_000_000_000_000_000_000));
    *some_cell(random, sheet) = format!("{first}{rest}");
}

fn opening_kind(random: &mut Random, sheet: &mut Sheet) {
    sheet[0][0] = random.pick(&["2", "3", "10", "18446744073709551615", "01"]).to_string();
}

fn opening_tail(random: &mut Random, sheet: &mut Sheet) {
    let column = random.between(3, 4);
    sheet[0][column] = random.pick(&["1", "2", "18446744073709551615", "00"]).to_string();
}

fn opening_missing(random: &mut Random, sheet: &mut Sheet) {
    if random.chance(500) {
        sheet.remove(0);
    } else {
        sheet.insert(1, sheet[0].clone());
    }
}

fn empty_line(random: &mut Random, sheet: &mut Sheet) {
    sheet.insert(random.place(sheet.len() + 1), Vec::new());
}

fn bad_row_and_line(random: &mut Random, sheet: &mut Sheet) {
    let row = random.place(sheet.len());
    sheet.insert(row + 1, vec!["8".to_string(); 5]);
    let line = random.between(row + 1, sheet.len() - 1);
    sheet[line].pop();
}

fn letter(random: &mut Random, sheet: &mut Sheet) {
    let letter = random.pick(&["a", "O", "l", "e", "x", "_", ".", "\u{663}", ":", "/"]);
    put_in(random, sheet, letter);
}

fn text_byte(random: &mut Random) -> u8 {
    random.pick(b"0123456789,,\r\n")
}

fn byte_changed(random: &mut Random, text: &mut Vec<u8>) {
    let place = random.place(text.len());
    text[place] = random.word() as u8;
}

fn byte_inserted(random: &mut Random, text: &mut Vec<u8>) {
    let byte = text_byte(random);
    text.insert(random.place(text.len() + 1), byte);
}

fn byte_deleted(random: &mut Random, text: &mut Vec<u8>) {
    text.remove(random.place(text.len()));
}

fn text_byte_changed(random: &mut Random, text: &mut Vec<u8>) {
    let place = random.place(text.len());
    text[place] = text_byte(random);
}

fn cut(random: &mut Random, text: &mut Vec<u8>) {
    text.truncate(random.place(text.len() + 1));
}

// The places of a byte; there may be none when the text is one line without its end.
fn places_of(text: &[u8], byte: u8) -> Vec<usize> {
    (0..text.len()).filter(|place| text[*place] == byte).collect()
}

fn dropped(random: &mut Random, text: &mut Vec<u8>, byte: u8) {
    let places = places_of(text, byte);
    if !places.is_empty() {
        text.remove(random.pick(&places));
    }
}

fn cr_dropped(random: &mut Random, text: &mut Vec<u8>) {
    dropped(random, text, b'\r');
}

fn lf_dropped(random: &mut Random, text: &mut Vec<u8>) {
    dropped(random, text, b'\n');
}

fn end_turned_round(random: &mut Random, text: &mut Vec<u8>) {
    let places = places_of(text, b'\n');
    if !places.is_empty() {
        let place = random.pick(&places);
        text.swap(place - 1, place);
    }
}

fn all_ends_lf(_random: &mut Random, text: &mut Vec<u8>) {
    text.retain(|byte| *byte != b'\r');
}

fn end_doubled(random: &mut Random, text: &mut Vec<u8>) {
    let byte = random.pick(b"\r\n");
    let places = places_of(text, byte);
    if !places.is_empty() {
        text.insert(random.pick(&places), byte);
    }
}

fn several_bytes(random: &mut Random, text: &mut Vec<u8>) {
    for _ in 0..random.between(2, 8) {
        let place = random.place(text.len());
        text[place] = if random.chance(700) { text_byte(random) } else { random.word() as u8 };
    }
}

fn bytes_behind(random: &mut Random, text: &mut Vec<u8>) {
    let tails: [&[u8]; 8] = [b"\r", b"\n", b"\r\n", b"\0", b"\x1a", b"0", b" ", b"\r\n\r\n"];
    text.extend_from_slice(random.pick(&tails));
}

fn bytes_before(random: &mut Random, text: &mut Vec<u8>) {
    let heads: [&[u8]; 7] = [b"\xEF\xBB\xBF", b"\r\n", b"\n", b" ", b"0", b"0,", b"\0"];
    let head = random.pick(&heads);
    text.splice(0..0, head.iter().copied());
}
