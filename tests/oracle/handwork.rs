// handwork.rs: console scripts worked out by hand from the rules: W1 to W12, groups, whole lists registered, bad lines.

use crate::badlines;
use crate::console;

// A name, and each line (zeros behind it left out) with the whole line that must answer it.
type Case = (&'static str, &'static [(&'static str, &'static str)]);

const DONE: &str = "0,1,0,0,0,0,0";
const NO: &str = "0,1,0,0,0,0,0";
const YES: &str = "0,2,0,0,0,0,0";

const MARKED: &[Case] = &[
    ("W1", &[("0,5", DONE), ("12", DONE)]),
    (
        "W2 to W9",
        &[
            ("0,5", DONE),
            ("10,71", DONE),
            ("10,72", "0,1,1,0,0,0,0"),
            ("12", "0,2,5,1,0,72,0"),
            ("12", DONE),
            ("90,5", DONE),
            ("13,1,0,1,72", DONE),
            ("12", DONE),
            ("14", "0,1,5,1,1,0,0"),
            ("12", "0,2,5,1,1,72,0"),
            ("13,1,0,0,0", "6,0,0,0,0,0,0"),
            ("13,1,1,0,72", "7,0,72,0,0,0,0"),
            ("13,1,1,0,0", DONE),
            ("12", "0,2,5,0,2,71,0"),
            ("13,0,2,1,0", DONE),
            ("14", "20,0,0,0,0,0,0"),
            ("12", DONE),
        ],
    ),
    (
        "W2 to W9, recorded: the used count and the rows",
        &[
            ("0,5", DONE),
            ("30,71", "0,1,0,0,0,0,1"),
            ("30,72", "0,1,1,0,0,0,2"),
            ("32", "0,2,5,1,0,72,3"),
            ("32", "0,1,0,0,0,0,3"),
            ("90,5", "0,1,0,0,0,0,3"),
            ("33,1,0,1,72", "0,1,0,0,0,0,4"),
            ("34", "0,1,5,1,1,0,5"),
            ("33,1,0,0,0", "6,0,0,0,0,0,5"),
            ("32", "0,2,5,1,1,72,6"),
            ("33,1,1,0,72", "7,0,72,0,0,0,6"),
            ("33,1,1,0,0", "0,1,0,0,0,0,7"),
            ("38", "0,1,0,0,0,0,8"),
            ("38", "0,1,0,0,0,0,8"),
            ("135,40", "0,1,0,0,0,0,8"),
            (
                "142",
                "40,8,0,0,0,0,71,0,1,0,0,72,2,1,0,0,0,3,1,0,1,72,4,1,1,0,0,2,1,1,0,0,3,1,1,0,0,7,0,0,0,0",
            ),
            ("50,0,5,0", "0,1,8,0,0,0,8"),
            ("30,1", "17,0,1,0,0,0,8"),
            ("36", "0,1,0,0,0,0,8"),
            ("136,9", "0,1,0,0,0,0,9"),
            ("36", "1,0,0,0,0,0,9"),
            ("135,43", "0,1,0,0,0,0,9"),
            ("50,0,5,0", "16,0,8,0,0,0,9"),
            ("134,14,9", "0,1,0,0,0,0,9"),
            ("50,0,5,0", "16,0,2,0,0,0,9"),
        ],
    ),
    (
        "W2 to W8, lent",
        &[
            ("0,5", DONE),
            ("42", DONE),
            ("10,71", DONE),
            ("10,72", "0,1,1,0,0,0,0"),
            ("42", "0,2,5,1,0,72,0"),
            ("42", DONE),
            ("90,5", DONE),
            ("43,1,0,2,72", "15,0,72,0,0,0,0"),
            ("43,1,1,1,72", "6,0,72,0,0,0,0"),
            ("43,1,0,0,72", "7,0,72,0,0,0,0"),
            ("43,1,0,0,0", DONE),
            ("42", "0,2,5,0,1,71,0"),
        ],
    ),
    (
        "W10",
        &[
            ("0,5,18446744073709551614", DONE),
            ("10,9", DONE),
            ("12", "0,2,5,0,18446744073709551614,9,0"),
            ("90,5", DONE),
            ("13,0,18446744073709551614,1,9", DONE),
            ("26", NO),
            ("14", "21,0,0,0,0,0,0"),
            ("0,5,18446744073709551615", DONE),
            ("10,9", DONE),
            ("12", "5,0,0,0,0,0,0"),
        ],
    ),
    (
        "W11",
        &[
            ("121,4", DONE),
            ("121,9", DONE),
            ("1,5", DONE),
            ("120", DONE),
            ("121,9", DONE),
            ("121,4", DONE),
            ("27", YES),
            ("121,9", DONE),
            ("15", YES),
            ("27", NO),
            ("11,30", DONE),
            ("11,31", "4,0,31,0,0,0,0"),
            ("11,0", "2,0,0,0,0,0,0"),
            ("16", NO),
            ("23", NO),
            ("18", DONE),
            ("24", YES),
        ],
    ),
];

const GROUPS: &[Case] = &[
    (
        "ids and domains go on in opening order, the root first",
        &[
            ("60,100", DONE),
            ("109", NO),
            ("108", "0,1,1,0,0,0,0"),
            ("61", "0,1,1,0,0,0,0"),
            ("62", "0,1,2,0,0,0,0"),
            ("88", "0,1,100,0,0,0,0"),
            ("88,1", "0,1,101,0,0,0,0"),
            ("88,2", "0,1,102,0,0,0,0"),
            ("88,3", "10,0,0,0,0,0,0"),
            ("108", "0,1,3,0,0,0,0"),
            ("63", DONE),
            ("63", "10,0,0,0,0,0,0"),
            ("61", "0,1,3,0,0,0,0"),
            ("88,3", "0,1,103,0,0,0,0"),
            ("107", NO),
            ("107,3", YES),
        ],
    ),
    (
        "the largest base and one more",
        &[
            ("60,18446744073709486080", "19,0,0,0,0,0,0"),
            ("109", YES),
            ("61", DONE),
            ("88", DONE),
            ("60,18446744073709486079", DONE),
            ("88", "0,1,18446744073709486079,0,0,0,0"),
            ("61", "0,1,1,0,0,0,0"),
            ("88,1", "0,1,18446744073709486080,0,0,0,0"),
        ],
    ),
    (
        "the last id",
        &[
            ("60,18446744073709486079", DONE),
            ("131,1,65535", DONE),
            ("112", YES),
            ("62", "0,1,65535,0,0,0,0"),
            ("88,65535", "0,1,18446744073709551614,0,0,0,0"),
            ("112", NO),
            ("61", "19,0,0,0,0,0,0"),
            ("78,65535", DONE),
            ("63,65535", DONE),
            ("61", "19,0,0,0,0,0,0"),
            ("131,1,65537", DONE),
            ("61", "1,0,0,0,0,0,0"),
            ("112", "1,0,0,0,0,0,0"),
        ],
    ),
    (
        "close needs it drained: empty and settled",
        &[
            ("62", "0,1,1,0,0,0,0"),
            ("63,1", "13,0,0,0,0,0,0"),
            ("75,1", YES),
            ("63,1", "13,0,0,0,0,0,0"),
            ("77,1", YES),
            ("70,1,5", DONE),
            ("63,1", "13,0,0,0,0,0,0"),
            ("72,1", "0,2,1,0,0,5,0"),
            ("63,1", "13,0,0,0,0,0,0"),
            ("90,1", DONE),
            ("73,1,0,0,1", DONE),
            ("63,1", "13,0,0,0,0,0,0"),
            ("106", NO),
            ("74,1", "20,0,0,0,0,0,0"),
        ],
    ),
    (
        "seal, and what is refused after it",
        &[
            ("62", "0,1,1,0,0,0,0"),
            ("106", NO),
            ("64", "13,0,0,0,0,0,0"),
            ("78,1", DONE),
            ("106", YES),
            ("64", DONE),
            ("108", DONE),
            ("61", "12,0,0,0,0,0,0"),
            ("64", "12,0,0,0,0,0,0"),
            ("70,0,5", "10,0,5,0,0,0,0"),
            ("63,0", "10,0,0,0,0,0,0"),
            ("112", NO),
            ("109", YES),
            ("106", YES),
            ("132,0,1,1", DONE),
            ("89", NO),
        ],
    ),
    ("a reset has the root again", &[("64", DONE), ("150", DONE), ("108", "0,1,1,0,0,0,0")]),
    (
        "a group's own steps, and its neighbour stays",
        &[
            ("60,40", DONE),
            ("61", "0,1,1,0,0,0,0"),
            ("70,1,71", DONE),
            ("70,1,72", "0,1,1,0,0,0,0"),
            ("72,1", "0,2,41,1,0,72,0"),
            ("72", DONE),
            ("90,40,72", DONE),
            ("73,1,1,0,1", "6,0,72,0,0,0,0"),
            ("90,41,72", DONE),
            ("73,1,1,0,0", "7,0,72,0,0,0,0"),
            ("73,1,1,0,2", "15,0,72,0,0,0,0"),
            ("73,1,1,0,1", DONE),
            ("86,1", YES),
            ("74,1", "0,1,41,1,1,0,0"),
            ("72,1", "0,2,41,1,1,72,0"),
            ("80", YES),
            ("63", DONE),
        ],
    ),
    (
        "retry_all renews every failed one, or says no and changes nothing",
        &[
            ("104", NO),
            ("61", "0,1,1,0,0,0,0"),
            ("70,0,5", DONE),
            ("70,1,6", DONE),
            ("72", "0,2,0,0,0,5,0"),
            ("72,1", "0,2,1,0,0,6,0"),
            ("104", NO),
            ("90,0,5", DONE),
            ("73,0,0,0,1", DONE),
            ("103", YES),
            ("90,1,0", DONE),
            ("73,1,0,0,1", DONE),
            ("103", NO),
            ("104", NO),
            ("72", DONE),
            ("85", YES),
            ("133,1,3,0,6", DONE),
            ("103", YES),
            ("104", YES),
            ("102", NO),
            ("104", NO),
            ("72", "0,2,0,0,1,5,0"),
            ("72,1", "0,2,1,0,1,6,0"),
            ("132,9,0,1", DONE),
            ("104", "1,0,0,0,0,0,0"),
        ],
    ),
    (
        "can_finish asks of id 0 only that it is neither pending nor failed",
        &[
            ("121,4", DONE),
            ("121,9", DONE),
            ("62", "0,1,1,0,0,0,0"),
            ("70,0,5", DONE),
            ("78,0", DONE),
            ("105", YES),
            ("72", "0,2,0,0,0,5,0"),
            ("105", YES),
            ("121,9", DONE),
            ("105", YES),
            ("121,1", DONE),
            ("105", NO),
            ("120", DONE),
            ("87", NO),
            ("90,0,5", DONE),
            ("73,0,0,0,1", DONE),
            ("121,4", DONE),
            ("121,9", DONE),
            ("105", NO),
            ("87,1", YES),
        ],
    ),
    (
        "can_finish: id 0 an iterator, which only an empty record can open, pending and not",
        &[
            ("60,18446744073709551615", "19,0,0,0,0,0,0"),
            ("62", DONE),
            ("121,3", DONE),
            ("105", YES),
            ("120", DONE),
            ("75", YES),
            ("105", NO),
            ("100", YES),
            ("77", YES),
            ("105", YES),
            ("100", NO),
        ],
    ),
    (
        "has_issued and accepts_acquisition",
        &[
            ("101", NO),
            ("111", YES),
            ("62", "0,1,1,0,0,0,0"),
            ("111,1", YES),
            ("111,2", "10,0,0,0,0,0,0"),
            ("70,1,5", DONE),
            ("72,1", "0,2,1,0,0,5,0"),
            ("101", YES),
            ("75,1", YES),
            ("78,1", DONE),
            ("111,1", NO),
            ("71,1,8", "0,1,1,0,0,0,0"),
            ("71,1,8", "4,0,8,0,0,0,0"),
        ],
    ),
    (
        "a free place must be blank, and 1 comes before all",
        &[
            ("89", YES),
            ("132,5,0,1", DONE),
            ("89", NO),
            ("70,7,0", "1,0,0,0,0,0,0"),
            ("70,0,9", "1,0,9,0,0,0,0"),
            ("110,0", "1,0,0,0,0,0,0"),
            ("108", "1,0,0,0,0,0,0"),
            ("132,5,0,0", DONE),
            ("89", YES),
            ("133,5,2,0,1", DONE),
            ("89", NO),
            ("133,5,2,0,0", DONE),
            ("133,0,1,0,1", DONE),
            ("80", "1,0,0,0,0,0,0"),
            ("60,3", DONE),
            ("89", YES),
        ],
    ),
    (
        "two live ids the same",
        &[
            ("61", "0,1,1,0,0,0,0"),
            ("132,1,0,0", DONE),
            ("133,1,1,0,0", DONE),
            ("89", NO),
            ("64", "1,0,0,0,0,0,0"),
            ("132,1,0,1", DONE),
            ("133,1,1,0,1", DONE),
            ("64", DONE),
        ],
    ),
];

const SEQUENCES: &[Case] = &[
    (
        "register_all: in turn, up to the first refusal, and what was taken stays",
        &[
            ("0,5", DONE),
            ("19", DONE),
            ("121,71", DONE),
            ("121,72", DONE),
            ("19", "0,1,2,0,0,0,0"),
            ("121,0", DONE),
            ("121,73", DONE),
            ("19", "2,0,2,0,0,0,0"),
            ("12", "0,2,5,3,0,72,0"),
            ("130,4,0,63", DONE),
            ("19", "3,0,1,0,0,0,0"),
            ("19", "3,0,0,0,0,0,0"),
            ("120", DONE),
            ("19", DONE),
            ("121,0", DONE),
            ("19", "2,0,0,0,0,0,0"),
            ("130,9,0,1", DONE),
            ("19", "1,0,0,0,0,0,0"),
            ("120", DONE),
            ("19", "1,0,0,0,0,0,0"),
        ],
    ),
    (
        "register_all, recorded: rows for what is taken, 17 behind 2 and 3, never for an empty list",
        &[
            ("0,5", DONE),
            ("135,14", DONE),
            ("121,71", DONE),
            ("121,72", DONE),
            ("121,73", DONE),
            ("39", "17,0,2,0,0,0,2"),
            ("142", "14,2,0,0,0,0,71,0,1,0,0,72,0,0,0,0"),
            ("12", "0,2,5,1,0,72,2"),
            ("39", "17,0,0,0,0,0,2"),
            ("130,4,0,64", "0,1,0,0,0,0,2"),
            ("39", "3,0,0,0,0,0,2"),
            ("120", "0,1,0,0,0,0,2"),
            ("39", "0,1,0,0,0,0,2"),
            ("121,0", "0,1,0,0,0,0,2"),
            ("39", "2,0,0,0,0,0,2"),
            ("136,3", "0,1,0,0,0,0,3"),
            ("39", "1,0,0,0,0,0,3"),
            ("120", "0,1,0,0,0,0,3"),
            ("39", "1,0,0,0,0,0,3"),
            ("136,1", "0,1,0,0,0,0,1"),
            ("130,4,0,63", "0,1,0,0,0,0,1"),
            ("121,74", "0,1,0,0,0,0,1"),
            ("121,75", "0,1,0,0,0,0,1"),
            ("39", "3,0,1,0,0,0,2"),
            ("142", "14,2,0,0,0,0,71,0,63,0,0,74,0,0,0,0"),
        ],
    ),
    (
        "register_all of a group: 1, 10, then as the queue, and its neighbour stays",
        &[
            ("61", "0,1,1,0,0,0,0"),
            ("79,2", "10,0,0,0,0,0,0"),
            ("79,1", DONE),
            ("121,0", DONE),
            ("79,2", "10,0,0,0,0,0,0"),
            ("79,1", "2,0,0,0,0,0,0"),
            ("120", DONE),
            ("121,71", DONE),
            ("121,72", DONE),
            ("79,1", "0,1,2,0,0,0,0"),
            ("72,1", "0,2,1,1,0,72,0"),
            ("80,0", YES),
            ("133,1,4,0,63", DONE),
            ("79,1", "3,0,1,0,0,0,0"),
            ("79,2", "10,0,0,0,0,0,0"),
            ("132,5,0,1", DONE),
            ("79,1", "1,0,0,0,0,0,0"),
            ("79,2", "1,0,0,0,0,0,0"),
            ("120", DONE),
            ("79,0", "1,0,0,0,0,0,0"),
            ("132,5,0,0", DONE),
            ("79,0", DONE),
        ],
    ),
];

fn cases() -> impl Iterator<Item = &'static Case> {
    MARKED.iter().chain(GROUPS).chain(SEQUENCES)
}

// A script line with its zeros.
fn whole(short: &str) -> String {
    let columns = short.split(',').count();
    format!("{short}{}\r\n", ",0".repeat(5 - columns))
}

fn case_right(case: &Case) -> bool {
    let script: String = case.1.iter().map(|(line, _)| whole(line)).collect();
    let want: String = case.1.iter().map(|(_, answer)| format!("{answer}\r\n")).collect();
    console::output(script.as_bytes()) == want.as_bytes()
}

// The script's last answers, as many as are given.
fn ends_with(script: &str, answers: &[&str]) -> bool {
    let out = console::output(script.as_bytes());
    let want: String = answers.iter().map(|answer| format!("{answer}\r\n")).collect();
    out.ends_with(want.as_bytes())
}

fn twelfth() -> bool {
    let full = whole("0,5") + &whole("10,7").repeat(64) + &whole("10,7");
    ends_with(&full, &["0,1,62,0,0,0,0", "0,1,63,0,0,0,0", "3,0,7,0,0,0,0"])
}

// Sixteen live with the root; the orders 14 before 11, 11 before 19; a freed place takes the next id.
fn seventeenth_group() -> bool {
    let sixteen = whole("61").repeat(15);
    let full = sixteen.clone() + &whole("61") + &whole("131,1,65536") + &whole("61");
    let long_list = sixteen.clone() + &whole("121,1").repeat(17) + &whole("62");
    let freed = sixteen + &whole("63,3") + &whole("61") + &whole("132,3,0,16") + &whole("89");
    ends_with(&full, &["11,0,0,0,0,0,0", DONE, "11,0,0,0,0,0,0"])
        && ends_with(&long_list, &["14,0,0,0,0,0,0"])
        && ends_with(&freed, &["0,1,16,0,0,0,0", DONE, YES])
}

fn sealed_before_bindings() -> bool {
    let script = whole("64") + &whole("121,1").repeat(17) + &whole("62");
    ends_with(&script, &["12,0,0,0,0,0,0"])
}

// The blank queue's 92 decimals: a scope, Ended.
fn blank_line() -> String {
    format!("{}2,{}", "0,".repeat(74), ["0"; 17].join(","))
}

// A queue of one popped token in the first group behind the root, as get shows it.
fn got_queue() -> bool {
    let script = ["60,40", "121,4", "62", "70,1,77", "72,1", "110,1", "141", "110,9", "141"];
    let script: String = script.iter().map(|line| whole(line)).collect();
    let slots = "0,".repeat(64);
    let line = format!("1,41,1,{slots}1,1,41,0,0,0,1,0,4,{}1", "0,".repeat(15));
    ends_with(&script, &[DONE, &line, "10,0,0,0,0,0,0", &line])
}

// At the start the root is live in place 0; a refused new record has no live group.
fn shows() -> bool {
    let script = whole("140") + &whole("141") + &whole("143") + &whole("135,3") + &whole("142");
    let blank = blank_line();
    let free = format!("0,0,{blank}\r\n");
    let start = format!("0,1,0\r\n0,1,{blank}\r\n{}", free.repeat(15));
    let want = format!("{blank}\r\n{blank}\r\n{start}{DONE}\r\n3,0,0,0,0\r\n");
    let refused = whole("60,18446744073709486080") + &whole("143");
    let empty = format!("19,0,0,0,0,0,0\r\n0,0,0\r\n{}", free.repeat(16));
    blank.split(',').count() == 92
        && console::output(script.as_bytes()) == want.as_bytes()
        && console::output(refused.as_bytes()) == empty.as_bytes()
}

// The bad line is answered with its number and the used count; the call behind it is not run.
fn bad_line_right(bad: &badlines::BadLine) -> bool {
    let lead = badlines::lead(bad);
    let lines = lead.iter().filter(|byte| **byte == b'\n').count();
    let script =
        [b"30,5,0,0,0\r\n", &lead[..], bad.line.as_bytes(), b"\r\n12,0,0,0,0\r\n"].concat();
    let answers = "0,1,0,0,0,0,1\r\n".repeat(lines + 1);
    let want = format!("{answers}18,0,{},0,0,0,1\r\n", lines + 2);
    console::output(&script) == want.as_bytes()
}

// The last values that can be set; each answers done.
const SETTABLE: [&str; 16] = [
    "130,0,9,1",
    "130,3,63,1",
    "130,5,0,1",
    "130,11,0,4",
    "130,12,15,1",
    "130,13,0,18446744073709551615",
    "130,4,0,18446744073709551615",
    "131,0,18446744073709551615",
    "131,2,1",
    "132,15,1,1",
    "133,15,13,0,17",
    "134,20499,1",
    "135,20500",
    "90,18446744073709551615,18446744073709551615",
    "120,7,7,7,7",
    "150,18446744073709551615",
];

fn odd_ends() -> bool {
    let done = format!("{DONE}\r\n");
    console::output(b"12,0,0,0,0") == done.as_bytes()
        && console::output(b"12,0,0,0,0\r\n") == done.as_bytes()
        && console::output(b"12,7,8,9,18446744073709551615") == done.as_bytes()
        && console::output(b"12,0,0,0,0\r\n\r\n") == format!("{done}18,0,2,0,0,0,0\r\n").as_bytes()
        && console::output(b"") == b"18,0,1,0,0,0,0\r\n"
}

// All cases as one script with the answers as they stand here, parted by resets and ended by a bad line.
pub fn one_script() -> (Vec<u8>, Vec<u8>) {
    let (mut script, mut want) = (String::new(), String::new());
    for (line, answer) in cases().flat_map(|case| case.1.iter().chain(&[("150", DONE)])) {
        script += &whole(line);
        want += &format!("{answer}\r\n");
    }
    let lines = script.lines().count();
    script += &whole("200");
    want += &format!("18,0,{},0,0,0,0\r\n", lines + 1);
    (script.into_bytes(), want.into_bytes())
}

// Every check with its name.
pub fn all() -> Vec<(String, bool)> {
    let mut checks: Vec<(String, bool)> = Vec::new();
    for case in cases() {
        checks.push((format!("console: {}", case.0), case_right(case)));
    }
    let (script, want) = one_script();
    checks.push(("console: all cases as one script".to_string(), console::output(&script) == want));
    checks.push(("console: W12".to_string(), twelfth()));
    checks.push(("console: the 17th group".to_string(), seventeenth_group()));
    checks.push(("console: 12 before 14".to_string(), sealed_before_bindings()));
    checks.push(("console: get".to_string(), got_queue()));
    checks.push(("console: shows".to_string(), shows()));
    checks.push(("console: ends of the text".to_string(), odd_ends()));
    for bad in badlines::ALL {
        checks.push((format!("console: bad line, {}", bad.name), bad_line_right(bad)));
    }
    for line in SETTABLE {
        checks.push((format!("console: {line}"), ends_with(&whole(line), &[DONE])));
    }
    checks
}
