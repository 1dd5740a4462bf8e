// badlines.rs: each kind of bad line, as bytes, with the lines that must stand before it.

use crate::maker::Maker;

pub struct BadLine {
    pub name: &'static str,
    pub before: &'static str,
    pub line: &'static str,
}

const fn bad(name: &'static str, line: &'static str) -> BadLine {
    BadLine { name, before: "", line }
}

pub const ALL: &[BadLine] = &[
    bad("empty line", ""),
    bad("four numbers", "12,0,0,0"),
    bad("six numbers", "12,0,0,0,0,0"),
    bad("one number", "12"),
    bad("an empty column", "12,,0,0,0"),
    bad("an empty last column", "12,0,0,0,"),
    bad("a leading zero", "012,0,0,0,0"),
    bad("two zeros", "12,00,0,0,0"),
    bad("a sign", "12,+1,0,0,0"),
    bad("a minus", "12,-1,0,0,0"),
    bad("a space", "12, 0,0,0,0"),
    bad("a space at the end", "12,0,0,0,0 "),
    bad("a quote", "\"12\",0,0,0,0"),
    bad("a letter", "12,0,x,0,0"),
    bad("a number past u64", "12,18446744073709551616,0,0,0"),
    bad("21 digits", "12,100000000000000000000,0,0,0"),
    bad("LF alone ends the line", "12,0,0,0,0\n12,0,0,0,0"),
    bad("CR alone ends the line", "12,0,0,0,0\r12,0,0,0,0"),
    bad("LF at the end", "12,0,0,0,0\n"),
    bad("a byte above 127", "12,0,0,0,\u{e9}"),
    bad("a byte 0", "12,0,0,0,\0"),
    bad("no call 2", "2,0,0,0,0"),
    bad("no call 9", "9,0,0,0,0"),
    bad("no call 40", "40,0,0,0,0"),
    bad("no call 41", "41,0,0,0,0"),
    bad("no call 44", "44,0,0,0,0"),
    bad("no call 49", "49,0,0,0,0"),
    bad("no call 51", "51,0,0,0,0"),
    bad("no call 65", "65,0,0,0,0"),
    bad("no call 69", "69,0,0,0,0"),
    bad("no call 91", "91,0,0,0,0"),
    bad("no call 99", "99,0,0,0,0"),
    bad("no call 113", "113,0,0,0,0"),
    bad("no call 119", "119,0,0,0,0"),
    bad("no call 122", "122,0,0,0,0"),
    bad("no call 137", "137,0,0,0,0"),
    bad("no call 144", "144,0,0,0,0"),
    bad("no call 149", "149,0,0,0,0"),
    bad("no call 151", "151,0,0,0,0"),
    bad("no call, the largest number", "18446744073709551615,0,0,0,0"),
    bad("no call, 256 more than a call", "268,0,0,0,0"),
    bad("no call, 2 to the 32 more than a call", "4294967308,0,0,0,0"),
    bad("reader of kind 2", "50,2,0,0,0"),
    bad("reader of the largest kind", "50,18446744073709551615,0,0,0"),
    bad("queue kind 2", "130,0,0,2,0"),
    bad("slot 64", "130,3,64,1,0"),
    bad("slot 2 to the 32", "130,3,4294967296,1,0"),
    bad("selected 2", "130,5,0,2,0"),
    bad("failed 2", "130,9,0,2,0"),
    bad("issued 2", "130,10,0,2,0"),
    bad("phase 5", "130,11,0,5,0"),
    bad("binding 16", "130,12,16,1,0"),
    bad("queue field 14", "130,14,0,0,0"),
    bad("the largest queue field", "130,18446744073709551615,0,0,0"),
    bad("sealed 2", "131,2,2,0,0"),
    bad("record field 3", "131,3,0,0,0"),
    bad("place 16", "132,16,0,0,0"),
    bad("place field 2", "132,0,2,0,0"),
    bad("live 2", "132,0,1,2,0"),
    bad("queue of place 16", "133,16,1,0,0"),
    bad("field 14 of a place's queue", "133,0,14,0,0"),
    bad("slot 64 of a place's queue", "133,0,3,64,0"),
    bad("binding 16 of a place's queue", "133,0,12,16,0"),
    bad("phase 5 of a place's queue", "133,0,11,0,5"),
    bad("kind 2 of a place's queue", "133,0,0,0,2"),
    bad("word 20,500", "134,20500,0,0,0"),
    bad("the largest word", "134,18446744073709551615,0,0,0"),
    bad("20,501 words lent", "135,20501,0,0,0"),
    bad("the most words lent", "135,18446744073709551615,0,0,0"),
    BadLine { name: "the 65th of the list", before: "list", line: "121,7,0,0,0" },
];

// What stands before the bad line: 64 numbers in the list, or nothing.
pub fn lead(bad: &BadLine) -> Vec<u8> {
    match bad.before {
        "list" => b"121,1,0,0,0\r\n".repeat(64),
        _ => Vec::new(),
    }
}

// The script's last lines: a reset, a call, the seed's bad line, and a call that must not be answered.
pub fn end(maker: &mut Maker, seed: u64) {
    maker.reset();
    maker.say(&[30, 5]);
    let chosen = &ALL[(seed % ALL.len() as u64) as usize];
    if chosen.before == "list" {
        maker.list(&[1; 64]);
    }
    let lines = maker.script.iter().filter(|byte| **byte == b'\n').count();
    maker.script.extend_from_slice(chosen.line.as_bytes());
    maker.script.extend_from_slice(b"\r\n12,0,0,0,0");
    maker.console.bad_line(lines + 1, &mut maker.want);
    maker.seen.bad_lines += 1;
}

// Each bad line behind a recorded call and what it needs, with a call behind it; then six texts that end in an odd way.
pub fn scripts() -> Vec<Vec<u8>> {
    let whole = |bad: &BadLine| {
        [b"30,5,0,0,0\r\n", &lead(bad)[..], bad.line.as_bytes(), b"\r\n12,0,0,0,0\r\n"].concat()
    };
    let mut all: Vec<Vec<u8>> = ALL.iter().map(whole).collect();
    let ends: [&[u8]; 6] = [
        b"",
        b"\r\n",
        b"12,0,0,0,0",
        b"12,0,0,0,0\r",
        b"12,0,0,0,0\r\n\r\n",
        b"30,5,0,0,0\r\n12,0,0",
    ];
    all.extend(ends.iter().map(|end| end.to_vec()));
    all
}
