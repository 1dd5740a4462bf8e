// frames.rs: files of framed texts, files of answers, and their comparison.

use crate::text;

// A frame: the length in 8 digits, one LF, the text.
pub fn push(file: &mut Vec<u8>, text: &[u8]) {
    file.extend_from_slice(format!("{:08}\n", text.len()).as_bytes());
    file.extend_from_slice(text);
}

fn frame_length(head: &[u8]) -> Option<usize> {
    let digits = head.strip_suffix(b"\n")?;
    let all_digits = digits.iter().all(|byte| byte.is_ascii_digit());
    let value = std::str::from_utf8(digits).ok()?.parse().ok()?;
    all_digits.then_some(value)
}

pub fn read(file: &[u8]) -> Result<Vec<&[u8]>, String> {
    let mut texts = Vec::new();
    let mut rest = file;
    while !rest.is_empty() {
        let broken = || format!("frame {} is broken", texts.len());
        let length = rest.get(..9).and_then(frame_length).ok_or_else(broken)?;
        let text = rest.get(9..9 + length).ok_or_else(broken)?;
        texts.push(text);
        rest = &rest[9 + length..];
    }
    Ok(texts)
}

// Two lines ended by CRLF are an answer; what is left over is one more, so that it is seen.
pub fn answers(file: &[u8]) -> Vec<&[u8]> {
    let mut answers = Vec::new();
    let mut start = 0;
    let mut ends = 0;
    for place in 1..file.len() {
        if &file[place - 1..=place] == b"\r\n" {
            ends += 1;
            if ends % 2 == 0 {
                answers.push(&file[start..=place]);
                start = place + 1;
            }
        }
    }
    if start < file.len() {
        answers.push(&file[start..]);
    }
    answers
}

// The result that an answer starts its second line with.
pub fn result_of(answer: &[u8]) -> &str {
    let values = answer.get(text::HEADER.len()..).unwrap_or(&[]);
    let result = values.split(|byte| *byte == b',').next().unwrap_or(&[]);
    std::str::from_utf8(result).unwrap_or("?")
}

pub fn shown(bytes: &[u8]) -> String {
    let escaped = bytes.escape_ascii().to_string();
    if escaped.len() <= 1200 {
        return escaped;
    }
    let tail = escaped.len() - 400;
    format!("{} ... {} ({} bytes)", &escaped[..800], &escaped[tail..], bytes.len())
}

fn told(index: usize, texts: &[&[u8]], want: Option<&&[u8]>, got: Option<&&[u8]>) -> String {
    let side = |answer: Option<&&[u8]>| answer.map_or("no answer".to_string(), |a| shown(a));
    let text = texts.get(index).map_or("no text".to_string(), |text| shown(text));
    format!("case {index}\n  want {}\n  got  {}\n  text {text}", side(want), side(got))
}

fn table(texts: &[&[u8]], wanted: &[&[u8]]) -> String {
    let count = |result: &str| wanted.iter().filter(|answer| result_of(answer) == result).count();
    let total: usize = texts.iter().map(|text| text.len()).sum();
    let longest = texts.iter().map(|text| text.len()).max().unwrap_or(0);
    let shortest = texts.iter().map(|text| text.len()).min().unwrap_or(0);
    let mean = total / texts.len().max(1);
    let mut lines = String::new();
    for result in ["0", "16", "18"] {
        lines += &format!("result {result:>2}: {:>6} texts\n", count(result));
    }
    lines + &format!("bytes: {total} in all, {shortest} to {longest}, mean {mean}")
}

// Ok with what to print, or Err with the first three differences.
pub fn compare(texts: &[u8], want: &[u8], got: &[u8]) -> Result<String, String> {
    let texts = read(texts)?;
    let wanted = answers(want);
    if wanted.len() != texts.len() {
        return Err(format!("{} texts but {} wanted answers", texts.len(), wanted.len()));
    }
    if want == got {
        let head = format!("{} texts, every byte the same\n", texts.len());
        return Ok(head + &table(&texts, &wanted));
    }
    let given = answers(got);
    let longer = wanted.len().max(given.len());
    let differs = |index: &usize| wanted.get(*index) != given.get(*index);
    let different: Vec<usize> = (0..longer).filter(differs).collect();
    let tell = |index: &usize| told(*index, &texts, wanted.get(*index), given.get(*index));
    let told: Vec<String> = different.iter().take(3).map(tell).collect();
    let head = format!("{} of {} answers differ", different.len(), wanted.len());
    Err(head + "\n" + &told.join("\n"))
}
