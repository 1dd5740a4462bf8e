// main.rs: the commands of the test oracle, written from the rules.

mod agree;
mod atonce;
mod badlines;
mod bounds;
mod calls;
mod clauses;
mod console;
mod corners;
mod coverage;
mod damage;
mod differ;
mod edges;
mod fields;
mod fixed;
mod frames;
mod generate;
mod groupedges;
mod groups;
mod handwork;
mod histories;
mod language;
mod limits;
mod limitsmet;
mod listsagree;
mod logs;
mod maker;
mod questions;
mod queue;
mod random;
mod readings;
mod replay;
mod rows;
mod scripts;
mod selftest;
mod sequences;
mod sequencesmet;
mod shrink;
mod situations;
mod spoilage;
mod spoiled;
mod spoiledgroups;
mod table;
mod text;
mod unseen;

use random::Random;
use std::collections::BTreeMap;
use std::io::{Read, Write};

const USAGE: &str = "oracle agree SEED COUNT
oracle texts SEED COUNT TEXTS WANT
oracle fixed TEXTS WANT
oracle one < TEXT
oracle answers TEXTS GOT
oracle compare TEXTS WANT GOT
oracle selftest
oracle console < SCRIPT
oracle scripts SEED CALLS FOLDER
oracle badlines FOLDER
oracle handwork SCRIPT WANT
oracle differ SCRIPT WANT GOT
oracle coverage SEED CALLS
oracle shrink SCRIPT PROGRAM ARGS..";

type Outcome = Result<(), String>;

fn number(word: &str) -> Result<u64, String> {
    word.parse().map_err(|_| format!("not a number: {word}"))
}

fn from_file(path: &str) -> Result<Vec<u8>, String> {
    std::fs::read(path).map_err(|error| format!("{path}: {error}"))
}

fn to_file(path: &str, bytes: &[u8]) -> Outcome {
    std::fs::write(path, bytes).map_err(|error| format!("{path}: {error}"))
}

// The rules must confirm the steps' answer; the language is closed under prefixes, so two logs tell.
fn confirmed(bytes: &[u8]) -> bool {
    let text::Reading::Log(opening, rows) = text::read(bytes) else { return true };
    let one = replay::read(queue::open(&opening), &rows);
    let good = match one.verdict {
        replay::Verdict::Good => rows.len(),
        replay::Verdict::Bad(place) => place,
    };
    let left_at_once = good == rows.len() || !language::belongs(&opening, &rows[..=good]);
    language::belongs(&opening, &rows[..good])
        && left_at_once
        && language::counts(&rows[..good]) == queue::counts(&one.queue)
}

struct Batch {
    texts: Vec<u8>,
    want: Vec<u8>,
    // For each class: all, result 0, result 16, result 18.
    classes: BTreeMap<&'static str, [usize; 4]>,
}

impl Batch {
    fn new() -> Batch {
        Batch { texts: Vec::new(), want: Vec::new(), classes: BTreeMap::new() }
    }

    fn push(&mut self, class: &'static str, text: &[u8]) -> Outcome {
        if !confirmed(text) {
            return Err(format!("the readings differ on {}", frames::shown(text)));
        }
        let answer = text::answer(text);
        let column = match frames::result_of(&answer) {
            "0" => 1,
            "16" => 2,
            _ => 3,
        };
        let row = self.classes.entry(class).or_default();
        row[0] += 1;
        row[column] += 1;
        frames::push(&mut self.texts, text);
        self.want.extend_from_slice(&answer);
        Ok(())
    }

    fn totals(&self) -> [usize; 4] {
        let mut totals = [0; 4];
        for row in self.classes.values() {
            for (total, count) in totals.iter_mut().zip(row) {
                *total += count;
            }
        }
        totals
    }

    fn write(&self, texts: &str, want: &str) -> Outcome {
        to_file(texts, &self.texts)?;
        to_file(want, &self.want)
    }

    fn tell(&self) {
        let totals = self.totals();
        eprintln!("{:<38}{:>7}{:>8}{:>8}{:>8}", "class", "texts", "0", "16", "18");
        for (class, row) in &self.classes {
            eprintln!("{class:<38}{:>7}{:>8}{:>8}{:>8}", row[0], row[1], row[2], row[3]);
        }
        let [all, good, bad_log, bad_text] = totals;
        eprintln!("{:<38}{all:>7}{good:>8}{bad_log:>8}{bad_text:>8}", "in all");
        eprintln!("mean length {} bytes", (self.texts.len() - 9 * all) / all.max(1));
    }
}

fn agree(seed: u64, count: u64) -> Outcome {
    agree::run(seed, count as usize).map_err(|difference| {
        let rows: Vec<String> = difference.rows.iter().map(|row| format!("  {row:?}")).collect();
        let told = rows.join("\n");
        format!("{}\n{:?}\n{told}\nthe readings differ", difference.what, difference.opening)
    })
}

fn texts(seed: u64, count: u64, texts: &str, want: &str) -> Outcome {
    let mut random = Random::new(seed);
    let mut batch = Batch::new();
    for (class, text) in limits::all().iter().take(count as usize) {
        batch.push(class, text)?;
    }
    // Classes come in turn, so that none is missing from a thousand texts.
    for turn in 0..count as usize - batch.totals()[0] {
        let (class, text) = generate::of_class(&mut random, turn % generate::class_count());
        batch.push(class, &text)?;
    }
    batch.write(texts, want)?;
    batch.tell();
    let least = count as usize / 10;
    if count >= 1000 && batch.totals().iter().any(|total| *total < least) {
        return Err("a result has fewer than a tenth of the texts".to_string());
    }
    Ok(())
}

fn fixed(texts: &str, want: &str) -> Outcome {
    let mut batch = Batch::new();
    for case in fixed::all() {
        batch.push("fixed", &case.text)?;
    }
    batch.write(texts, want)?;
    batch.tell();
    Ok(())
}

fn one() -> Outcome {
    let mut bytes = Vec::new();
    std::io::stdin().read_to_end(&mut bytes).map_err(|error| error.to_string())?;
    std::io::stdout().write_all(&text::answer(&bytes)).map_err(|error| error.to_string())
}

fn console() -> Outcome {
    let mut script = Vec::new();
    std::io::stdin().read_to_end(&mut script).map_err(|error| error.to_string())?;
    let out = console::output(&script);
    std::io::stdout().write_all(&out).map_err(|error| error.to_string())
}

// Each part as script.1 and want.1, and so on.
fn scripts(seed: u64, calls: u64, folder: &str) -> Outcome {
    for part in 0..scripts::PARTS {
        let made = scripts::part(seed, calls, part, coverage::Seen::new(false));
        to_file(&format!("{folder}/script.{}", part + 1), &made.script)?;
        to_file(&format!("{folder}/want.{}", part + 1), &made.want)?;
    }
    Ok(())
}

// Each bad line as a script of its own, bad.1 and on, with the answers, for a bad line ends the run.
fn badlines(folder: &str) -> Outcome {
    for (place, script) in badlines::scripts().iter().enumerate() {
        to_file(&format!("{folder}/bad.{}", place + 1), script)?;
        to_file(&format!("{folder}/bad.{}.want", place + 1), &console::output(script))?;
    }
    Ok(())
}

fn handwork(to: &str, want: &str) -> Outcome {
    let (script, answers) = handwork::one_script();
    to_file(to, &script)?;
    to_file(want, &answers)
}

fn differ(script: &str, want: &str, got: &str) -> Outcome {
    let told = differ::compare(&from_file(script)?, &from_file(want)?, &from_file(got)?)?;
    println!("{told}");
    Ok(())
}

fn coverage(seed: u64, calls: u64) -> Outcome {
    let (page, wrong) = table::page(seed, &scripts::counted(seed, calls));
    println!("{page}");
    if wrong.is_empty() {
        Ok(())
    } else {
        Err(wrong.join("\n"))
    }
}

fn shrink(script: &str, program: &str, args: &[&str]) -> Outcome {
    let shortest = shrink::shortest(&from_file(script)?, program, args)?;
    std::io::stdout().write_all(&shortest).map_err(|error| error.to_string())
}

// Plays the program under test, so that compare itself can be tried.
fn answers(texts: &str, got: &str) -> Outcome {
    let file = from_file(texts)?;
    let answers: Vec<Vec<u8>> = frames::read(&file)?.iter().map(|text| text::answer(text)).collect();
    to_file(got, &answers.concat())
}

fn compare(texts: &str, want: &str, got: &str) -> Outcome {
    let told = frames::compare(&from_file(texts)?, &from_file(want)?, &from_file(got)?)?;
    println!("{told}");
    Ok(())
}

fn selftest() -> Outcome {
    match selftest::run() {
        Ok(count) => println!("selftest: {count} checks, all right"),
        Err(names) => return Err(format!("selftest, wrong: {}", names.join("; "))),
    }
    Ok(())
}

fn run(words: &[&str]) -> Outcome {
    match words {
        ["agree", seed, count] => agree(number(seed)?, number(count)?),
        ["texts", seed, count, to, want] => texts(number(seed)?, number(count)?, to, want),
        ["fixed", to, want] => fixed(to, want),
        ["one"] => one(),
        ["answers", from, got] => answers(from, got),
        ["compare", from, want, got] => compare(from, want, got),
        ["selftest"] => selftest(),
        ["console"] => console(),
        ["scripts", seed, calls, folder] => scripts(number(seed)?, number(calls)?, folder),
        ["badlines", folder] => badlines(folder),
        ["handwork", to, want] => handwork(to, want),
        ["differ", from, want, got] => differ(from, want, got),
        ["coverage", seed, calls] => coverage(number(seed)?, number(calls)?),
        ["shrink", from, program, args @ ..] => shrink(from, program, args),
        _ => Err(USAGE.to_string()),
    }
}

fn main() {
    let words: Vec<String> = std::env::args().skip(1).collect();
    let words: Vec<&str> = words.iter().map(String::as_str).collect();
    if let Err(told) = run(&words) {
        println!("{told}");
        std::process::exit(1);
    }
}
