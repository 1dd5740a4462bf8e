// table.rs: the coverage table as the page that is kept in docs/.

use crate::coverage::Seen;
use crate::scripts;

const TOP: &str = "# Coverage of the console's calls

Made by `oracle coverage SEED CALLS` with the gate's seed and count (`tests/run` names them), and never by hand. It counts what
the expected answers of the gate's scripts have, and `./gulberzan test` holds the program to every byte of these. The test fails
if a case was never seen, or if this page is not what the command prints.";

const ANSWERS: &str = "## Answers

For each call how often each case of its answer was seen, and each refusal that it can give. 9 is nowhere: no record makes pop
give it. A recorded admit without a target never changes the queue, so it can't be given 17. A register_all that is refused may have
taken numbers before that.

| no. | call | cases | refusals |
|---|---|---|---|";

const SHOWS: &str = "## Lines that show

| no. | line | how often |
|---|---|---|";

const NAMED: &str = "## Situations and limits

| met | how often |
|---|---|";

const SPOILED: &str = "## Spoiled records

Each clause of \"well formed\", broken alone: how many calls met such a record, how many different calls of those that there are, and
in how many different states (of the queue: kind, phase, selection and marks; of the group record: how many are live, selected and
failed, sealed, next).

| record | the only broken clause | calls | different calls | states |
|---|---|---|---|---|";

fn section(head: &str, rows: &[(String, usize)]) -> String {
    let rows: Vec<&str> = rows.iter().map(|(told, _)| told.as_str()).collect();
    format!("{head}\n{}", rows.join("\n"))
}

fn numbers(seed: u64, made: &scripts::Made, never: usize) -> String {
    let scripts::Made { calls, lines, bytes, seen } = made;
    let strange = seen.unlisted().len();
    format!(
        "Seed {seed}: {calls} calls on {lines} lines in {} scripts, {bytes} bytes of answers, {} bad lines.\n\
         Never seen: {never}. Seen though not listed: {strange}. Records written over before they were shown: {}. Pieces left out: {}.",
        scripts::PARTS,
        seen.bad_lines,
        seen.lost,
        seen.left_out
    )
}

// The page, and what makes it fail: nothing, or the rows that lack something.
pub fn page(seed: u64, made: &scripts::Made) -> (String, Vec<String>) {
    let seen: &Seen = &made.seen;
    let parts = [
        (ANSWERS, seen.answer_rows()),
        (SHOWS, seen.show_rows()),
        (NAMED, seen.named_rows()),
        (SPOILED, seen.spoilage_rows()),
    ];
    let lacking: Vec<&(String, usize)> =
        parts.iter().flat_map(|(_, rows)| rows).filter(|(_, never)| *never > 0).collect();
    let never = lacking.iter().map(|(_, never)| never).sum();
    let mut wrong: Vec<String> =
        lacking.iter().map(|(told, _)| format!("never seen: {told}")).collect();
    wrong.extend(seen.unlisted().into_iter().map(|told| format!("not listed: {told}")));
    if seen.lost + seen.left_out > 0 {
        wrong.push(format!("{} records unseen, {} pieces left out", seen.lost, seen.left_out));
    }
    let mut sections = vec![TOP.to_string(), numbers(seed, made, never)];
    sections.extend(parts.iter().map(|(head, rows)| section(head, rows)));
    (sections.join("\n\n"), wrong)
}
