// bounds.rs: histories that are driven to each limit and one step past it.

use crate::calls::Call;
use crate::groups::LARGEST_BASE;
use crate::maker::{Maker, Way};
use crate::rows::TOP;

type Bound = fn(&mut Maker);

const BOUNDS: [Bound; 19] = [
    tokens_plain,
    tokens_recorded,
    tokens_of_a_group,
    tokens_landed,
    last_attempts,
    last_attempts_of_a_group,
    long_log,
    used_rows_at_the_top,
    tight_logs,
    bindings_of_a_queue,
    bindings_of_a_group,
    bindings_of_the_reader,
    seventeen_groups,
    last_ids,
    largest_bases,
    list_room,
    lists_at_the_tokens,
    lists_at_the_rows,
    lists_at_the_last_row,
];

pub fn count() -> usize {
    BOUNDS.len()
}

pub fn piece(maker: &mut Maker, place: usize) {
    maker.reset();
    BOUNDS[place](maker);
}

// Registers to the 64th token and past it, then pops all down and registers once more.
fn fill_and_empty(maker: &mut Maker, way: Way) {
    for turn in 0..66 {
        maker.call(way, &Call::Register(100 + turn));
        if turn > 61 {
            maker.call(way, &Call::Register(0));
            seen(maker, way);
        }
    }
    for turn in 0..65 {
        maker.steps(way, if turn % 9 == 3 { "pftpd" } else { "pd" });
        if turn % 8 == 0 || turn > 61 {
            seen(maker, way);
        }
    }
    maker.call(way, &Call::Register(9));
    maker.call(way, &Call::Pop);
    seen(maker, way);
}

fn seen(maker: &mut Maker, way: Way) {
    match way {
        Way::Group(id) => {
            maker.say(&[110, id]);
            maker.say(&[141]);
        }
        _ => maker.show(),
    }
}

fn tokens_plain(maker: &mut Maker) {
    maker.open(false, 5, 0, &[]);
    fill_and_empty(maker, Way::Plain);
    maker.open(true, 5, 0, &[3]);
    fill_and_empty(maker, Way::Lent);
}

fn tokens_recorded(maker: &mut Maker) {
    maker.open(false, 5, 0, &[]);
    fill_and_empty(maker, Way::Recorded);
    let words = 5 * maker.console.used;
    maker.say(&[135, words]);
    maker.say(&[50, 0, 5, 0]);
    maker.say(&[141]);
    maker.say(&[142]);
}

fn tokens_of_a_group(maker: &mut Maker) {
    maker.say(&[60, 70]);
    maker.open_group(true, &[1]);
    fill_and_empty(maker, Way::Group(1));
    maker.say(&[143]);
    fill_and_empty(maker, Way::Group(0));
    maker.say(&[143]);
}

// Births by land alone; the 65th admit and land are past the limit.
fn tokens_landed(maker: &mut Maker) {
    maker.open(true, 5, 0, &[4, 9]);
    for turn in 0..66 {
        maker.steps(Way::Recorded, "al");
        if turn > 61 {
            maker.show();
        }
    }
    maker.steps(Way::Recorded, "l");
    maker.call(Way::Recorded, &Call::Land(0));
    maker.steps(Way::Recorded, "c");
    maker.steps(Way::Recorded, "l");
    maker.show();
    let words = 5 * maker.console.used;
    maker.say(&[135, words]);
    maker.say(&[50, 1, 5, 0]);
    maker.say(&[141]);
}

const AT_THE_TOP: [&str; 8] =
    ["rp", "rpd", "rrpdp", "rpft", "rpftp", "rrpftpftpd", "rrpdpftpd", "rpftpftpft"];

fn last_attempts(maker: &mut Maker) {
    for spare in 0..4 {
        for steps in AT_THE_TOP {
            for (way, iterator) in [(Way::Plain, false), (Way::Recorded, true), (Way::Lent, false)]
            {
                maker.reset();
                maker.open(iterator, TOP - spare, TOP - spare, &[]);
                for letter in steps.chars() {
                    maker.steps(way, &letter.to_string());
                    maker.show();
                }
                let words = 5 * maker.console.used;
                maker.say(&[135, words]);
                maker.say(&[50, u64::from(iterator), TOP - spare, TOP - spare]);
                maker.say(&[141]);
            }
        }
    }
}

fn last_attempts_of_a_group(maker: &mut Maker) {
    for spare in 0..4 {
        for steps in AT_THE_TOP {
            maker.reset();
            maker.say(&[60, LARGEST_BASE]);
            // The root and an iterator in turn.
            let id = if spare % 2 == 0 { maker.open_group(true, &[]) } else { 0 };
            maker.set_field(Way::Group(id), 2, 0, TOP - spare);
            for letter in steps.chars() {
                maker.steps(Way::Group(id), &letter.to_string());
            }
            for number in [86, 85, 80] {
                maker.say(&[number, id]);
            }
            maker.say(&[103]);
            maker.say(&[104]);
            seen(maker, Way::Group(id));
        }
    }
}

// A whole log of 4,096 rows by recorded calls, then every call on the full log, then the reader.
fn long_log(maker: &mut Maker) {
    maker.open(true, 5, 10, &[]);
    maker.steps(Way::Recorded, "rrra");
    while maker.console.used < 4094 {
        let queue = maker.console.queue;
        let letter = match (queue.issued, queue.failed) {
            (true, _) => "f",
            (_, true) => "t",
            _ => "p",
        };
        maker.steps(Way::Recorded, letter);
    }
    maker.show();
    for letters in ["r", "l", "a", "r", "e", "c", "t", "p", "f", "a", "l"] {
        maker.steps(Way::Recorded, letters);
        maker.show();
    }
    read_long_log(maker);
    maker.say(&[142]);
    maker.steps(Way::Recorded, "rpfc");
    maker.show();
}

// Behind the 4,096 rows stands a register that only its place makes bad.
fn read_long_log(maker: &mut Maker) {
    let tokens = maker.console.queue.tokens as u64;
    for behind in [0, 5] {
        maker.say(&[134, 20_481, tokens]);
        maker.say(&[134, 20_484, behind]);
        for words in [20_480, 20_479, 20_475, 20_485, 20_499, 20_481, 20_500] {
            maker.say(&[135, words]);
            maker.say(&[50, 1, 5, 10]);
            maker.say(&[141]);
        }
    }
}

// Five times this many rows is 4 past a u64, so a wrapped product would seem to fit.
const WRAPS: u64 = 3_689_348_814_741_910_324;

// Used counts round 4,096 with every lent length round it, each with one changing and one idle call.
fn used_rows_at_the_top(maker: &mut Maker) {
    for used in [4094, 4095, 4096, 4097, 4099, 4100, 4101, WRAPS, TOP] {
        for words in [20_474, 20_475, 20_479, 20_480, 20_484, 20_485, 20_495, 20_500] {
            maker.reset();
            maker.open(true, 5, 0, &[]);
            maker.say(&[135, words]);
            maker.say(&[136, used]);
            maker.steps(Way::Recorded, "erl");
            maker.steps(Way::Recorded, "a");
            maker.show();
            if words == 20_500 {
                maker.say(&[142]);
            }
        }
    }
}

fn marked_log(maker: &mut Maker, words: u64) {
    for place in 0..words {
        maker.say(&[134, place, 900 + place]);
    }
}

// Few words, with a used count below, at and above what fits; the words are marked to see them stay.
fn tight_logs(maker: &mut Maker) {
    for words in 0..17 {
        for used in 0..4 {
            maker.reset();
            maker.open(true, 5, 0, &[4]);
            marked_log(maker, 20);
            maker.say(&[135, words]);
            maker.say(&[136, used]);
            maker.steps(Way::Recorded, "eprapf");
            maker.show();
            maker.say(&[135, 20]);
            maker.say(&[142]);
        }
    }
}

fn numbers(count: u64) -> Vec<u64> {
    (0..count).collect()
}

fn bindings_of_a_queue(maker: &mut Maker) {
    for count in [0, 1, 15, 16, 17, 63, 64] {
        maker.open(true, 5, 3, &numbers(count));
        maker.show();
        for target in [numbers(count), numbers(16), numbers(64), numbers(15)] {
            maker.list(&target);
            maker.say(&[27]);
            maker.say(&[15]);
            maker.show();
        }
    }
    // The same member 16 times is one member, and 17 times is still too many.
    for count in [16, 17] {
        maker.open(true, 5, 3, &vec![TOP; count]);
        maker.list(&[TOP]);
        maker.say(&[27]);
        maker.say(&[35]);
        maker.show();
    }
}

fn bindings_of_a_group(maker: &mut Maker) {
    maker.say(&[60, 9]);
    for count in [0, 1, 15, 16, 17, 64] {
        let id = maker.open_group(true, &numbers(count));
        maker.say(&[87, id]);
        maker.say(&[75, id]);
        maker.say(&[105]);
        seen(maker, Way::Group(id));
    }
    maker.say(&[143]);
}

fn bindings_of_the_reader(maker: &mut Maker) {
    maker.open(true, 5, 0, &[]);
    maker.steps(Way::Recorded, "alapr");
    let words = 5 * maker.console.used;
    maker.say(&[135, words]);
    for count in [0, 1, 15, 16, 17, 64] {
        maker.list(&numbers(count));
        maker.say(&[50, 1, TOP, 0]);
        maker.say(&[141]);
        maker.say(&[50, 0, TOP, 0]);
        maker.say(&[141]);
    }
    for words in [0, 3, 5] {
        maker.say(&[135, words]);
        maker.say(&[50, 1, 7, TOP]);
        maker.say(&[141]);
    }
}

fn seventeen_groups(maker: &mut Maker) {
    maker.say(&[60, 1000]);
    for turn in 0..18 {
        maker.open_group(turn % 3 == 1, &[turn]);
        maker.say(&[112]);
        maker.say(&[108]);
    }
    maker.list(&numbers(17));
    maker.say(&[62]);
    maker.say(&[143]);
    // Freed places are used again from the lowest; the ids go on.
    for id in [6, 0, 15, 3] {
        maker.say(&[63, id]);
    }
    for turn in 0..5 {
        maker.open_group(turn % 2 == 0, &[turn]);
        maker.say(&[143]);
    }
    maker.say(&[64]);
    for id in 0..22 {
        maker.say(&[78, id]);
        maker.say(&[63, id]);
    }
    maker.say(&[109]);
    maker.say(&[64]);
    maker.say(&[64]);
    maker.say(&[143]);
}

fn last_ids(maker: &mut Maker) {
    for next in [65_534, 65_535, 65_536, 65_537, TOP] {
        for base in [0, LARGEST_BASE] {
            maker.reset();
            maker.say(&[60, base]);
            maker.open_group(false, &[]);
            maker.say(&[131, 1, next]);
            for turn in 0..3 {
                let id = maker.open_group(turn == 1, &[2]);
                maker.say(&[88, id]);
                maker.say(&[112]);
                maker.steps(Way::Group(id), "rp");
            }
            maker.say(&[63, 65_535]);
            maker.say(&[107, 65_535]);
            maker.say(&[107, 65_536]);
            maker.say(&[143]);
        }
    }
}

fn largest_bases(maker: &mut Maker) {
    for base in [0, LARGEST_BASE - 1, LARGEST_BASE, LARGEST_BASE + 1, TOP - 1, TOP] {
        maker.say(&[60, base]);
        maker.say(&[143]);
        maker.say(&[89]);
        let id = maker.open_group(false, &[]);
        maker.say(&[88, id]);
        maker.steps(Way::Group(id), "rrpd");
        maker.say(&[143]);
    }
}

// The list takes 64 numbers; the 65th is a bad line, which only ends a script.
fn list_room(maker: &mut Maker) {
    maker.list(&numbers(64));
    maker.say(&[27]);
    maker.say(&[1, 5, 5]);
    maker.say(&[15]);
    maker.show();
}

// So many numbers, and at this place a 0 if there is such a place.
fn numbers_with_zero(count: usize, zero: usize) -> Vec<u64> {
    (0..count).map(|place| if place == zero { 0 } else { 100 + place as u64 }).collect()
}

// Lists just long enough for what is left, shorter and longer, each with a 0 at the last good place, at the first bad one and nowhere.
fn lists_round(left: usize) -> Vec<Vec<u64>> {
    let counts = [0, left.saturating_sub(1), left, left + 1, left + 2];
    let zeros = [usize::MAX, left.saturating_sub(1), left];
    let of_count = |count: usize| zeros.map(|zero| numbers_with_zero(count.min(64), zero));
    let mut lists: Vec<Vec<u64>> = counts.into_iter().flat_map(of_count).collect();
    lists.dedup();
    lists
}

// What is left, with each of its lists.
fn with_lists(lefts: &[usize]) -> Vec<(usize, Vec<u64>)> {
    let pairs = |left: usize| lists_round(left).into_iter().map(move |list| (left, list));
    lefts.iter().copied().flat_map(pairs).collect()
}

// A new queue in the place of the old one; of groups a new record, which keeps the id.
fn begun_again(maker: &mut Maker, way: Way) {
    match way {
        Way::Group(_) => maker.say(&[60, 70]),
        _ => maker.say(&[0, 5, 3]),
    };
    maker.say(&[136, 0]);
}

// Tokens that were issued long ago and are done leave so many.
fn lists_to_the_last_token(maker: &mut Maker, way: Way) {
    for (left, list) in with_lists(&[0, 1, 2, 5, 63, 64]) {
        begun_again(maker, way);
        maker.set_field(way, 4, 0, 64 - left as u64);
        maker.register_all(way, &list);
        seen(maker, way);
    }
}

fn lists_at_the_tokens(maker: &mut Maker) {
    for way in [Way::Plain, Way::Recorded, Way::Group(0)] {
        lists_to_the_last_token(maker, way);
    }
}

// A used row, so many whole ones free and a part of one; all words are marked, to see what stays.
fn list_at_the_rows(maker: &mut Maker, left: u64, part: u64, tokens: u64, list: &[u64]) {
    maker.reset();
    marked_log(maker, 25);
    maker.open(false, 5, 3, &[]);
    maker.set_field(Way::Plain, 4, 0, tokens);
    maker.say(&[135, 5 * (1 + left) + part]);
    maker.say(&[136, 1]);
    maker.register_all(Way::Recorded, list);
    maker.show();
    maker.say(&[135, 25]);
    maker.say(&[142]);
}

// With plenty of tokens, and with one more than rows, as many and one less.
fn lists_at_the_rows(maker: &mut Maker) {
    for (left, list) in with_lists(&[0, 1, 2, 3]) {
        let (left, part) = (left as u64, [0, 4, 3, 0][left]);
        for tokens in [0, 63 - left, 64 - left, (65 - left).min(64)] {
            list_at_the_rows(maker, left, part, tokens, &list);
        }
    }
}

// Lists of none, of one number, of more than the last rows take, and with a 0, each behind as many used rows.
fn lists_behind(maker: &mut Maker, used: u64) {
    for list in [&[][..], &[0], &[7], &[7, 8, 9, 10], &[7, 0]] {
        maker.say(&[136, used]);
        maker.register_all(Way::Recorded, list);
        maker.show();
    }
}

// Used counts round 4,096, and some whose rows would end past a u64.
fn lists_at_the_last_row(maker: &mut Maker) {
    for used in [4093, 4095, 4096, 4097, 4100, 4101, WRAPS, TOP] {
        for words in [20_480, 20_500] {
            maker.reset();
            maker.open(true, 5, 0, &[]);
            maker.say(&[135, words]);
            lists_behind(maker, used);
        }
    }
}
