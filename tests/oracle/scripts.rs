// scripts.rs: puts pieces of every class together to scripts, parted by line 150.

use crate::badlines;
use crate::bounds;
use crate::corners;
use crate::coverage::Seen;
use crate::edges;
use crate::groupedges;
use crate::histories;
use crate::logs;
use crate::maker::Maker;
use crate::spoiled;
use crate::spoiledgroups;
use crate::text;

type Piece = fn(&mut Maker, usize);

// The classes whose pieces are counted; each piece comes once before histories fill the rest.
const COUNTED: [(fn() -> usize, Piece); 6] = [
    (corners::count, corners::piece),
    (edges::count, edges::piece),
    (groupedges::count, groupedges::piece),
    (bounds::count, bounds::piece),
    (spoiled::count, spoiled::piece),
    (spoiledgroups::count, spoiledgroups::piece),
];

const RANDOM: [fn(&mut Maker); 6] = [
    histories::queue_history,
    histories::group_history,
    logs::damaged_log,
    histories::queue_history,
    spoiled::broken_off,
    spoiledgroups::broken_off,
];

// The scripts of a seed, which can run side by side: the counted pieces are dealt out to them.
pub const PARTS: usize = 2;

fn shuffled(maker: &mut Maker, count: usize) -> Vec<usize> {
    let mut places: Vec<usize> = (0..count).collect();
    for last in (1..count).rev() {
        let other = maker.random.place(last + 1);
        places.swap(last, other);
    }
    places
}

// The part's pieces: the classes take turns, each in an order of its own, so that a short script has of everything.
fn dealt(maker: &mut Maker, part: usize) -> Vec<(usize, usize)> {
    let mut piles: Vec<Vec<usize>> = Vec::new();
    for (count, _) in COUNTED {
        let mut pile = shuffled(maker, count());
        pile.retain(|place| place % PARTS == part);
        piles.push(pile);
    }
    let longest = piles.iter().map(Vec::len).max().unwrap_or(0);
    let mut all = Vec::new();
    for turn in 0..longest {
        let with_one =
            piles.iter().enumerate().filter_map(|(class, pile)| Some((class, *pile.get(turn)?)));
        all.extend(with_one);
    }
    all
}

// One part of the seed's calls; random pieces come between the counted ones, and fill the rest.
pub fn part(seed: u64, calls: u64, part: usize, mut seen: Seen) -> Maker {
    seen.begin();
    let mut maker = Maker::new(seed.wrapping_mul(PARTS as u64).wrapping_add(part as u64), seen);
    let mut counted = dealt(&mut maker, part).into_iter();
    let mut turn = 0;
    while maker.calls < calls.div_ceil(PARTS as u64) {
        for (class, place) in counted.by_ref().take(2) {
            COUNTED[class].1(&mut maker, place);
        }
        RANDOM[turn % RANDOM.len()](&mut maker);
        turn += 1;
    }
    maker.seen.left_out += counted.count() as u64;
    badlines::end(&mut maker, seed.wrapping_add(part as u64));
    maker
}

// All parts of a seed, counted together.
pub struct Made {
    pub calls: u64,
    pub lines: usize,
    pub bytes: usize,
    pub seen: Seen,
}

pub fn counted(seed: u64, calls: u64) -> Made {
    let mut made = Made { calls: 0, lines: 0, bytes: 0, seen: Seen::new(true) };
    for place in 0..PARTS {
        let maker = part(seed, calls, place, made.seen);
        made.calls += maker.calls;
        made.lines += text::lines(&maker.script).len();
        made.bytes += maker.want.len();
        made.seen = maker.seen;
    }
    made
}
