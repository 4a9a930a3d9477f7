//! Times `Map` beside `BTreeMap`, with random keys of three types: nanoseconds of processor time for an entry, of `range of 100`
//! for a range. Each is the median of seven runs, in turn with those of the other map, and beside it the least and the greatest.
//! The ratio of the medians is starred where the runs of the two lie apart.
//!
//!     cargo run --release --example beside_btree_map [ENTRIES..]
//!     cargo run --release --example beside_btree_map -- --once KEYS ENTRIES
//!
//! Without numbers it takes 100,000 entries, and 1,000,000. With --once there is one run, of one of the types, and each line is a
//! call and the numbers of both maps, with tabs between them: `bench/run rust` runs it so.
use std::collections::BTreeMap;
use std::hint::black_box;
use std::{env, fmt};
use verified_art::Map;

const RANGES: usize = 1000;
const TURNS: usize = 7;

/// The generator SplitMix64.
fn next(state: &mut u64) -> u64 {
    *state = state.wrapping_add(0x9e37_79b9_7f4a_7c15);
    let mut word = *state;
    word = (word ^ (word >> 30)).wrapping_mul(0xbf58_476d_1ce4_e5b9);
    word = (word ^ (word >> 27)).wrapping_mul(0x94d0_49bb_1331_11eb);
    word ^ (word >> 31)
}

fn shuffled<T: Clone>(items: &[T], mut seed: u64) -> Vec<T> {
    let mut items = items.to_vec();
    for at in (1..items.len()).rev() {
        items.swap(at, (next(&mut seed) % (at as u64 + 1)) as usize);
    }
    items
}

#[repr(C)]
struct Time {
    seconds: i64,
    nanoseconds: i64,
}

extern "C" {
    fn clock_gettime(clock: i32, time: *mut Time) -> i32;
}

/// The processor time of this thread, of Linux.
fn now() -> f64 {
    let mut time = Time { seconds: 0, nanoseconds: 0 };
    // SAFETY: the two numbers are written.
    unsafe { clock_gettime(3, &mut time) };
    time.seconds as f64 * 1e9 + time.nanoseconds as f64
}

/// Nanoseconds for each of so many.
fn timed<T>(count: usize, call: impl FnOnce() -> T) -> f64 {
    let start = now();
    black_box(call());
    (now() - start) / count as f64
}

const ROWS: [&str; 9] =
    ["insert", "get", "range of 100", "iterate", "iterate, sorted", "iter_mut", "remove", "collect", "into_iter"];

/// One turn of each row, on one kind of map.
macro_rules! turn {
    ($map:ident, $keys:ident) => {{
        let entries = $keys.len();
        let mut map = $map::new();
        let given = $keys.clone();
        let insert = timed(entries, || {
            given.into_iter().zip(0u64..).map(|(key, value)| map.insert(key, value).unwrap_or(0)).sum::<u64>()
        });
        let sought = shuffled(&$keys, 5);
        let get = timed(entries, || sought.iter().map(|key| map.get(key).unwrap()).sum::<u64>());
        let range = timed(RANGES, || {
            sought[..RANGES]
                .iter()
                .map(|key| map.range(key.clone()..).take(100).map(|(_, value)| value).sum::<u64>())
                .sum::<u64>()
        });
        let iterate = timed(entries, || map.iter().map(|(_, value)| value).sum::<u64>());
        let iter_mut = timed(entries, || map.iter_mut().for_each(|(_, value)| *value += 1));
        let gone = shuffled(&$keys, 6);
        let remove = timed(entries, || gone.iter().map(|key| map.remove(key).unwrap_or(0)).sum::<u64>());
        assert!(map.is_empty());
        let given = $keys.clone();
        let mut made = None;
        let collect = timed(entries, || made = Some(given.into_iter().zip(0u64..).collect::<$map<_, _>>()));
        let made = made.unwrap();
        let sorted = timed(entries, || made.iter().map(|(_, value)| value).sum::<u64>());
        let into_iter = timed(entries, || made.into_iter().map(|(_, value)| value).sum::<u64>());
        [insert, get, range, iterate, sorted, iter_mut, remove, collect, into_iter]
    }};
}

/// The median of some runs, and how far they lie apart.
struct Spread {
    least: f64,
    median: f64,
    greatest: f64,
}

impl Spread {
    fn new(turns: &[[f64; ROWS.len()]], row: usize) -> Self {
        let mut times: Vec<_> = turns.iter().map(|turn| turn[row]).collect();
        times.sort_by(f64::total_cmp);
        Spread { least: times[0], median: times[times.len() / 2], greatest: times[times.len() - 1] }
    }

    fn is_apart(&self, other: &Self) -> bool {
        self.greatest < other.least || other.greatest < self.least
    }
}

impl fmt::Display for Spread {
    fn fmt(&self, out: &mut fmt::Formatter<'_>) -> fmt::Result {
        out.pad(&format!("{:.1} ({:.1} to {:.1})", self.median, self.least, self.greatest))
    }
}

macro_rules! compared {
    ($name:literal, $once:ident, $keys:expr) => {{
        let keys: Vec<_> = $keys;
        if let Some(wanted) = $once {
            if wanted == $name {
                let (ours, theirs) = (turn!(Map, keys), turn!(BTreeMap, keys));
                for ((name, one), other) in ROWS.iter().zip(ours).zip(theirs) {
                    println!("{name}\t{one}\t{other}");
                }
                return;
            }
        } else {
            compared!($name, keys);
        }
    }};
    ($name:literal, $keys:ident) => {{
        let keys = $keys;
        let (mut ours, mut theirs) = (Vec::new(), Vec::new());
        for turn in 0..TURNS {
            if turn % 2 == 0 {
                ours.push(turn!(Map, keys));
                theirs.push(turn!(BTreeMap, keys));
            } else {
                theirs.push(turn!(BTreeMap, keys));
                ours.push(turn!(Map, keys));
            }
        }
        println!("{:<26}{:>26}{:>26}{:>8}", format!("{}, {} entries", $name, keys.len()), "Map", "BTreeMap", "ratio");
        for (row, name) in ROWS.iter().enumerate() {
            let (one, other) = (Spread::new(&ours, row), Spread::new(&theirs, row));
            let star = if one.is_apart(&other) { "*" } else { "" };
            println!("{name:<26}{one:>26}{other:>26}{:>8.2}{star}", one.median / other.median);
        }
        println!();
    }};
}

/// A word of 5 to 12 letters.
fn word(seed: &mut u64) -> String {
    let letters = 5 + next(seed) % 8;
    (0..letters).map(|_| char::from(b'a' + (next(seed) % 26) as u8)).collect()
}

/// Compares the maps with so many entries, once with keys of one type, or some times with each.
fn compare(entries: usize, once: Option<&str>) {
    let mut seed = 1;
    compared!("u64", once, (0..entries).map(|_| next(&mut seed)).collect());
    compared!("String", once, (0..entries).map(|_| word(&mut seed)).collect());
    compared!(
        "(u32, u32)",
        once,
        (0..entries).map(|_| (next(&mut seed) as u32 % 1000, next(&mut seed) as u32)).collect()
    );
}

fn main() {
    let mut words: Vec<String> = env::args().skip(1).collect();
    let once = words.first().is_some_and(|word| word == "--once").then(|| words.drain(..2).nth(1).expect("the keys"));
    let mut sizes: Vec<usize> = words.iter().map(|size| size.parse().expect("a number of entries")).collect();
    if sizes.is_empty() {
        sizes = vec![100_000, 1_000_000];
    }
    sizes.into_iter().for_each(|entries| compare(entries, once.as_deref()));
}
