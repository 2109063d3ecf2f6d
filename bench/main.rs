//! Measures the ordered store against the standard library's `BTreeMap`, in one process, turn by turn.
//!
//! The store's workloads are the exported functions of crates/speed: each makes a store, puts the keys in, and then
//! asks for the wanted keys. What comes before the measured calls is measured alone and subtracted. The map's calls
//! are timed directly, without making or dropping the map.

use std::collections::BTreeMap;
use std::hint::black_box;

// The exported functions take a slice as a pointer, then a length.
#[link(name = "speed", kind = "static")]
unsafe extern "C" {
    fn ordered_put(keys: *const u64, n: usize) -> usize;
    fn ordered_value(keys: *const u64, n: usize, wanted: *const u64, m: usize) -> usize;
    fn ordered_above(keys: *const u64, n: usize, wanted: *const u64, m: usize) -> usize;
    fn ordered_take(keys: *const u64, n: usize, wanted: *const u64, m: usize) -> usize;
}

type OverKeys = unsafe extern "C" fn(*const u64, usize, *const u64, usize) -> usize;

fn put(keys: &[u64]) -> usize {
    unsafe { ordered_put(keys.as_ptr(), keys.len()) }
}

fn ask(call: OverKeys, keys: &[u64], wanted: &[u64]) -> usize {
    unsafe { call(keys.as_ptr(), keys.len(), wanted.as_ptr(), wanted.len()) }
}

#[repr(C)]
struct Timespec {
    seconds: i64,
    nanoseconds: i64,
}

unsafe extern "C" {
    fn clock_gettime(clock: i32, time: *mut Timespec) -> i32;
}

const CLOCK_THREAD_CPUTIME_ID: i32 = 3;

/// The processor time of this thread, in nanoseconds: what other processes take does not count.
fn now() -> f64 {
    let mut time = Timespec {
        seconds: 0,
        nanoseconds: 0,
    };
    assert_eq!(
        unsafe { clock_gettime(CLOCK_THREAD_CPUTIME_ID, &mut time) },
        0
    );
    time.seconds as f64 * 1e9 + time.nanoseconds as f64
}

fn timed<R>(work: impl FnOnce() -> R) -> (f64, R) {
    let start = now();
    let result = black_box(work());
    (now() - start, result)
}

/// A generator of numbers that look random and never repeat (splitmix64).
struct Numbers(u64);

impl Numbers {
    fn next(&mut self) -> u64 {
        self.0 = self.0.wrapping_add(0x9E37_79B9_7F4A_7C15);
        let mut z = self.0;
        z = (z ^ (z >> 30)).wrapping_mul(0xBF58_476D_1CE4_E5B9);
        z = (z ^ (z >> 27)).wrapping_mul(0x94D0_49BB_1331_11EB);
        z ^ (z >> 31)
    }

    fn take(&mut self, n: usize) -> Vec<u64> {
        (0..n).map(|_| self.next()).collect()
    }

    fn shuffle(&mut self, keys: &mut [u64]) {
        for i in (1..keys.len()).rev() {
            keys.swap(i, (self.next() % (i as u64 + 1)) as usize);
        }
    }
}

/// Every key `LOOKUPS` times, shuffled.
fn repeated(numbers: &mut Numbers, keys: &[u64]) -> Vec<u64> {
    let mut all = keys.repeat(LOOKUPS);
    numbers.shuffle(&mut all);
    all
}

const LOOKUPS: usize = 8;
const SIZES: [usize; 3] = [1_000, 8_000, 32_000];
const CALLS: [&str; 5] = [
    "insert",
    "look-up hit",
    "look-up miss",
    "next key",
    "remove",
];

/// Nanoseconds an operation, for each of `CALLS`.
type Times = [f64; 5];

/// The keys of one run, and what is asked of them.
struct Workload {
    keys: Vec<u64>,
    hits: Vec<u64>,
    misses: Vec<u64>,
    removed: Vec<u64>,
}

impl Workload {
    fn new(numbers: &mut Numbers, n: usize) -> Workload {
        let keys = numbers.take(n);
        let others = numbers.take(n);
        let hits = repeated(numbers, &keys);
        let misses = repeated(numbers, &others);
        let mut removed = keys.clone();
        numbers.shuffle(&mut removed);
        Workload {
            keys,
            hits,
            misses,
            removed,
        }
    }

    /// The first call only warms the caches: making a store writes all of its cells.
    fn store(&self) -> Times {
        let n = self.keys.len();
        black_box(put(&self.keys));
        let (made, _) = timed(|| put(&[]));
        let (filled, accepted) = timed(|| put(&self.keys));
        let (hit, hits) = timed(|| ask(ordered_value, &self.keys, &self.hits));
        let (miss, missed) = timed(|| ask(ordered_value, &self.keys, &self.misses));
        let (above, nexts) = timed(|| ask(ordered_above, &self.keys, &self.hits));
        let (taken, took) = timed(|| ask(ordered_take, &self.keys, &self.removed));
        assert_eq!(accepted, n);
        self.check(hits, missed, nexts, took);
        let each = n as f64;
        let looked = self.hits.len() as f64;
        [
            (filled - made) / each,
            (hit - filled) / looked,
            (miss - filled) / looked,
            (above - filled) / looked,
            (taken - filled) / each,
        ]
    }

    /// Every key is found and removed, no other is found, and every key but the greatest has a next one.
    fn check(&self, hits: usize, missed: usize, nexts: usize, took: usize) {
        let n = self.keys.len();
        assert_eq!(
            (hits, missed, nexts, took),
            (n * LOOKUPS, 0, (n - 1) * LOOKUPS, n)
        );
    }

    fn map(&self) -> Times {
        let n = self.keys.len();
        let mut map: BTreeMap<u64, u32> = BTreeMap::new();
        let (filled, ()) = timed(|| {
            for &key in &self.keys {
                map.insert(key, 0);
            }
        });
        let (hit, hits) = timed(|| self.hits.iter().filter(|k| map.get(k).is_some()).count());
        let (miss, missed) = timed(|| self.misses.iter().filter(|k| map.get(k).is_some()).count());
        let (above, nexts) = timed(|| {
            self.hits
                .iter()
                .filter(|k| next(&map, **k).is_some())
                .count()
        });
        let (taken, took) = timed(|| {
            self.removed
                .iter()
                .filter(|k| map.remove(k).is_some())
                .count()
        });
        self.check(hits, missed, nexts, took);
        let each = n as f64;
        let looked = self.hits.len() as f64;
        [
            filled / each,
            hit / looked,
            miss / looked,
            above / looked,
            taken / each,
        ]
    }
}

/// The least key above `key`.
fn next(map: &BTreeMap<u64, u32>, key: u64) -> Option<u64> {
    use std::ops::Bound::{Excluded, Unbounded};
    map.range((Excluded(key), Unbounded))
        .next()
        .map(|(k, _)| *k)
}

fn median(times: &[Times], call: usize) -> f64 {
    let mut one: Vec<f64> = times.iter().map(|t| t[call]).collect();
    one.sort_by(f64::total_cmp);
    one[one.len() / 2]
}

fn main() {
    let runs: usize = std::env::args()
        .nth(1)
        .map_or(31, |s| s.parse().expect("a number of runs"));
    let mut numbers = Numbers(1);
    println!("| call | values | store, ns | BTreeMap, ns | ratio |");
    println!("|---|---:|---:|---:|---:|");
    for n in SIZES {
        let mut store = Vec::new();
        let mut map = Vec::new();
        for _ in 0..runs {
            let work = Workload::new(&mut numbers, n);
            store.push(work.store());
            map.push(work.map());
        }
        for (call, name) in CALLS.iter().enumerate() {
            let (s, m) = (median(&store, call), median(&map, call));
            println!("| {name} | {n} | {s:.0} | {m:.0} | {:.2} |", s / m);
        }
    }
}
