//! Times the cache for one thread beside that of the Rust crate, in one process and over the same keys, and compares
//! what both answer. See README.md.
use quick_cache::UnitWeighter;
use quick_cache::unsync::Cache;
use std::hint::black_box;

mod common;
use common::{Folding, processor_time};

unsafe extern "C" {
    /// The proved cache's side, at two places: `crates/bench_unsync` says what each mode does and answers.
    fn qcbench_trace_0(mode: u32, items: u64, keys: *const u64, length: usize) -> u64;
    fn qcbench_trace_32(mode: u32, items: u64, keys: *const u64, length: usize) -> u64;
}

const SIZES: [usize; 3] = [1_000, 10_000, 100_000];
const OPERATIONS: usize = 1_000_000;

#[derive(Clone, Copy, PartialEq)]
enum Mode {
    GetAndInsert = 0,
    Load = 1,
    Run = 2,
    RemoveAndInsert = 3,
    Bytes = 4,
    Lives = 5,
    Texts16 = 6,
    Texts64 = 7,
}

type Trace = fn(Mode, u64, &[u64]) -> u64;

/// Pseudo-random numbers, by xorshift and a multiplication.
struct Numbers(u64);

impl Numbers {
    fn next(&mut self) -> u64 {
        self.0 ^= self.0 << 13;
        self.0 ^= self.0 >> 7;
        self.0 ^= self.0 << 17;
        self.0.wrapping_mul(0x2545f4914f6cdd1d)
    }

    fn below(&mut self, bound: usize) -> usize {
        ((u128::from(self.next()) * bound as u128) >> 64) as usize
    }

    /// Ranks by Zipf's law.
    fn zipf(&mut self, items: usize, skew: f64, length: usize) -> Vec<u64> {
        let mut sums = Vec::with_capacity(items);
        let mut sum = 0.0;
        for rank in 1..=items {
            sum += (rank as f64).powf(-skew);
            sums.push(sum);
        }
        let mut rank = || {
            let drawn = (self.next() >> 11) as f64 / (1u64 << 53) as f64 * sum;
            sums.partition_point(|it| *it < drawn).min(items - 1)
        };
        (0..length).map(|_| key(rank())).collect()
    }
}

/// Numbers that are near each other are keys that are not.
fn key(index: usize) -> u64 {
    (index as u64).wrapping_mul(0xbf58476d1ce4e5b9).rotate_left(31)
}

/// Looks up texts of so many bytes by their numbers, among half as many as there are items.
fn rust_texts(items: usize, keys: &[u64], length: usize) -> u64 {
    let mut cache: Cache<String, u64, UnitWeighter, Folding> =
        Cache::with(items, items as u64, UnitWeighter, Folding, Default::default());
    let text = |number: usize| format!("{number:0length$}");
    let texts: Vec<String> = (0..items / 2).map(text).collect();
    for number in 0..items / 2 {
        cache.insert(text(number), number as u64);
    }
    keys.iter().map(|it| u64::from(black_box(cache.get(texts[*it as usize].as_str())).is_some())).sum()
}

#[inline(never)]
fn rust_trace(mode: Mode, items: u64, keys: &[u64]) -> u64 {
    let mut cache: Cache<u64, u64, UnitWeighter, Folding> =
        Cache::with(items as usize, items, UnitWeighter, Folding, Default::default());
    let mut found = 0;
    match mode {
        // The crate knows no lives.
        Mode::GetAndInsert | Mode::Lives => {
            for it in keys {
                if black_box(cache.get(it)).is_some() {
                    found += 1;
                } else {
                    cache.insert(*it, *it);
                }
            }
        }
        Mode::Load | Mode::Run => {
            for it in keys {
                let mut hit = true;
                let loaded = cache.get_or_insert_with(it, || {
                    hit = false;
                    Ok::<u64, ()>(*it)
                });
                black_box(loaded.is_ok());
                found += u64::from(hit);
            }
        }
        Mode::RemoveAndInsert => {
            let (first, pairs) = keys.split_at(keys.len().min(items as usize / 2));
            for it in first {
                cache.insert(*it, *it);
            }
            for pair in pairs.chunks(2) {
                found += u64::from(black_box(cache.remove(&pair[0])).is_some());
                cache.insert(pair[1], pair[1]);
            }
        }
        Mode::Bytes => {
            for it in keys {
                cache.insert(*it, *it);
            }
            found = cache.memory_used().entries as u64;
        }
        Mode::Texts16 => return rust_texts(items as usize, keys, 16),
        Mode::Texts64 => return rust_texts(items as usize, keys, 64),
    }
    found
}

fn proved_trace(mode: Mode, items: u64, keys: &[u64]) -> u64 {
    // SAFETY: a slice is handed on as its pointer and its length.
    unsafe { qcbench_trace_0(mode as u32, items, keys.as_ptr(), keys.len()) }
}

fn proved_trace_32(mode: Mode, items: u64, keys: &[u64]) -> u64 {
    // SAFETY: as above.
    unsafe { qcbench_trace_32(mode as u32, items, keys.as_ptr(), keys.len()) }
}

/// Nanoseconds of an operation behind the first `warm` keys, and what was found among these.
fn timed(trace: impl Fn(&[u64]) -> u64, keys: &[u64], warm: usize, operations: usize) -> (f64, u64) {
    let begun = processor_time();
    let before = black_box(trace(&keys[..warm]));
    let warmed = processor_time();
    let all = black_box(trace(keys));
    let ended = processor_time();
    (((ended - warmed) - (warmed - begun)) * 1e9 / operations as f64, all - before)
}

fn median(mut values: Vec<f64>) -> f64 {
    values.sort_by(f64::total_cmp);
    values[values.len() / 2]
}

fn least(values: &[f64]) -> f64 {
    values.iter().copied().fold(f64::INFINITY, f64::min)
}

/// One row of the table. An operation is a key, or a removal and an insert.
struct Row {
    name: &'static str,
    entries: usize,
    mode: Mode,
    items: u64,
    warm: usize,
    keys: Vec<u64>,
}

impl Row {
    fn operations(&self) -> usize {
        let keys = self.keys.len() - self.warm;
        if self.mode == Mode::RemoveAndInsert { keys / 2 } else { keys }
    }

    fn print(&self, rounds: usize) {
        let mut proved = Vec::new();
        let mut rust = Vec::new();
        for round in 0..rounds {
            let mut found = [0; 2];
            let placed: Trace = if round / 2 % 2 == 0 { proved_trace } else { proved_trace_32 };
            for turn in 0..2 {
                let (times, trace): (_, Trace) =
                    if (round + turn) % 2 == 0 { (&mut proved, placed) } else { (&mut rust, rust_trace) };
                let (time, hits) =
                    timed(|keys| trace(self.mode, self.items, keys), &self.keys, self.warm, self.operations());
                times.push(time);
                found[turn] = hits;
            }
            assert_eq!(found[0], found[1], "{}: the two caches answer differently", self.name);
        }
        let ratio = median(proved.iter().zip(&rust).map(|(a, b)| a / b).collect());
        println!("| {} | {} | {:.1} | {:.1} | {ratio:.2} |", self.name, self.entries, least(&proved), least(&rust));
    }
}

fn rows(numbers: &mut Numbers, operations: usize) -> Vec<Row> {
    let mut rows = Vec::new();
    for entries in SIZES {
        let items = entries as u64;
        let present: Vec<u64> = (0..entries).map(key).collect();
        let fresh = |first: usize| (first..first + operations).map(key);
        let drawn: Vec<u64> = (0..operations).map(|_| present[numbers.below(entries)]).collect();
        let hits = [present.clone(), drawn].concat();
        let grown: Vec<u64> = (0..3 * entries).map(key).chain(fresh(3 * entries)).collect();
        let growing: Vec<u64> = (0..entries).map(key).chain(fresh(entries)).collect();
        // A third of these keys meet a ghost, once the cache has seen them all.
        let third: Vec<u64> = (0..3 * entries + operations).map(|_| key(numbers.below(entries + entries / 2))).collect();
        // Each comes back when as many others have come as make it a ghost.
        let returning: Vec<u64> = (0..3 * entries + operations).map(|at| key(at % (entries + entries / 4))).collect();
        let numbered: Vec<u64> = (0..entries + operations).map(|_| numbers.below(entries) as u64).collect();
        let mut standing = present.clone();
        let mut changes = present;
        for index in 0..operations / 2 {
            let place = numbers.below(entries);
            changes.push(standing[place]);
            standing[place] = key(entries + index);
            changes.push(standing[place]);
        }
        let mut row = |name, mode, items, warm, keys| rows.push(Row { name, entries, mode, items, warm, keys });
        row("hits by `get`", Mode::GetAndInsert, 2 * items, entries, hits.clone());
        row("hits by a load", Mode::Load, 2 * items, entries, hits.clone());
        row("hits by `run`", Mode::Run, 2 * items, entries, hits.clone());
        row("hits by `get` with lives", Mode::Lives, 2 * items, entries, hits);
        row("fresh keys by `get` and `insert`", Mode::GetAndInsert, items, 3 * entries, grown.clone());
        row("the same, with growth", Mode::GetAndInsert, items, entries, growing);
        row("fresh keys by a load", Mode::Load, items, 3 * entries, grown.clone());
        row("fresh keys by `run`", Mode::Run, items, 3 * entries, grown);
        row("removal and insert", Mode::RemoveAndInsert, 2 * items, entries, changes);
        row("a third ghosts by `get` and `insert`", Mode::GetAndInsert, items, 3 * entries, third.clone());
        row("a third ghosts by a load", Mode::Load, items, 3 * entries, third);
        row("keys that return", Mode::GetAndInsert, items, 3 * entries, returning);
        row("hits by texts of 16 bytes", Mode::Texts16, 2 * items, entries, numbered.clone());
        row("hits by texts of 64 bytes", Mode::Texts64, 2 * items, entries, numbered);
    }
    for entries in [10_000, 100_000] {
        let keys = numbers.zipf(1_000_000, 0.9, operations);
        let (name, mode) = ("Zipf 0.9 of a million keys", Mode::GetAndInsert);
        rows.push(Row { name, entries, mode, items: entries as u64, warm: operations / 2, keys });
    }
    rows
}

fn print_bytes() {
    println!("\n| Items | Proved: bytes an entry, ghosts too, index apart |\n|---|---|");
    for entries in SIZES.into_iter().chain([1_000_000]) {
        let keys: Vec<u64> = (0..3 * entries).map(key).collect();
        let bytes = proved_trace(Mode::Bytes, entries as u64, &keys);
        // There are half as many ghosts as items.
        println!("| {entries} | {:.1} |", bytes as f64 / (entries + entries / 2) as f64);
    }
}

fn main() {
    let mut words = std::env::args().skip(1);
    let mut numbers = Numbers(0x9e3779b97f4a7c15);
    match words.next().as_deref() {
        // One of the two alone, for a count of instructions: the number of a row, and operations.
        Some(side @ ("proved" | "rust")) => {
            let trace = if side == "proved" { proved_trace } else { rust_trace };
            let mut number = || words.next().and_then(|it| it.parse().ok()).expect("a number");
            let (index, operations): (usize, usize) = (number(), number());
            let row = &rows(&mut numbers, operations)[index];
            println!("{} {} {}", row.name, row.entries, trace(row.mode, row.items, &row.keys));
        }
        rounds => {
            let rounds = rounds.and_then(|it| it.parse().ok()).unwrap_or(7);
            let named = words.next().unwrap_or_default();
            println!("| Operation | Entries | Proved, ns | Rust, ns | Ratio |\n|---|---|---|---|---|");
            for row in rows(&mut numbers, OPERATIONS).iter().filter(|it| it.name.contains(&named)) {
                row.print(rounds);
            }
            if named.is_empty() {
                print_bytes();
            }
        }
    }
}
