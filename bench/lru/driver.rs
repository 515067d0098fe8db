//! Times two LRU caches in Rust and std's map over the same keys as the cache for one thread. See README.md.
use hashlink::LruCache as Linked;
use lru::LruCache as Lru;
use std::collections::HashMap;
use std::hint::black_box;

mod common;
use common::{Folding, processor_time};

const SIZES: [usize; 3] = [1_000, 10_000, 100_000];
const OPERATIONS: usize = 1_000_000;

/// Numbers that are near each other are keys that are not.
fn key(index: usize) -> u64 {
    (index as u64).wrapping_mul(0xbf58476d1ce4e5b9).rotate_left(31)
}

/// Looks each key up, inserts what is not found, and counts the hits.
type Trace = fn(usize, &[u64]) -> u64;

fn by_lru(items: usize, keys: &[u64]) -> u64 {
    let mut cache = Lru::with_hasher(items, Folding);
    let mut found = 0;
    for it in keys {
        if black_box(cache.get(it)).is_some() {
            found += 1;
        } else {
            cache.put(*it, *it);
        }
    }
    found
}

fn by_hashlink(items: usize, keys: &[u64]) -> u64 {
    let mut cache = Linked::with_hasher(items, Folding);
    let mut found = 0;
    for it in keys {
        if black_box(cache.get(it)).is_some() {
            found += 1;
        } else {
            cache.insert(*it, *it);
        }
    }
    found
}

/// The limit: it keeps no order, and takes nothing out.
fn by_map(items: usize, keys: &[u64]) -> u64 {
    let mut map = HashMap::with_capacity_and_hasher(items, Folding);
    let mut found = 0;
    for it in keys {
        if black_box(map.get(it)).is_some() {
            found += 1;
        } else {
            map.insert(*it, *it);
        }
    }
    found
}

/// Nanoseconds of a key behind the first `warm`, the least of the rounds.
fn timed(trace: Trace, items: usize, keys: &[u64], warm: usize, rounds: usize) -> f64 {
    let mut least = f64::INFINITY;
    for _ in 0..rounds {
        let begun = processor_time();
        black_box(trace(items, &keys[..warm]));
        let warmed = processor_time();
        black_box(trace(items, keys));
        let both = processor_time() - warmed;
        least = least.min((both - (warmed - begun)) * 1e9 / (keys.len() - warm) as f64);
    }
    least
}

fn main() {
    let rounds = std::env::args().nth(1).and_then(|it| it.parse().ok()).unwrap_or(7);
    println!("| Operation | Entries | `lru`, ns | `hashlink`, ns | `HashMap`, ns |\n|---|---|---|---|---|");
    for entries in SIZES {
        let mut state = 1u64;
        let mut drawn = || {
            state = state.wrapping_mul(6364136223846793005).wrapping_add(1442695040888963407);
            key((((state >> 32) * entries as u64) >> 32) as usize)
        };
        let hits: Vec<u64> = (0..entries).map(key).chain((0..OPERATIONS).map(|_| drawn())).collect();
        let fresh: Vec<u64> = (0..3 * entries + OPERATIONS).map(key).collect();
        let row = |trace: Trace, items, keys, warm| format!("{:.1}", timed(trace, items, keys, warm, rounds));
        let cells = [by_lru, by_hashlink, by_map].map(|it| row(it, 2 * entries, &hits, entries));
        println!("| hits | {entries} | {} |", cells.join(" | "));
        let cells = [by_lru, by_hashlink].map(|it| row(it, entries, &fresh, 3 * entries));
        println!("| fresh keys | {entries} | {} | |", cells.join(" | "));
    }
}
