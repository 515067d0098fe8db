//! Times the cache that threads share of the Rust crate, as `bench_sync threads` times the proved one: the same keys,
//! the same arguments and the same lines. Both have 16 shards, and hash by a few multiplications.
use quick_cache::sync::{Cache, DefaultLifecycle};
use quick_cache::{OptionsBuilder, UnitWeighter, unsync};
use std::time::Instant;

mod common;
use common::Folding;

type Shared = Cache<u64, u64, UnitWeighter, Folding, DefaultLifecycle<u64, u64>>;

fn empty(items: u32) -> Shared {
    let options = OptionsBuilder::new()
        .shards(16)
        .estimated_items_capacity(items as usize)
        .weight_capacity(u64::from(items))
        .build()
        .unwrap();
    Cache::with_options(options, UnitWeighter, Folding, DefaultLifecycle::default())
}

fn drawn(state: u64) -> u64 {
    state.wrapping_mul(6364136223846793005).wrapping_add(1442695040888963407)
}

fn key_below(keys: u64, state: u64) -> u64 {
    (state >> 32).wrapping_mul(keys) >> 32
}

/// Calls the function at each index, each in a thread of its own but the last, and adds the answers up.
fn by_threads(threads: u32, each: impl Fn(u64) -> u64 + Sync) -> u64 {
    std::thread::scope(|scope| {
        let each = &each;
        let others: Vec<_> = (1..threads).map(|index| scope.spawn(move || each(u64::from(index)))).collect();
        let own = each(0);
        own + others.into_iter().map(|thread| thread.join().unwrap()).sum::<u64>()
    })
}

/// Prints the nanoseconds of the longest insert into a cache for one thread that is made for so many items, a line
/// a round.
fn time_growth(items: u32, rounds: u32) {
    for _ in 0..rounds {
        let mut cache: unsync::Cache<u64, u64, UnitWeighter, Folding> =
            unsync::Cache::with(items as usize, u64::from(items), UnitWeighter, Folding, Default::default());
        let mut longest = 0;
        for key in 0..u64::from(items) {
            let start = Instant::now();
            cache.insert(key, key);
            longest = longest.max(start.elapsed().as_nanos());
        }
        println!("{longest}");
    }
}

fn main() {
    let words: Vec<String> = std::env::args().skip(1).collect();
    if let [first, items, rounds] = &words[..]
        && first == "growth"
    {
        return time_growth(items.parse().unwrap(), rounds.parse().unwrap());
    }
    let numbers: Vec<u32> = std::env::args().skip(1).map(|word| word.parse().unwrap()).collect();
    let [threads, operations, items, rounds] = numbers[..] else {
        panic!("usage: THREADS OPERATIONS ITEMS ROUNDS");
    };
    let part = operations / threads;
    for _ in 0..rounds {
        let known = empty(items * 2);
        let full = empty(items);
        for key in 0..u64::from(items) {
            known.insert(key, key);
        }
        for key in 0..u64::from(items) * 2 {
            full.insert(key, key);
        }
        let start = Instant::now();
        let found = by_threads(threads, |index| {
            let mut state = index;
            let mut found = 0;
            for _ in 0..part {
                state = drawn(state);
                if known.get(&key_below(u64::from(items), state)).is_some() {
                    found += 1;
                }
            }
            found
        });
        let gets = start.elapsed();
        let start = Instant::now();
        let stored = by_threads(threads, |index| {
            let mut key = (index + 1) << 33;
            for _ in 0..part {
                full.insert(key, key);
                key += 1;
            }
            u64::from(part)
        });
        let inserts = start.elapsed();
        let keys = u64::from(items + items / 2);
        let start = Instant::now();
        let made = by_threads(threads, |index| {
            let mut state = index;
            for _ in 0..part {
                state = drawn(state);
                let key = key_below(keys, state);
                if full.get(&key).is_none() {
                    full.insert(key, key);
                }
            }
            u64::from(part)
        });
        let both = start.elapsed();
        assert_eq!([found, stored, made], [u64::from(part * threads); 3]);
        println!("{} {} {}", gets.as_nanos(), inserts.as_nanos(), both.as_nanos());
    }
}
