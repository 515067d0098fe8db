//! Times the table beside a probe table and std's `HashMap`, in one run.
use std::collections::HashMap;
use std::hash::{BuildHasherDefault, Hasher};

#[path = "../common.rs"]
mod common;
use common::processor_time;

unsafe extern "C" {
    fn table_bench(
        hashes: *const u64,
        hash_count: usize,
        room: usize,
        looked: *const u64,
        looked_count: usize,
        moves: bool,
        rounds: u64,
    ) -> u64;
    fn table_bytes(room: usize) -> usize;
}

/// A hash is its own hash.
#[derive(Default)]
struct Same(u64);

impl Hasher for Same {
    fn write(&mut self, _: &[u8]) {
        unreachable!()
    }
    fn write_u64(&mut self, n: u64) {
        self.0 = n;
    }
    fn finish(&self) -> u64 {
        self.0
    }
}

type Map = HashMap<u64, u32, BuildHasherDefault<Same>>;

/// Linear probing, by token 0 where a place is free, with backward shifts on removal.
struct Probe {
    places: Vec<(u64, u32)>,
    mask: usize,
}

impl Probe {
    fn new(room: usize) -> Self {
        let places = room.next_power_of_two();
        Probe { places: vec![(0, 0); places], mask: places - 1 }
    }

    #[inline]
    fn position(&self, hash: u64) -> Option<usize> {
        let mut at = hash as usize & self.mask;
        loop {
            let (other, token) = self.places[at];
            if token == 0 {
                return None;
            }
            if other == hash {
                return Some(at);
            }
            at = (at + 1) & self.mask;
        }
    }

    fn insert(&mut self, hash: u64, token: u32) {
        let mut at = hash as usize & self.mask;
        while self.places[at].1 != 0 {
            at = (at + 1) & self.mask;
        }
        self.places[at] = (hash, token);
    }

    fn remove(&mut self, mut hole: usize) {
        let mut at = hole;
        loop {
            at = (at + 1) & self.mask;
            let (hash, token) = self.places[at];
            if token == 0 {
                break;
            }
            let home = hash as usize & self.mask;
            if (at.wrapping_sub(home) & self.mask) >= (at.wrapping_sub(hole) & self.mask) {
                self.places[hole] = (hash, token);
                hole = at;
            }
        }
        self.places[hole] = (0, 0);
    }
}

fn probe_run(hashes: &[u64], room: usize, looked: &[u64], moves: bool, rounds: u64) -> u64 {
    let mut table = Probe::new(room);
    for (index, hash) in hashes.iter().enumerate() {
        table.insert(*hash, index as u32 + 1);
    }
    let mut sum = 0u64;
    for _ in 0..rounds {
        for hash in looked {
            if let Some(at) = table.position(*hash) {
                let token = table.places[at].1;
                if moves {
                    table.remove(at);
                    table.insert(*hash, token);
                }
                sum = sum.wrapping_add(u64::from(token));
            }
        }
    }
    sum
}

fn map_run(hashes: &[u64], room: usize, looked: &[u64], moves: bool, rounds: u64) -> u64 {
    let mut table = Map::with_capacity_and_hasher(room, Default::default());
    for (index, hash) in hashes.iter().enumerate() {
        table.insert(*hash, index as u32 + 1);
    }
    let mut sum = 0u64;
    for _ in 0..rounds {
        for hash in looked {
            if let Some(token) = table.get(hash).copied() {
                if moves {
                    table.remove(hash);
                    table.insert(*hash, token);
                }
                sum = sum.wrapping_add(u64::from(token));
            }
        }
    }
    sum
}

fn table_run(hashes: &[u64], room: usize, looked: &[u64], moves: bool, rounds: u64) -> u64 {
    unsafe { table_bench(hashes.as_ptr(), hashes.len(), room, looked.as_ptr(), looked.len(), moves, rounds) }
}

fn next(state: &mut u64) -> u64 {
    *state = state.wrapping_add(0x9E37_79B9_7F4A_7C15);
    let mut z = *state;
    z = (z ^ (z >> 30)).wrapping_mul(0xBF58_476D_1CE4_E5B9);
    z = (z ^ (z >> 27)).wrapping_mul(0x94D0_49BB_1331_11EB);
    z ^ (z >> 31)
}

type Run = fn(&[u64], usize, &[u64], bool, u64) -> u64;

const RUNS: [Run; 3] = [table_run, probe_run, map_run];

fn seconds(run: impl FnOnce() -> u64) -> (f64, u64) {
    let start = processor_time();
    let sum = run();
    (processor_time() - start, sum)
}

/// Nanoseconds an operation of each of the three, the best of all turns, without the filling.
fn timed(hashes: &[u64], room: usize, looked: &[u64], moves: bool, rounds: u64) -> [f64; 3] {
    let mut filled = [f64::MAX; 3];
    let mut all = [f64::MAX; 3];
    // The three take turns, so that what slows the machine down slows all of them.
    let turns = (4_000_000 / hashes.len()).clamp(9, 40);
    for _ in 0..turns {
        let mut sums = [0; 3];
        for (index, run) in RUNS.iter().enumerate() {
            let (time, _) = seconds(|| run(hashes, room, looked, moves, 0));
            filled[index] = filled[index].min(time);
            let (time, sum) = seconds(|| run(hashes, room, looked, moves, rounds));
            all[index] = all[index].min(time);
            sums[index] = sum;
        }
        assert!(sums[0] == sums[1] && sums[1] == sums[2], "the answers differ");
    }
    let count = looked.len() as f64 * rounds as f64;
    [0, 1, 2].map(|index| (all[index] - filled[index]) * 1e9 / count)
}

fn measure(count: usize, load: usize) {
    let room = count * 100 / load;
    let mut state = 7;
    let hashes: Vec<u64> = (0..count).map(|_| next(&mut state)).collect();
    let mut hits = hashes.clone();
    for i in (1..hits.len()).rev() {
        hits.swap(i, next(&mut state) as usize % (i + 1));
    }
    let misses: Vec<u64> = (0..count).map(|_| next(&mut state)).collect();
    let bytes = unsafe { table_bytes(room) } / count;
    let rounds = (1_500_000 / count as u64).max(3);
    for (name, looked, moves) in
        [("find hit", &hits, false), ("find miss", &misses, false), ("find, remove, insert", &hits, true)]
    {
        let [ours, probe, map] = timed(&hashes, room, looked, moves, rounds);
        println!(
            "| {count} | {room} | {bytes} | {name} | {ours:.1} ns | {probe:.1} ns | {map:.1} ns | {:.2} |",
            ours / map
        );
    }
}

/// The arguments are numbers of pairs; with none, these three.
fn main() {
    let mut counts: Vec<usize> = std::env::args().skip(1).map(|word| word.parse().unwrap()).collect();
    if counts.is_empty() {
        counts = vec![1_000, 100_000, 1_000_000];
    }
    println!("| Pairs | Room | Bytes a pair | Operation | Table | Probe table | `HashMap` | Of `HashMap` |");
    println!("|---|---|---|---|---|---|---|---|");
    for count in counts {
        for load in [50, 95] {
            measure(count, load);
        }
    }
}
