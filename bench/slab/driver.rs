//! Times the proved slab, as a static library, against the slab of the Rust crate, and compares each answer.
//!
//! Each is linked at four places, 16 bytes apart, and the mean of the four counts: where a jump stands in its
//! line of 32 bytes changes the time of such a short loop by a tenth and more, and no caller chooses it.
use std::arch::asm;
use std::time::Instant;

#[path = "rust_slab.rs"]
#[allow(dead_code)]
mod rust_slab;
use rust_slab::{LinkedSlab, Token};

type Run = unsafe extern "C" fn(
    kinds: *const u8, kinds_len: usize,
    tokens: *const u32, tokens_len: usize,
    heads: *const u32, heads_len: usize,
    answers: *mut u64, answers_len: usize,
) -> u64;

macro_rules! placed {
    ($($name:ident),*) => {
        unsafe extern "C" {
            $(fn $name(
                kinds: *const u8, kinds_len: usize,
                tokens: *const u32, tokens_len: usize,
                heads: *const u32, heads_len: usize,
                answers: *mut u64, answers_len: usize,
            ) -> u64;)*
        }
        const OURS: [Run; 4] = [$($name),*];
    };
}
placed!(slab_run_0, slab_run_16, slab_run_32, slab_run_48);

type RustRun = fn(&[u8], &[u32], &[u32], &mut [u64]) -> u64;
const THEIRS: [RustRun; 4] = [rust_run::<0>, rust_run::<16>, rust_run::<32>, rust_run::<48>];

#[derive(Clone, Copy)]
struct Payload([u64; 8]);

const REFUSED: u64 = u64::MAX;

#[inline(never)]
fn rust_run<const PLACE: usize>(kinds: &[u8], tokens: &[u32], heads: &[u32], answers: &mut [u64]) -> u64 {
    unsafe { asm!(".balign 64", ".skip {place}, 0x90", place = const PLACE) };
    let mut slab: LinkedSlab<Payload> = LinkedSlab::with_capacity(0);
    for i in 0..kinds.len().min(tokens.len()).min(heads.len()).min(answers.len()) {
        let token = Token::new(tokens[i]).unwrap();
        let head = Token::new(heads[i]).unwrap();
        answers[i] = match kinds[i] {
            0 => slab.get(token).map_or(REFUSED, |(item, next)| item.0[0] ^ next.get() as u64),
            1 => slab.insert(Payload([tokens[i] as u64; 8])).get() as u64,
            2 => slab.remove(token).map_or(REFUSED, |(item, _)| item.0[0]),
            _ => {
                if slab.get(token).is_none() || slab.get(head).is_none() || head == token {
                    REFUSED
                } else {
                    slab.unlink(token);
                    slab.link(token, Some(head)).get() as u64
                }
            }
        };
    }
    kinds.len() as u64
}

#[derive(Default)]
struct Calls { kinds: Vec<u8>, tokens: Vec<u32>, heads: Vec<u32> }

impl Calls {
    fn add(&mut self, kind: u8, token: u32, head: u32) {
        self.kinds.push(kind);
        self.tokens.push(token);
        self.heads.push(head);
    }
}

// The best time of so many runs of each at each place, in turn, in nanoseconds.
fn times(calls: &Calls, runs: usize) -> ([f64; 4], [f64; 4]) {
    let n = calls.kinds.len();
    let (mut ours, mut theirs) = (vec![0u64; n], vec![0u64; n]);
    let (mut best_ours, mut best_theirs) = ([f64::MAX; 4], [f64::MAX; 4]);
    for _ in 0..runs {
        for place in 0..4 {
            let start = Instant::now();
            let done = unsafe {
                OURS[place](
                    calls.kinds.as_ptr(), n, calls.tokens.as_ptr(), n, calls.heads.as_ptr(), n, ours.as_mut_ptr(), n,
                )
            };
            best_ours[place] = best_ours[place].min(start.elapsed().as_nanos() as f64);
            assert_eq!(done, n as u64);
            let start = Instant::now();
            THEIRS[place](&calls.kinds, &calls.tokens, &calls.heads, &mut theirs);
            best_theirs[place] = best_theirs[place].min(start.elapsed().as_nanos() as f64);
            assert!(ours == theirs, "the answers differ");
        }
    }
    (best_ours, best_theirs)
}

// The nanoseconds of each of a million operations, at each place, less the time of filling the slab.
fn each(whole: [f64; 4], filling: [f64; 4]) -> [f64; 4] {
    std::array::from_fn(|place| (whole[place] - filling[place]) / 1e6)
}

fn mean(times: [f64; 4]) -> f64 {
    times.into_iter().sum::<f64>() / 4.0
}

fn main() {
    let runs = std::env::args().nth(1).map_or(9, |runs| runs.parse().expect("a number of runs"));
    for slots in [1_000u32, 100_000] {
        let mut seed = 88172645463325252u64;
        let mut random = move || {
            seed ^= seed << 13;
            seed ^= seed >> 7;
            seed ^= seed << 17;
            (seed % slots as u64) as u32 + 1
        };
        let setup = || {
            let mut calls = Calls::default();
            for token in 1..=slots {
                calls.add(1, token, 1);
            }
            for token in 2..=slots {
                calls.add(3, token, 1);
            }
            calls
        };
        let filling = times(&setup(), runs);
        for (name, kind) in [("get", 0u8), ("unlink and link", 3), ("remove and insert", 2)] {
            let mut calls = setup();
            for _ in 0..1_000_000 {
                let token = if kind == 3 { random().max(2) } else { random() };
                calls.add(kind, token, 1);
                if kind == 2 {
                    calls.add(1, token, 1);
                }
            }
            let (ours, theirs) = times(&calls, runs);
            let (ours, theirs) = (each(ours, filling.0), each(theirs, filling.1));
            let (our_mean, rust_mean) = (mean(ours), mean(theirs));
            println!("{slots:>7} slots  {name:<18} {our_mean:>6.2} ns  Rust {rust_mean:>6.2} ns  ratio {:.2}", our_mean / rust_mean);
            println!("    at each place {ours:.2?}  Rust {theirs:.2?}");
        }
    }
}
