//! What the drivers share: the hash builder of the Rust side, and a clock.
#![allow(dead_code)]
use std::hash::{BuildHasher, Hasher};

/// Hashes a number by two folded multiplications, and a text by one for each sixteen bytes, as the proved
/// cache does by default.
#[derive(Clone, Default)]
pub struct Folding;

pub struct Fold(u64);

fn folded(a: u64, b: u64) -> u64 {
    let product = u128::from(a) * u128::from(b);
    (product as u64) ^ ((product >> 64) as u64)
}

impl BuildHasher for Folding {
    type Hasher = Fold;

    fn build_hasher(&self) -> Fold {
        Fold(0x452821e638d01377)
    }
}

impl Hasher for Fold {
    fn write(&mut self, bytes: &[u8]) {
        let word = |at: usize| u64::from_le_bytes(bytes[at..at + 8].try_into().unwrap());
        let length = bytes.len();
        if length < 16 {
            for byte in bytes {
                self.write_u64(u64::from(*byte));
            }
            return;
        }
        for at in (0..length - 16).step_by(16).chain([length - 16]) {
            self.0 = folded(self.0 ^ word(at), 0x9e3779b97f4a7c15 ^ word(at + 8));
        }
    }

    fn write_u64(&mut self, number: u64) {
        self.0 = folded(self.0 ^ number, 0x9e3779b97f4a7c15);
    }

    fn finish(&self) -> u64 {
        folded(self.0, 0xa0761d6478bd642f)
    }
}

unsafe extern "C" {
    fn clock_gettime(clock: i32, time: *mut Time) -> i32;
}

#[repr(C)]
struct Time {
    seconds: i64,
    nanoseconds: i64,
}

/// The seconds that this thread has had a processor, by Linux's clock for that: what else the
/// machine does counts only by what it leaves in the caches.
pub fn processor_time() -> f64 {
    let mut time = Time { seconds: 0, nanoseconds: 0 };
    // SAFETY: the clock writes the time, and keeps no pointer to it.
    assert_eq!(unsafe { clock_gettime(3, &mut time) }, 0);
    time.seconds as f64 + time.nanoseconds as f64 * 1e-9
}
