//! Tables by small numbers, with a hash that is one product a number.

use std::collections::HashMap;
use std::hash::{BuildHasherDefault, Hasher};

const FACTOR: u64 = 0xF135_7AEA_2E62_A9C5;

#[derive(Clone, Copy, Default)]
pub struct NumberHasher {
    state: u64,
}

impl Hasher for NumberHasher {
    fn write(&mut self, bytes: &[u8]) {
        for byte in bytes {
            self.write_u64(u64::from(*byte));
        }
    }

    fn write_u32(&mut self, number: u32) {
        self.write_u64(u64::from(number));
    }

    fn write_u64(&mut self, number: u64) {
        self.state = (self.state.rotate_left(32) ^ number).wrapping_mul(FACTOR);
    }

    fn finish(&self) -> u64 {
        self.state.rotate_left(26)
    }
}

pub type ByNumber<K, V> = HashMap<K, V, BuildHasherDefault<NumberHasher>>;
