//! What lent buffers hold before a call: nothing that a program may rely on, the same for the same seed.

use std::sync::OnceLock;

use crate::random::Random;

const POOL: usize = 1 << 14;

/// Numbers to copy from: any, small ones as an earlier run may have left them, all ones, ones.
fn pool(kind: u64) -> &'static [u32] {
    static POOLS: OnceLock<[Vec<u32>; 4]> = OnceLock::new();
    let pools = POOLS.get_or_init(|| {
        let mut random = Random::new(0xD127);
        let any = (0..POOL).map(|_| random.bits() as u32).collect();
        let small = (0..POOL).map(|_| random.below(300) as u32).collect();
        [any, small, vec![u32::MAX; POOL], vec![1; POOL]]
    });
    &pools[(kind % 4) as usize]
}

pub fn soil(numbers: &mut [u32], dirt: u64) {
    let pool = pool(dirt);
    let start = (dirt >> 2) as usize % POOL;
    let mut from = &pool[start..];
    let mut left = numbers;
    while !left.is_empty() {
        let length = from.len().min(left.len());
        let (now, later) = left.split_at_mut(length);
        now.copy_from_slice(&from[..length]);
        left = later;
        from = pool;
    }
}

pub fn soil_bytes(bytes: &mut [u8], dirt: u64) {
    let pool = pool(dirt);
    let start = (dirt >> 2) as usize % POOL;
    for (place, byte) in bytes.iter_mut().enumerate() {
        *byte = pool[(start + place) % POOL] as u8;
    }
}
