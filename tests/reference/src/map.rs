//! A persistent map from numbers: a radix tree of fixed depth, in which an update copies one path.

use std::rc::Rc;

const BITS: u32 = 4;
const FAN: usize = 1 << BITS;
const DEPTH: u32 = 5;

/// Keys are below this. A walk makes at most 8 variables for each of 50,000 units and 8 more at its start, and fewer
/// assumptions.
pub const KEYS: u32 = 1 << (BITS * DEPTH);

pub struct Map<T>(Option<Rc<Branch<T>>>);

enum Branch<T> {
    Inner([Map<T>; FAN]),
    Leaf([Option<T>; FAN]),
}

impl<T> Clone for Map<T> {
    fn clone(&self) -> Map<T> {
        Map(self.0.clone())
    }
}

fn digit(key: u32, depth: u32) -> usize {
    (key >> (BITS * depth)) as usize % FAN
}

impl<T> Map<T> {
    pub fn empty() -> Map<T> {
        Map(None)
    }

    pub fn get(&self, key: u32) -> Option<&T> {
        let mut tree = self;
        let mut depth = DEPTH;
        loop {
            depth = depth.wrapping_sub(1);
            match tree.0.as_deref()? {
                Branch::Inner(parts) => tree = &parts[digit(key, depth)],
                Branch::Leaf(values) => return values[digit(key, 0)].as_ref(),
            }
        }
    }
}

impl<T: Clone> Map<T> {
    pub fn with(&self, key: u32, value: T) -> Map<T> {
        assert!(key < KEYS);
        self.with_below(key, value, DEPTH - 1)
    }

    /// Recursive, but at most `DEPTH` deep.
    fn with_below(&self, key: u32, value: T, depth: u32) -> Map<T> {
        let place = digit(key, depth);
        let changed = if depth == 0 {
            let mut values = match self.0.as_deref() {
                Some(Branch::Leaf(values)) => values.clone(),
                _ => std::array::from_fn(|_| None),
            };
            values[place] = Some(value);
            Branch::Leaf(values)
        } else {
            let mut parts = match self.0.as_deref() {
                Some(Branch::Inner(parts)) => parts.clone(),
                _ => std::array::from_fn(|_| Map::empty()),
            };
            parts[place] = parts[place].with_below(key, value, depth - 1);
            Branch::Inner(parts)
        };
        Map(Some(Rc::new(changed)))
    }
}
