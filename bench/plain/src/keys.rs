//! Keys of four numbers in six ordered sets, one for each order of their parts that a search wants.
use std::collections::BTreeSet;
use std::time::Instant;

type Key = [u32; 4];

/// Where graph, subject, predicate and object stand in each order.
const ORDERS: [[usize; 4]; 6] = [[0, 1, 2, 3], [0, 2, 3, 1], [0, 3, 1, 2], [1, 2, 3, 0], [2, 3, 1, 0], [3, 1, 2, 0]];

struct Index {
    orders: [BTreeSet<Key>; 6],
}

fn arranged(order: &[usize; 4], key: &Key) -> Key {
    order.map(|part| key[part])
}

fn restored(order: &[usize; 4], placed: &Key) -> Key {
    let mut key = [0; 4];
    for (part, number) in order.iter().zip(placed) {
        key[*part] = *number;
    }
    key
}

impl Index {
    fn insert(&mut self, key: &Key) -> bool {
        let mut new = true;
        for (order, keys) in ORDERS.iter().zip(&mut self.orders) {
            new = keys.insert(arranged(order, key));
            if !new {
                break;
            }
        }
        new
    }

    fn remove(&mut self, key: &Key) -> bool {
        let mut was = true;
        for (order, keys) in ORDERS.iter().zip(&mut self.orders) {
            was = keys.remove(&arranged(order, key));
            if !was {
                break;
            }
        }
        was
    }

    /// The keys that have the bound parts of a pattern.
    fn matching(&self, pattern: &[Option<u32>; 4]) -> Vec<Key> {
        let bound = pattern.iter().flatten().count();
        let at = ORDERS.iter().position(|order| order[..bound].iter().all(|part| pattern[*part].is_some())).unwrap();
        let order = &ORDERS[at];
        let low = order.map(|part| pattern[part].unwrap_or(0));
        let matches = |placed: &&Key| placed[..bound] == low[..bound];
        self.orders[at].range(low..).take_while(matches).map(|placed| restored(order, placed)).collect()
    }
}

fn key_of(number: u32) -> Key {
    let mixed = number.wrapping_mul(2_654_435_761);
    [number % 4, 1 + (mixed >> 8) % 100_000, 1 + number % 20, 1 + mixed % 300_007]
}

fn pattern_of(number: u32) -> [Option<u32>; 4] {
    let [_, s, p, o] = key_of(number);
    let kind = number / 4 % 4;
    [None, (kind < 2).then_some(s), (kind % 2 == 1).then_some(p), (kind >= 2).then_some(o)]
}

/// Inserts, matches and removes the keys of so many numbers, and prints the times.
pub fn measure(count: u32) {
    let mut index = Index { orders: Default::default() };
    let start = Instant::now();
    let inserted = (0..count).filter(|number| index.insert(&key_of(*number))).count();
    println!("insert {inserted} micros {}", start.elapsed().as_micros());
    let start = Instant::now();
    let matched: usize = (0..count).map(|number| index.matching(&pattern_of(number)).len()).sum();
    println!("match {matched} micros {}", start.elapsed().as_micros());
    let start = Instant::now();
    let removed = (0..count).filter(|number| index.remove(&key_of(*number))).count();
    println!("remove {removed} micros {}", start.elapsed().as_micros());
}
