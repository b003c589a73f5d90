//! The calls that crates/parts_bench measures, on Rust's own pair of BTreeMaps.
use std::collections::BTreeMap;
use std::hint::black_box;
use std::time::Instant;

#[derive(Clone, Copy, PartialEq, Eq, PartialOrd, Ord)]
struct Key {
    number: u64,
    leg: u8,
}

#[derive(Default)]
struct Queue {
    by_key: BTreeMap<Key, u64>,
    by_due: BTreeMap<(u64, Key), ()>,
}

impl Queue {
    fn put(&mut self, key: Key, due: u64) {
        self.by_due.insert((due, key), ());
        self.by_key.insert(key, due);
    }

    fn drop_key(&mut self, key: Key) -> bool {
        match self.by_key.remove(&key) {
            Some(due) => {
                self.by_due.remove(&(due, key));
                true
            }
            None => false,
        }
    }

    fn first_due(&self) -> Option<(Key, u64)> {
        self.by_due.first_key_value().map(|(&(due, key), _)| (key, due))
    }
}

// The moment at which a request is due: in no order.
fn moment(number: u64) -> u64 {
    number.wrapping_mul(0x9E37_79B9_7F4A_7C15) >> 24
}

fn put_many(queue: &mut Queue, from: u64, to: u64) {
    for number in from..to {
        queue.put(Key { number, leg: 0 }, moment(number));
    }
}

fn ask_many(queue: &Queue, times: u64) -> u64 {
    let mut seen = 0u64;
    for _ in 0..times {
        if let Some((_, due)) = black_box(queue).first_due() {
            seen = seen.rotate_left(1) ^ due;
        }
    }
    seen
}

fn drop_many(queue: &mut Queue, from: u64, to: u64) -> u64 {
    (from..to).filter(|&number| queue.drop_key(Key { number, leg: 0 })).count() as u64
}

fn main() {
    let keys: u64 = std::env::args().nth(1).and_then(|word| word.parse().ok()).unwrap_or(1_000);
    let batch = (keys / 8).max(1);
    let mut queue = Queue::default();
    put_many(&mut queue, 0, keys);
    let (mut put, mut first_due, mut drop_key, mut dropped, mut seen) = (0, 0, 0, 0, 0);
    for round in 0..4_000_000 / batch {
        let (oldest, next) = (round * batch, keys + round * batch);
        let start = Instant::now();
        put_many(&mut queue, next, next + batch);
        let after_put = Instant::now();
        seen ^= ask_many(&queue, batch);
        let after_asking = Instant::now();
        dropped += drop_many(&mut queue, oldest, oldest + batch);
        drop_key += after_asking.elapsed().as_nanos();
        put += (after_put - start).as_nanos();
        first_due += (after_asking - after_put).as_nanos();
    }
    black_box(seen);
    let calls = u128::from(dropped.max(1));
    println!("{keys} {} {} {}", put * 10 / calls, first_due * 10 / calls, drop_key * 10 / calls);
}
