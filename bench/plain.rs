// The loops of bench_store in plain Rust, over the same data structures: a row of bits with two rows above it, and nodes in
// chunks of 256.
use std::env;

const LIMIT: u32 = 1_000_000;
const SEARCHES: u32 = 10_000_000;
const NODES: u64 = 10_000_000;

struct Row(Vec<u64>);

impl Row {
    fn set(&mut self, place: usize) {
        self.0[place / 64] |= 1 << (place % 64);
    }

    fn next_in_word(&self, from: usize) -> Option<usize> {
        let word = self.0.get(from / 64)? & (u64::MAX << (from % 64));
        (word != 0).then(|| from / 64 * 64 + word.trailing_zeros() as usize)
    }

    fn next_from(&self, from: usize) -> Option<usize> {
        self.next_in_word(from)
            .or_else(|| (from / 64 + 1..self.0.len()).find_map(|at| self.next_in_word(64 * at)))
    }
}

struct Set {
    row: Row,
    words: Row,
    blocks: Row,
}

impl Set {
    fn new(len: usize) -> Set {
        Set {
            row: Row(vec![0; len / 64 + 1]),
            words: Row(vec![0; len / 4096 + 1]),
            blocks: Row(vec![0; len / 262_144 + 1]),
        }
    }

    fn insert(&mut self, number: usize) {
        self.row.set(number);
        self.words.set(number / 64);
        self.blocks.set(number / 4096);
    }

    fn search(&self, from: usize) -> Option<usize> {
        if let Some(place) = self.row.next_in_word(from) {
            return Some(place);
        }
        let from = from / 64 + 1;
        let word = match self.words.next_in_word(from) {
            Some(word) => word,
            None => self.words.next_in_word(64 * self.blocks.next_from(from / 64 + 1)?)?,
        };
        self.row.next_in_word(64 * word)
    }

    fn next_from(&self, number: u32) -> Option<u32> {
        self.search(number as usize)
            .or_else(|| self.search(0))
            .map(|place| place as u32)
    }
}

fn filled_set(step: u32) -> Set {
    let mut set = Set::new(LIMIT as usize + 1);
    for number in 1..LIMIT + 1 {
        if number % step == 0 {
            set.insert(number as usize);
        }
    }
    set
}

fn searched(set: &Set) -> u64 {
    let mut number = 1u32;
    let mut sum = 0u64;
    for _ in 0..SEARCHES {
        number = number.wrapping_mul(1664525).wrapping_add(1013904223);
        if let Some(member) = set.next_from(number % LIMIT) {
            sum = sum.wrapping_add(u64::from(member));
        }
    }
    sum
}

fn pushed_and_read() -> u64 {
    let mut chunks: Vec<Vec<u64>> = Vec::new();
    for node in 0..NODES {
        match chunks.last_mut() {
            Some(chunk) if chunk.len() < 256 => chunk.push(node),
            _ => {
                let mut chunk = Vec::with_capacity(256);
                chunk.push(node);
                chunks.push(chunk);
            }
        }
    }
    let mut sum = 0u64;
    for index in 0..NODES as usize {
        sum = sum.wrapping_add(chunks[index / 256][index % 256]);
    }
    sum
}

fn main() {
    for word in env::args().skip(1) {
        let sum = match word.as_str() {
            "one" => searched(&filled_set(LIMIT)),
            "thousand" => searched(&filled_set(1000)),
            "all" => searched(&filled_set(1)),
            "arena" => pushed_and_read(),
            _ => 0,
        };
        println!("{word} {sum}");
    }
}
