//! The list that is written, the tally of branches, and a small random number generator.
use std::collections::BTreeMap;
use std::io::{BufWriter, Write};

/// The kinds of docs/REPLAY.md.
pub const CRC16: u8 = 1;
pub const SCRAMBLE: u8 = 2;
pub const DESCRAMBLE: u8 = 3;
pub const FIELD: u8 = 4;
pub const MAKE_TAIL: u8 = 5;
pub const REPAIR_TAIL: u8 = 6;
pub const REPAIR_WORD: u8 = 7;
pub const TABLE: u8 = 8;
pub const ENCODE: u8 = 9;
pub const DECODE: u8 = 10;
pub const DECODE_SOFT: u8 = 11;
pub const NEW_SYNCHRONISER: u8 = 12;
pub const PUSH: u8 = 13;
pub const PUSH_SOFT: u8 = 14;
pub const NEW_MERGER: u8 = 15;
pub const MERGER_PUSH: u8 = 16;
pub const MERGER_RELEASE: u8 = 17;
pub const FEED: u8 = 18;
pub const FEED_SOFT: u8 = 19;
pub const FEED_PACKED: u8 = 20;

/// Where a repair's number of places stands: the call without erasures.
pub const NO_ERASURES: u8 = 255;

pub struct Random(u64);

impl Random {
    pub fn new(seed: u64) -> Self {
        let mut random = Random(seed.wrapping_mul(0x9e37_79b9_7f4a_7c15) | 1);
        for _ in 0..16 {
            random.next();
        }
        random
    }
    pub fn next(&mut self) -> u64 {
        self.0 ^= self.0 << 13;
        self.0 ^= self.0 >> 7;
        self.0 ^= self.0 << 17;
        self.0.wrapping_mul(0x2545_f491_4f6c_dd1d)
    }
    pub fn below(&mut self, n: u64) -> u64 {
        (self.next() >> 11) % n
    }
    /// Once in n times.
    pub fn once_in(&mut self, n: u64) -> bool {
        self.below(n) == 0
    }
    pub fn byte(&mut self) -> u8 {
        (self.next() >> 24) as u8
    }
    pub fn bytes(&mut self, n: usize) -> Vec<u8> {
        (0..n).map(|_| self.byte()).collect()
    }
    /// The numbers below n in an order of chance.
    pub fn order(&mut self, n: usize) -> Vec<usize> {
        let mut order: Vec<usize> = (0..n).collect();
        for i in 0..n {
            let j = i + self.below((n - i) as u64) as usize;
            order.swap(i, j);
        }
        order
    }
}

pub struct List {
    out: BufWriter<std::io::Stdout>,
    cases: u64,
    tally: BTreeMap<String, u64>,
}

impl List {
    pub fn new() -> Self {
        List { out: BufWriter::with_capacity(1 << 20, std::io::stdout()), cases: 0, tally: BTreeMap::new() }
    }
    pub fn case(&mut self, kind: u8, input: &[u8], expected: &[u8], branch: &str) {
        self.cases += 1;
        let mut head = vec![kind];
        head.extend((input.len() as u16).to_be_bytes());
        let mut put = |bytes: &[u8]| self.out.write_all(bytes).expect("the list is not taken");
        put(&head);
        put(input);
        put(&(expected.len() as u16).to_be_bytes());
        put(expected);
        *self.tally.entry(branch.to_string()).or_default() += 1;
    }
    /// Beside the cases: what a case met next to a limit.
    pub fn met(&mut self, kind: &str, met: &[(&str, u32)]) {
        for (name, count) in met {
            self.beside(format!("limits of {kind}: {name} {count}"));
        }
    }
    /// Beside the cases: something else that a case met.
    pub fn beside(&mut self, met: String) {
        *self.tally.entry(met).or_default() += 1;
    }
    pub fn cases(&self) -> u64 {
        self.cases
    }
    pub fn finish(mut self) {
        self.out.flush().expect("the list is not taken");
        for (branch, count) in &self.tally {
            eprintln!("{count:>10}  {branch}");
        }
        eprintln!("{:>10}  cases made", self.cases);
    }
}
