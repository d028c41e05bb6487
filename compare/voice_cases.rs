//! Encoding and hard decoding with the stand-in table, and tables that are not admitted.
use crate::coding::{descramble, scramble};
use crate::list::*;
use crate::voice_frame::{decode, encode, walk, Speech, STAND_IN};

pub fn write(list: &mut List, random: &mut Random, count: u64) {
    let end = list.cases() + count;
    tables(list, random);
    while list.cases() < end {
        match random.below(14) {
            0 | 1 => encoded(list, random),
            2..=12 => hard(list, random),
            _ => sizes(list, random),
        }
    }
}

pub fn admitted(list: &mut List) {
    list.case(TABLE, &STAND_IN, &[0], "table: the stand-in is admitted");
}

/// Refusal 4, which the original does not have; afterwards the stand-in table is in force.
fn tables(list: &mut List, random: &mut Random) {
    let mut twice = STAND_IN;
    twice[15] = 13;
    list.case(TABLE, &twice, &[4], "table: refused 4 (ours)");
    list.case(DECODE, &[0; 48], &[4], "decode: refused 4 (ours)");
    list.case(ENCODE, &[0; 21], &[4], "encode: refused 4 (ours)");
    list.case(DECODE, &[0; 47], &[5], "decode: refused 5 before 4 (ours)");
    list.case(ENCODE, &[0; 20], &[5], "encode: refused 5 before 4 (ours)");
    list.case(TABLE, &STAND_IN[..187], &[4], "table: refused 4 (ours)");
    for _ in 0..50 {
        let mut table = STAND_IN;
        let (i, j) = (random.below(188) as usize, random.below(188) as usize);
        if random.once_in(2) {
            table[i] = random.byte();
        } else {
            table.swap(i, j);
        }
        let ok = is_admitted(&table);
        list.case(TABLE, &table, &[if ok { 0 } else { 4 }], if ok { "table: another is admitted (ours)" } else { "table: refused 4 (ours)" });
    }
    admitted(list);
}

/// Document 01's sentence.
fn is_admitted(table: &[u8]) -> bool {
    table.len() == 188
        && (0..188).all(|i| table[i] < 176 || (i % 2 == 0 && table[i] == 255))
        && (0..176).all(|n| table.iter().filter(|&&t| t as usize == n).count() == 1)
}

pub fn some_envelope(random: &mut Random) -> [u8; 48] {
    let payload: [u8; 20] = random.bytes(20).try_into().unwrap();
    encode(&payload, random.once_in(2))
}

fn encoded(list: &mut List, random: &mut Random) {
    let payload: [u8; 20] = random.bytes(20).try_into().unwrap();
    let flag = random.once_in(2);
    let envelope = encode(&payload, flag);
    list.case(ENCODE, &[&[flag as u8][..], &payload].concat(), &[&[0][..], &envelope].concat(), "encode: a payload");
}

/// Ranges of word bits: the coded bits of even and of odd number, the mode's bytes 32 and 33, the tail from byte 28 on and from 34 on.
pub type Part = (usize, usize);
pub const EVEN: Part = (40, 128);
const ODD: Part = (168, 256);
pub const ODD_BEFORE_TAIL: Part = (168, 224);
pub const CODED: Part = (40, 256);
const MODE: Part = (256, 272);
const TAIL: Part = (224, 336);
const CHECKS: Part = (272, 336);
const WORD: Part = (0, 336);

/// Different bits of a part turned, as many as chance takes from the counts.
pub fn flip(word: &mut [u8; 42], random: &mut Random, part: Part, counts: std::ops::Range<u64>) {
    let count = counts.start + random.below(counts.end - counts.start);
    for &k in &random.order(part.1 - part.0)[..count as usize] {
        let bit = part.0 + k;
        word[bit / 8] ^= 1 << (bit % 8);
    }
}

/// Some of the bytes from `first` to 41, and some bits in each turned.
pub fn flip_bytes(word: &mut [u8; 42], random: &mut Random, first: usize, bytes: std::ops::Range<u64>, bits: std::ops::Range<u64>) {
    let count = bytes.start + random.below(bytes.end - bytes.start);
    for &byte in &random.order(42 - first)[..count as usize] {
        let bit = 8 * (first + byte);
        flip(word, random, (bit, bit + 8), bits.clone());
    }
}

/// Different coded bits turned that the inverse filter does not read: those at the table's even entries.
fn flip_unread(word: &mut [u8; 42], random: &mut Random, counts: std::ops::Range<u64>) {
    let count = counts.start + random.below(counts.end - counts.start);
    let unread: Vec<usize> = STAND_IN.iter().step_by(2).filter(|&&c| c < 176).map(|&c| c as usize).collect();
    for &k in &random.order(unread.len())[..count as usize] {
        let bit = if unread[k] % 2 == 0 { 40 } else { 168 } + unread[k] / 2;
        word[bit / 8] ^= 1 << (bit % 8);
    }
}

/// Next to joint's limits: four bytes of the tail, which no repair finds, or five; six bits of them, or seven; two bits of the mode, or
/// three; and as many coded bits wrong as make eight or nine, or twelve or thirteen with those of bytes 32 to 41.
fn next_to_joint(word: &mut [u8; 42], random: &mut Random) {
    let wrong = match random.below(5) {
        0 => {
            flip_bytes(word, random, 32, 4..5, 1..3);
            0..5
        }
        1 => {
            flip_bytes(word, random, 28, 4..6, 1..2);
            0..5
        }
        2 => {
            flip(word, random, MODE, 2..4);
            flip_bytes(word, random, 34, 2..4, 1..2);
            0..5
        }
        3 => {
            flip_bytes(word, random, 32, 4..5, 1..3);
            6..9
        }
        _ => {
            flip_bytes(word, random, 34, 1..4, 1..2);
            8..10
        }
    };
    if random.once_in(2) {
        flip_unread(word, random, wrong);
    } else {
        flip(word, random, EVEN, wrong);
    }
}

/// A word that was encoded and then damaged, in the parts that decide which stage it comes to and next to each stage's limits.
pub fn damaged(random: &mut Random, clean: &[u8; 48]) -> [u8; 42] {
    let mut word = descramble(clean);
    let parts: &[(Part, std::ops::Range<u64>)] = match random.below(20) {
        0 => &[],
        1 => {
            flip_unread(&mut word, random, 7..10);
            &[]
        }
        2 => &[(ODD, 0..12)],
        3 => &[(CHECKS, 0..10)],
        4 => &[(MODE, 0..5), (CHECKS, 0..3)],
        5 => &[(EVEN, 0..7), (TAIL, 0..7)],
        6 => &[(WORD, 0..10)],
        7 => &[(ODD, 0..6), ((256, 336), 0..6)],
        8 => &[(MODE, 1..4), (CHECKS, 2..6)],
        9 => &[(EVEN, 4..9), (ODD_BEFORE_TAIL, 0..4), (CHECKS, 3..7)],
        10 => &[(ODD_BEFORE_TAIL, 1..9)],
        11 => &[(EVEN, 0..3), (CHECKS, 5..8)],
        12 => {
            flip_bytes(&mut word, random, 32, 3..6, 1..3);
            &[(ODD, 0..4)]
        }
        13 => {
            word = random.bytes(42).try_into().unwrap();
            (word[32], word[33]) = (0x80, random.below(2) as u8);
            &[]
        }
        14 => {
            word = random.bytes(42).try_into().unwrap();
            &[]
        }
        15 => {
            flip_unread(&mut word, random, 7..10);
            flip_bytes(&mut word, random, 34, 1..4, 1..3);
            &[]
        }
        16 => &[(EVEN, 7..10)],
        _ => {
            next_to_joint(&mut word, random);
            &[]
        }
    };
    for (part, counts) in parts {
        flip(&mut word, random, *part, counts.clone());
    }
    word
}

pub fn speech(answer: &Option<Speech>) -> Vec<u8> {
    match answer {
        Some(s) => [&[0, s.corrected_bits as u8][..], &s.payload].concat(),
        None => vec![6],
    }
}

fn hard(list: &mut List, random: &mut Random) {
    let clean = some_envelope(random);
    let envelope = scramble(&damaged(random, &clean));
    let answer = decode(&envelope);
    let mut met = Vec::new();
    let branch = walk(&envelope, &mut met);
    assert_eq!(answer.is_none(), branch.starts_with("refused"));
    list.case(DECODE, &envelope, &speech(&answer), &format!("decode: {branch}"));
    list.met("decode", &met);
}

fn sizes(list: &mut List, random: &mut Random) {
    let n = random.below(100) as usize;
    let bytes = random.bytes(n);
    if n != 48 {
        list.case(DECODE, &bytes, &[5], "decode: refused 5 (ours)");
    }
    if n != 20 {
        list.case(ENCODE, &[&[0][..], &bytes].concat(), &[5], "encode: refused 5 (ours)");
    }
}
