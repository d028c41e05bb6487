//! The original's side of the speed table, and the inputs of both sides.
//! `speed make OPERATION N` writes the inputs of N operations to standard output; `speed run OPERATION FILE` runs the original on them and
//! prints a sum of its answers, which is the same as ours where both did the same work.
mod coding;
mod coding_cases;
mod frame;
mod list;
mod streams;
mod voice_cases;
mod voice_frame;

use coding::{crc16, descramble, scramble, Galois};
use frame::Synchronizer;
use list::Random;
use std::io::Write;
use voice_frame::{decode, decode_soft, encode, probe, Speech, STAND_IN};

fn main() {
    let arguments: Vec<String> = std::env::args().collect();
    let word = |k: usize| arguments.get(k).map_or("", |a| a.as_str());
    match word(1) {
        "make" => {
            let bytes = make(word(2), word(3).parse().expect("a number"));
            std::io::stdout().write_all(&bytes).expect("the inputs are not taken");
        }
        "run" => println!("{}", run(word(2), &std::fs::read(word(3)).expect("no such file"))),
        "table" => std::io::stdout().write_all(&STAND_IN).expect("the table is not taken"),
        _ => std::process::exit(2),
    }
}

/// Bytes of one operation's input.
fn size(operation: &str) -> usize {
    match operation {
        "descramble" | "decode-clean" | "decode-path" | "decode-refused" => 48,
        "scramble" => 42,
        "crc16" => 6,
        "repair" => 14,
        "encode" => 20,
        "soft" | "soft-refused" => 48 + 384,
        _ => 1,
    }
}

fn make(operation: &str, n: usize) -> Vec<u8> {
    let mut random = Random::new(7);
    let mut out = Vec::new();
    if size(operation) == 1 {
        return dibits(operation, &mut random, n);
    }
    while out.len() < n * size(operation) {
        let payload: [u8; 20] = random.bytes(20).try_into().unwrap();
        let clean = encode(&payload, false);
        match operation {
            "repair" => {
                let mut tail = random.bytes(14);
                Galois::get().encode(&mut tail, 6);
                for &place in &random.order(14)[..3] {
                    tail[place] ^= 1 + random.below(255) as u8;
                }
                out.extend(tail);
            }
            "decode-clean" => out.extend(clean),
            "decode-path" => {
                let envelope = damaged(&mut random, &clean, 6);
                if probe(&envelope) == "stage c" {
                    out.extend(envelope);
                }
            }
            "decode-refused" => out.extend(refused(&mut random)),
            // What the hard stages refuse and soft decoding accepts.
            "soft" => {
                let envelope = damaged(&mut random, &clean, 20);
                let wrong = |bit: usize| (envelope[bit / 8] ^ clean[bit / 8]) >> (7 - bit % 8) & 1 == 1;
                let reliabilities: Vec<u8> = (0..384).map(|bit| if wrong(bit) { 20 } else { 200 }).collect();
                if decode(&envelope).is_none() && decode_soft(&envelope, &reliabilities).is_some() {
                    out.extend(envelope);
                    out.extend(reliabilities);
                }
            }
            "soft-refused" => {
                out.extend(refused(&mut random));
                out.extend(random.bytes(384));
            }
            _ => out.extend(random.bytes(size(operation))),
        }
    }
    out
}

/// An envelope of a word of chance with a valid mode: every hard stage is tried, and refuses.
fn refused(random: &mut Random) -> [u8; 48] {
    let mut word: [u8; 42] = random.bytes(42).try_into().unwrap();
    (word[32], word[33]) = (0x80, 0);
    scramble(&word)
}

/// An envelope with some coded bits wrong.
fn damaged(random: &mut Random, clean: &[u8; 48], wrong: usize) -> [u8; 48] {
    let mut word = descramble(clean);
    for &k in &random.order(184)[..wrong] {
        let bit = if k < 88 { 40 + k } else { 80 + k };
        if bit < 224 {
            word[bit / 8] ^= 1 << (bit % 8);
        }
    }
    scramble(&word)
}

fn dibits(operation: &str, random: &mut Random, n: usize) -> Vec<u8> {
    let bits = match operation {
        "push-locked" | "feed-locked" => streams::clean(random, 2 * n),
        "push-noise" | "feed-noise" => (0..2 * n).map(|_| random.below(2) as u8).collect(),
        _ => streams::rough(random, 2 * n),
    };
    bits.chunks_exact(2).map(|pair| 2 * pair[0] + pair[1]).collect()
}

/// What is summed of a decoding's answer.
fn ends(speech: Option<Speech>) -> u64 {
    speech.map_or(0, |s| s.payload[0] as u64 + s.payload[19] as u64)
}

fn run(operation: &str, input: &[u8]) -> u64 {
    if size(operation) == 1 {
        let (mut synchroniser, mut sent) = (Synchronizer::default(), Vec::new());
        for &dibit in input {
            synchroniser.push(dibit, &mut sent);
            sent.clear();
        }
        return synchroniser.frames;
    }
    input.chunks_exact(size(operation)).map(|x| one(operation, x)).sum()
}

fn one(operation: &str, x: &[u8]) -> u64 {
    let envelope = || -> &[u8; 48] { x[..48].try_into().unwrap() };
    match operation {
        "descramble" => descramble(envelope())[0] as u64,
        "scramble" => scramble(x.try_into().unwrap())[2] as u64,
        "crc16" => crc16(x) as u64,
        "repair" => {
            let mut tail: [u8; 14] = x.try_into().unwrap();
            Galois::get().correct(&mut tail, 6);
            tail[0] as u64
        }
        "encode" => encode(x.try_into().unwrap(), false)[2] as u64,
        "soft" | "soft-refused" => ends(decode_soft(envelope(), &x[48..])),
        _ => ends(decode(envelope())),
    }
}
