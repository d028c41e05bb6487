//! Streams of bits: frames with damage and slips, noise, and stretches that are lost.
use crate::coding::scramble;
use crate::list::Random;

/// A stream of about `most` bits: noise, runs of frames with damage and slips, stretches that are lost. Half of them begin with a lock.
pub fn stream(random: &mut Random, most: usize) -> Vec<u8> {
    let mut bits = if random.once_in(2) { clean(random, 4 * 384) } else { Vec::new() };
    while bits.len() < most {
        match random.below(6) {
            0 => noise(random, &mut bits),
            1 => lose(random, &mut bits),
            _ => frames(random, &mut bits),
        }
    }
    bits.truncate(most & !1);
    bits
}

/// Frames with nothing wrong.
pub fn clean(random: &mut Random, most: usize) -> Vec<u8> {
    let mut bits = Vec::new();
    while bits.len() < most {
        let word: [u8; 42] = random.bytes(42).try_into().unwrap();
        bits.extend(bits_of(&scramble(&word)));
    }
    bits.truncate(most);
    bits
}

/// Frames of which each is damaged or slips.
pub fn rough(random: &mut Random, most: usize) -> Vec<u8> {
    let mut bits = Vec::new();
    while bits.len() < most {
        let word: [u8; 42] = random.bytes(42).try_into().unwrap();
        let mut frame = bits_of(&scramble(&word));
        match random.below(4) {
            0 => break_markers(random, &mut frame),
            1 => slip(random, &mut frame),
            2 => flip(random, &mut frame),
            _ => {}
        }
        bits.extend(frame);
    }
    bits.truncate(most);
    bits
}

fn bits_of(envelope: &[u8; 48]) -> Vec<u8> {
    envelope.iter().flat_map(|x| (0..8).rev().map(move |k| x >> k & 1)).collect()
}

fn noise(random: &mut Random, bits: &mut Vec<u8>) {
    for _ in 0..random.below(3_000) {
        bits.push(random.below(2) as u8);
    }
}

fn lose(random: &mut Random, bits: &mut Vec<u8>) {
    let n = random.below(500) as usize;
    bits.truncate(bits.len().saturating_sub(n));
}

fn frames(random: &mut Random, bits: &mut Vec<u8>) {
    let rough = random.below(7);
    for _ in 0..1 + random.below(24) {
        let word: [u8; 42] = random.bytes(42).try_into().unwrap();
        let mut frame = bits_of(&scramble(&word));
        match rough {
            0 | 1 => {}
            2 => break_markers(random, &mut frame),
            3 => slip(random, &mut frame),
            4 => flip(random, &mut frame),
            5 => slips(random, &mut frame),
            _ => match random.below(6) {
                0 => break_markers(random, &mut frame),
                1 => slip(random, &mut frame),
                2 => flip(random, &mut frame),
                3 => slips(random, &mut frame),
                _ => {}
            },
        }
        bits.extend(frame);
    }
}

/// Some bits of one, two or three markers wrong, the two highest among them, which do not count for a match.
fn break_markers(random: &mut Random, frame: &mut [u8]) {
    for segment in 0..3 {
        if random.once_in(2) {
            for _ in 0..1 + random.below(3) {
                frame[128 * segment + random.below(16) as usize] ^= 1;
            }
        }
    }
}

fn flip(random: &mut Random, frame: &mut [u8]) {
    for _ in 0..random.below(40) {
        let at = random.below(frame.len() as u64) as usize;
        frame[at] ^= 1;
    }
}

/// One symbol inserted or dropped, in front, in the first, second or third segment; or half a symbol.
fn slip(random: &mut Random, frame: &mut Vec<u8>) {
    let at = match random.below(4) {
        0 => 0,
        1 => 20 + random.below(100) as usize,
        2 => 150 + random.below(90) as usize,
        _ => 280 + random.below(90) as usize,
    };
    let width = if random.once_in(4) { 1 } else { 2 };
    for _ in 0..width {
        if random.once_in(2) {
            frame.insert(at, random.below(2) as u8);
        } else {
            frame.remove(at);
        }
    }
}

/// At each segment by chance a whole symbol inserted or dropped, in front of its marker or in the segment before: followed in each, they give a
/// frame any of the moves that there are.
fn slips(random: &mut Random, frame: &mut Vec<u8>) {
    for marker in [256usize, 128, 0] {
        let at = marker.saturating_sub(random.below(100) as usize);
        match random.below(3) {
            0 => drop(frame.drain(at..at + 2)),
            1 => drop(frame.splice(at..at, [random.below(2) as u8, random.below(2) as u8])),
            _ => {}
        }
    }
}
