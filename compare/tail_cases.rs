//! The making and the repair of tails. Where the original gives `None` its word may be altered; ours keeps every byte.
use crate::coding::{crc16, Galois};
use crate::list::*;

pub fn write(list: &mut List, random: &mut Random, count: u64) {
    let end = list.cases() + count;
    while list.cases() < end {
        match random.below(20) {
            0..=5 => without_erasures(list, random),
            6..=14 => with_erasures(list, random),
            15 | 16 => made(list, random),
            17 => sizes(list, random),
            _ => wrong_places(list, random),
        }
    }
}

/// A tail with some bytes wrong, most often of a codeword.
fn damaged(random: &mut Random, wrong: usize, order: &[usize]) -> Vec<u8> {
    let mut tail = random.bytes(14);
    if !random.once_in(10) {
        Galois::get().encode(&mut tail, 6);
    }
    for &place in &order[..wrong] {
        tail[place] ^= 1 + random.below(255) as u8;
    }
    tail
}

/// The answer's bytes: status, count, then the bytes after the call.
fn answer(got: Option<usize>, repaired: &[u8], before: &[u8]) -> Vec<u8> {
    match got {
        Some(n) => [&[0, n as u8][..], repaired].concat(),
        None => [&[10, 0][..], before].concat(),
    }
}

fn verdict(got: Option<usize>, repaired: &[u8], before: &[u8]) -> &'static str {
    match got {
        Some(_) => "repaired",
        None if repaired == before => "refused 10",
        None => "refused 10, the original's bytes altered (ours)",
    }
}

/// As a tail alone, or as the last bytes of a word.
fn put(list: &mut List, random: &mut Random, places: Option<&[u8]>, tail: &[u8], got: Option<usize>, repaired: &[u8], branch: &str) {
    let head = match places {
        None => vec![NO_ERASURES],
        Some(p) => [&[p.len() as u8][..], p].concat(),
    };
    if random.once_in(4) {
        let front = random.bytes(28);
        let (word, after) = ([&front[..], tail].concat(), [&front[..], repaired].concat());
        list.case(REPAIR_WORD, &[&head[..], &word].concat(), &answer(got, &after, &word), branch);
    } else {
        list.case(REPAIR_TAIL, &[&head[..], tail].concat(), &answer(got, repaired, tail), branch);
    }
}

fn without_erasures(list: &mut List, random: &mut Random) {
    let wrong = random.below(7) as usize;
    let order = random.order(14);
    let tail = damaged(random, wrong, &order);
    let mut repaired = tail.clone();
    let got = Galois::get().correct(&mut repaired, 6);
    let verdict = verdict(got, &repaired, &tail);
    put(list, random, None, &tail, got, &repaired, &format!("repair, {wrong} bytes damaged: {verdict}"));
}

fn with_erasures(list: &mut List, random: &mut Random) {
    let erased = random.below(7) as usize;
    let order = random.order(14);
    let places: Vec<usize> = order[..erased].to_vec();
    // The damage lies in the erased places first, beside them, or anywhere.
    let damage = match random.below(3) {
        0 => order.clone(),
        1 => order[erased..].to_vec(),
        _ => random.order(14),
    };
    let wrong = random.below(8).min(damage.len() as u64) as usize;
    let tail = damaged(random, wrong, &damage);
    let mut repaired = tail.clone();
    let got = Galois::get().correct_with_erasures(&mut repaired, 6, &places);
    let verdict = verdict(got, &repaired, &tail);
    let as_bytes: Vec<u8> = places.iter().map(|&p| p as u8).collect();
    put(list, random, Some(&as_bytes), &tail, got, &repaired, &format!("repair, {erased} places erased: {verdict}"));
}

fn made(list: &mut List, random: &mut Random) {
    let word = random.bytes(42);
    let mut after = word.clone();
    let crc = crc16(&word[28..34]);
    after[34..36].copy_from_slice(&crc.to_be_bytes());
    Galois::get().encode(&mut after[28..], 6);
    list.case(MAKE_TAIL, &word, &[&[0][..], &after].concat(), "tail made");
}

fn sizes(list: &mut List, random: &mut Random) {
    let n = random.below(60) as usize;
    let bytes = random.bytes(n);
    let refused = [&[5, 0][..], &bytes].concat();
    if n != 14 {
        list.case(REPAIR_TAIL, &[&[NO_ERASURES][..], &bytes].concat(), &refused, "repair: refused 5 (ours)");
        // The size is tested before the places.
        list.case(REPAIR_TAIL, &[&[1, 200][..], &bytes].concat(), &refused, "repair: refused 5 before 11 (ours)");
    }
    if n != 42 {
        list.case(REPAIR_WORD, &[&[NO_ERASURES][..], &bytes].concat(), &refused, "repair: refused 5 (ours)");
        list.case(MAKE_TAIL, &bytes, &[&[5][..], &bytes].concat(), "tail made: refused 5 (ours)");
    }
}

/// Too many places, one outside, or one given twice: the original gives `None` for the first two and takes the last.
fn wrong_places(list: &mut List, random: &mut Random) {
    let order = random.order(14);
    let tail = damaged(random, 2, &order);
    let mut places: Vec<u8> = order[..1 + random.below(6) as usize].iter().map(|&p| p as u8).collect();
    let branch = match random.below(3) {
        0 => {
            places = order[..7 + random.below(8) as usize].iter().map(|&p| p as u8).collect();
            "repair: refused 11, too many places"
        }
        1 => {
            let k = random.below(places.len() as u64) as usize;
            places[k] = 14 + random.below(242) as u8;
            "repair: refused 11, a place outside"
        }
        _ => {
            if places.len() == 6 {
                places.pop();
            }
            let k = random.below(places.len() as u64) as usize;
            places.push(places[k]);
            "repair: refused 11, a place twice (ours)"
        }
    };
    list.case(REPAIR_TAIL, &[&[places.len() as u8][..], &places, &tail].concat(), &[&[11, 0][..], &tail].concat(), branch);
}
