//! Soft decoding with the stand-in table.
use crate::coding::{descramble, scramble};
use crate::list::*;
use crate::voice_cases::{admitted, damaged, flip, flip_bytes, some_envelope, speech, CODED, EVEN, ODD_BEFORE_TAIL};
use crate::voice_frame::{decode, decode_soft, walk_soft, STAND_IN};

pub fn write(list: &mut List, random: &mut Random, count: u64) {
    let end = list.cases() + count;
    list.case(TABLE, &STAND_IN[..187], &[4], "table: refused 4 (ours)");
    list.case(DECODE_SOFT, &[&[48][..], &[0; 48]].concat(), &[4], "decode soft: refused 4 (ours)");
    list.case(DECODE_SOFT, &[&[47][..], &[0; 47]].concat(), &[5], "decode soft: refused 5 before 4 (ours)");
    admitted(list);
    while list.cases() < end {
        match random.below(20) {
            0 => sizes(list, random),
            1 | 2 => case(list, random, for_hard),
            3..=7 => case(list, random, anyhow),
            _ => case(list, random, for_a_candidate),
        }
    }
}

/// An envelope and its reliabilities, from what was sent.
type Making = fn(&mut Random, &[u8; 48]) -> ([u8; 48], Vec<u8>);

/// At times with a reliability too few or too many, or with another number of them.
fn case(list: &mut List, random: &mut Random, making: Making) {
    let clean = some_envelope(random);
    let (envelope, mut reliabilities) = making(random, &clean);
    match random.below(20) {
        0 => reliabilities.truncate(383),
        1 => reliabilities.push(random.byte()),
        2 => {
            let n = random.below(600) as usize;
            reliabilities.resize(n, 9);
        }
        _ => {}
    }
    let answer = decode_soft(&envelope, &reliabilities);
    let mut met = Vec::new();
    let branch = match (decode(&envelope).is_some(), reliabilities.len()) {
        (true, 384) => "by a hard stage",
        (true, 383) => "383 reliabilities, by a hard stage",
        (true, 385) => "385 reliabilities, by a hard stage",
        (true, _) => "another number of reliabilities, by a hard stage",
        (_, 384) => walk_soft(&envelope, &reliabilities, &mut met),
        (_, 383) => "383 reliabilities, refused 6",
        (_, 385) => "385 reliabilities, refused 6",
        _ => "another number of reliabilities, refused 6",
    };
    assert_eq!(answer.is_none(), branch.ends_with("refused 6"));
    let input = [&[48][..], &envelope, &reliabilities].concat();
    list.case(DECODE_SOFT, &input, &speech(&answer), &format!("decode soft: {branch}"));
    list.met("decode soft", &met);
}

/// Damage as for hard decoding, which most often accepts.
fn for_hard(random: &mut Random, clean: &[u8; 48]) -> ([u8; 48], Vec<u8>) {
    let envelope = scramble(&damaged(random, clean));
    let reliabilities = reliabilities(random, clean, &envelope);
    (envelope, reliabilities)
}

/// Damage as for hard decoding, and coded bits wrong beside it.
fn anyhow(random: &mut Random, clean: &[u8; 48]) -> ([u8; 48], Vec<u8>) {
    let mut word = damaged(random, clean);
    flip(&mut word, random, CODED, 0..26);
    let envelope = scramble(&word);
    let reliabilities = reliabilities(random, clean, &envelope);
    (envelope, reliabilities)
}

/// Too many coded bits wrong for the hard stages, often 24 or 25, and as many bytes of the tail as one of the candidates repairs.
fn for_a_candidate(random: &mut Random, clean: &[u8; 48]) -> ([u8; 48], Vec<u8>) {
    let mut word = descramble(clean);
    flip_bytes(&mut word, random, 28, 0..7, 1..4);
    let wrong = if random.once_in(2) { 24 + random.below(2) } else { 9 + random.below(16) };
    let sent = descramble(clean);
    let already: u64 = (28..32).map(|i| (word[i] ^ sent[i]).count_ones() as u64).sum();
    let wrong = wrong.saturating_sub(already);
    let odd = random.below(1 + wrong.min(12));
    flip(&mut word, random, ODD_BEFORE_TAIL, odd..odd + 1);
    flip(&mut word, random, EVEN, wrong - odd..wrong - odd + 1);
    let envelope = scramble(&word);
    let reliabilities = reliabilities(random, clean, &envelope);
    (envelope, reliabilities)
}

/// Low where the envelope differs from the clean one, as a demodulator would give them, from few values (so that ties are common) or
/// from many; or without any relation to the damage.
fn reliabilities(random: &mut Random, clean: &[u8; 48], envelope: &[u8; 48]) -> Vec<u8> {
    let related = !random.once_in(4);
    let values = [2, 4, 256][random.below(3) as usize];
    let mut one = |low: bool| {
        let any = random.below(values) as u8 * (255 / (values - 1)) as u8;
        match (low && !random.once_in(20), related) {
            (_, false) => any,
            (true, _) => any / 8,
            _ => 128 + any / 2,
        }
    };
    (0..384).map(|bit| one((envelope[bit / 8] ^ clean[bit / 8]) >> (7 - bit % 8) & 1 == 1)).collect()
}

fn sizes(list: &mut List, random: &mut Random) {
    let n = random.below(100) as usize;
    if n != 48 {
        let reliabilities = [0, 384][random.below(2) as usize];
        let input = [&[n as u8][..], &random.bytes(n), &random.bytes(reliabilities)].concat();
        list.case(DECODE_SOFT, &input, &[5], "decode soft: refused 5 (ours)");
    }
}
