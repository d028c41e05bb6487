//! CRC-16, scrambling, and the field.
use crate::coding::{crc16, descramble, scramble, Galois};
use crate::list::*;

pub fn write(list: &mut List, random: &mut Random, count: u64) {
    let end = list.cases() + count;
    all_field_pairs(list, count);
    short_messages(list);
    while list.cases() < end {
        match random.below(8) {
            0..=3 => {
                let n = if random.once_in(20) { random.below(600) } else { random.below(20) } as usize;
                crc_case(list, &random.bytes(n), "crc16: random");
            }
            4 | 5 => {
                let word: [u8; 42] = random.bytes(42).try_into().unwrap();
                list.case(SCRAMBLE, &word, &[&[0][..], &scramble(&word)].concat(), "scramble: a word");
            }
            6 => {
                let envelope: [u8; 48] = random.bytes(48).try_into().unwrap();
                list.case(DESCRAMBLE, &envelope, &[&[0][..], &descramble(&envelope)].concat(), "descramble: an envelope");
            }
            _ => wrong_size(list, random),
        }
    }
}

fn crc_case(list: &mut List, message: &[u8], branch: &str) {
    list.case(CRC16, message, &crc16(message).to_be_bytes(), branch);
}

/// All messages of no byte and of one byte, and the catalogue's check value.
fn short_messages(list: &mut List) {
    crc_case(list, &[], "crc16: no byte");
    for x in 0..=255 {
        crc_case(list, &[x], "crc16: one byte");
    }
    crc_case(list, b"123456789", "crc16: the check value's message");
}

/// All 65,536 pairs where the list is long, and a part of them where it is short. The original asserts on a quotient by zero: there
/// the expectation is document 01's.
fn all_field_pairs(list: &mut List, count: u64) {
    let field = Galois::get();
    let step = (65_536 * 4 / count.max(1)).max(1) as usize;
    for pair in (0..65_536usize).step_by(step) {
        let (a, b) = ((pair / 256) as u8, (pair % 256) as u8);
        let quotient = if b == 0 { 0 } else { field.div(a, b) };
        let branch = if b == 0 { "field: a quotient by zero (ours)" } else { "field: product and quotient" };
        list.case(FIELD, &[a, b], &[field.mul(a, b), quotient], branch);
    }
}

fn wrong_size(list: &mut List, random: &mut Random) {
    let n = random.below(100) as usize;
    let bytes = random.bytes(n);
    if n != 42 {
        list.case(SCRAMBLE, &bytes, &[5], "scramble: refused 5 (ours)");
    }
    if n != 48 {
        list.case(DESCRAMBLE, &bytes, &[5], "descramble: refused 5 (ours)");
    }
}
