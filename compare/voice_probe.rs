
// Read-only looks at what the original keeps private, appended to its file by compare/run; the original's own text is not touched.
pub const STAND_IN: [u8; 188] = {
    let mut table = [0u8; 188];
    let mut k = 0;
    while k < 188 {
        table[k] = COORDINATES[k] as u8;
        k += 1;
    }
    table
};

/// What was met next to a limit: its name, and the count that was met, the limit itself (accepted) or one more (not accepted for that alone).
pub type Met = Vec<(&'static str, u32)>;

/// Whether a count keeps the limit; notes it where it is the limit or one more.
fn keeps(count: Option<u32>, limit: u32, name: &'static str, met: &mut Met) -> bool {
    let Some(count) = count else { return false };
    if count == limit || count == limit + 1 {
        met.push((name, count));
    }
    count <= limit
}

/// How far a candidate's coded bits lie from the received ones, where all else of the check agrees.
fn apart(word: &[u8; 42], received: &[u8; 176], input: &[u8; 94]) -> Option<u32> {
    checked(word, received, input, u16::MAX).map(|s| s.corrected_bits as u32)
}

/// The hard stages once more, for the tally only: which attempt of which stage accepts, and what was met next to a limit on the way.
pub fn walk(envelope: &[u8; 48], met: &mut Met) -> &'static str {
    let word = descramble(envelope);
    let received = protected(&word);
    let inverted = inverse(&received);
    if mode(&word) && keeps(apart(&word, &received, &inverted), 8, "stage a, bits", met) {
        return "stage a";
    }
    let mut repaired = word;
    let done = Galois::get().correct(&mut repaired[28..], 6).is_some();
    if done && mode(&repaired) && tail_agrees(&repaired) && repaired != word {
        let outer = protected(&repaired);
        if keeps(apart(&repaired, &received, &inverse(&outer)), 8, "stage b with the inverse, bits", met) {
            return "stage b, inverse";
        }
        if keeps(apart(&repaired, &received, &viterbi(&outer)), 8, "stage b with the path search, bits", met) {
            return "stage b, path";
        }
    }
    let decoded = viterbi(&received);
    if mode(&word) && keeps(apart(&word, &received, &decoded), 8, "stage c, bits", met) {
        return "stage c";
    }
    let gate = (word[32] ^ 0x80).count_ones() + (word[33] & 0xfe).count_ones();
    if !keeps(Some(gate), 2, "the gate of d, mode bits", met) {
        return "refused 6 at the gate of d";
    }
    if walk_joint(&word, &received, &inverted, met) {
        return "stage d, inverse";
    }
    if walk_joint(&word, &received, &decoded, met) {
        return "stage d, path";
    }
    "refused 6 by stage d"
}

/// The branch alone.
pub fn probe(envelope: &[u8; 48]) -> &'static str {
    walk(envelope, &mut Vec::new())
}

fn tail_agrees(word: &[u8; 42]) -> bool {
    crc16(&word[28..34]) == u16::from_be_bytes([word[34], word[35]])
}

/// Joint's five limits. A limit that is passed by one is noted where the four others are kept.
const JOINT: [(&str, u32); 5] =
    [("joint, mode bits", 2), ("joint, bits of bytes 28-41", 6), ("joint, bytes of 28-41", 4), ("joint, coded bits", 8), ("joint, bits in all", 12)];

fn walk_joint(word: &[u8; 42], received: &[u8; 176], source: &[u8; 94], met: &mut Met) -> bool {
    let mut c = *word;
    write_protected(&mut c, &convolution(source));
    c[32] = 0x80;
    for alternate in 0..2 {
        c[33] = (word[33] & 1) ^ alternate;
        tail(&mut c);
        let Some(distance) = apart(&c, received, source) else { continue };
        let ones = |from: usize| -> u32 { (from..42).map(|i| (c[i] ^ word[i]).count_ones()).sum() };
        let bytes = (28..42).filter(|&i| c[i] != word[i]).count() as u32;
        let mode_bits = (word[32] ^ c[32]).count_ones() + (word[33] ^ c[33]).count_ones();
        let counts = [mode_bits, ones(28), bytes, distance, distance + ones(32)];
        let past: Vec<usize> = (0..5).filter(|&k| counts[k] > JOINT[k].1).collect();
        if past.is_empty() {
            met.extend((0..5).filter(|&k| counts[k] == JOINT[k].1).map(|k| JOINT[k]));
            return true;
        }
        if past.len() == 1 && counts[past[0]] == JOINT[past[0]].1 + 1 {
            met.push((JOINT[past[0]].0, counts[past[0]]));
        }
    }
    false
}

/// The soft candidates once more, for the tally only: which of them accepts, and what was met next to the limit of 24. Asked where no hard
/// stage accepts and there are 384 reliabilities.
pub fn walk_soft(envelope: &[u8; 48], confidence: &[u8], met: &mut Met) -> &'static str {
    const NAMES: [&str; 5] = ["by the word", "0 bytes erased", "2 bytes erased", "4 bytes erased", "6 bytes erased"];
    let word = descramble(envelope);
    let reliability = word_confidence(confidence);
    let received = protected(&word);
    let mut weights = [0u8; 176];
    for i in 0..88 {
        weights[2 * i] = reliability[40 + i];
        weights[2 * i + 1] = reliability[168 + i];
    }
    let decoded = soft_viterbi(&received, &weights);
    let least = |b: usize| (0..8).map(|k| reliability[8 * (28 + b) + k]).min().unwrap();
    let mut order: Vec<usize> = (0..14).collect();
    order.sort_by_key(|&b| least(b));
    let mut candidates: Vec<[u8; 42]> = Vec::new();
    for (k, name) in NAMES.into_iter().enumerate() {
        let erased = 2 * k.max(1) - 2;
        let mut candidate = word;
        let mut places = order[..erased].to_vec();
        places.sort_unstable();
        if k > 0 && Galois::get().correct_with_erasures(&mut candidate[28..], 6, &places).is_none() {
            continue;
        }
        if candidates.contains(&candidate) {
            met.push(("a copy skipped; erased", erased as u32));
            continue;
        }
        candidates.push(candidate);
        if !mode(&candidate) || !tail_agrees(&candidate) {
            continue;
        }
        if keeps(apart(&candidate, &received, &decoded), 24, "bits", met) {
            if erased > 0 && least(order[erased - 1]) == least(order[erased]) {
                met.push(("accepted with a tie between the last byte erased and the next; erased", erased as u32));
            }
            return name;
        }
    }
    "refused 6"
}
