//! Pairs of recordings, and the original's way from two recordings to a journal as a whole program, to be held to our `merge`.
//! `merge_pairs make KIND SEED FRAMES PRIMARY ALTERNATE` writes two packed recordings of the same time, about FRAMES frames long;
//! `merge_pairs merge PRIMARY ALTERNATE` writes the journal of two recordings to standard output.
mod coding;
mod frame;
mod list;
mod voice_cases;
mod voice_frame;

use frame::{Frame, Merger, Synchronizer};
use list::Random;
use std::fs::File;
use std::io::{BufWriter, Read, Stdout, Write};
use voice_cases::some_envelope;
use voice_frame::{decode, Speech};

fn main() {
    let arguments: Vec<String> = std::env::args().skip(1).collect();
    let words: Vec<&str> = arguments.iter().map(|a| a.as_str()).collect();
    let number = |word: &str| word.parse::<u64>().expect("a number");
    match words[..] {
        ["make", kind, seed, frames, primary, alternate] => {
            let [first, second] = pair(number(kind), number(seed), 384 * number(frames) as usize);
            std::fs::write(primary, packed(&first)).expect("the primary is not taken");
            std::fs::write(alternate, packed(&second)).expect("the alternate is not taken");
        }
        ["merge", primary, alternate] => merge([primary, alternate]),
        _ => {
            eprintln!("merge_pairs make KIND SEED FRAMES PRIMARY ALTERNATE | merge_pairs merge PRIMARY ALTERNATE");
            std::process::exit(2);
        }
    }
}

/// The kinds of pairs; 0 is locked from end to end. The last is for compare/slips: its recordings have nothing but slips, about one in each frame.
const ERRORS: u64 = 1;
const ONE_IN_NOISE: u64 = 2;
const SLIPS: u64 = 3;
const LENGTHS: u64 = 4;
const MANY_SLIPS: u64 = 5;

/// What is on the air at a time: a frame of a transmission, or nothing for so many bits, where each receiver hears noise of its own.
enum Air {
    Frame([u8; 48]),
    Nothing(usize),
}

/// The bits of both recordings. The air is common to them, the damage is each one's own.
fn pair(kind: u64, seed: u64, bits: usize) -> [Vec<u8>; 2] {
    let mut random = Random::new(8 * seed + kind);
    let rough = matches!(kind, ERRORS | SLIPS | LENGTHS);
    let air = on_air(&mut random, rough, bits);
    let [first, mut second] = [0, 1].map(|_| heard(&mut random, &air, rough, bits));
    match kind {
        ONE_IN_NOISE => drown(&mut random, &mut second),
        SLIPS => return [first, second].map(|bits| slipped(&mut random, &bits, 8)),
        MANY_SLIPS => return [first, second].map(|bits| slipped(&mut random, &bits, 1)),
        LENGTHS => second.truncate(8 * early_end(&air, bits)),
        _ => {}
    }
    [first, second]
}

/// Runs of frames that the decoder accepts; where there are pauses, one before each run.
fn on_air(random: &mut Random, pauses: bool, bits: usize) -> Vec<Air> {
    let (mut air, mut length) = (Vec::new(), 0);
    while length < bits {
        if pauses {
            let pause = pause(random) as usize;
            air.push(Air::Nothing(pause));
            length += pause;
        }
        for _ in 0..5 + random.below(36) {
            air.push(Air::Frame(some_envelope(random)));
            length += 384;
        }
    }
    air
}

/// One pause in four is so short that a lock outlives it, and at times only one recording's; another is such that the next run lies about half
/// a frame beside the grid of the last, where the merger rounds up or down: frames come late after these.
fn pause(random: &mut Random) -> u64 {
    match random.below(4) {
        0 => random.below(1_000),
        1 => 384 * (3 + random.below(12)) + 184 + random.below(17),
        _ => 1_000 + random.below(19_001),
    }
}

/// What one receiver hears of the air in the first so many bits.
fn heard(random: &mut Random, air: &[Air], rough: bool, most: usize) -> Vec<u8> {
    let (mut bits, mut weak) = (Vec::new(), 0);
    for piece in air {
        match piece {
            Air::Nothing(n) => bits.extend((0..*n).map(|_| random.below(2) as u8)),
            Air::Frame(envelope) => {
                let start = bits.len();
                bits.extend((0..384).map(|i| envelope[i / 8] >> (7 - i % 8) & 1));
                if rough {
                    damage(random, &mut bits[start..], &mut weak);
                }
            }
        }
    }
    bits.truncate(most);
    bits
}

/// One bit in 100 wrong, in one frame of 20 one in ten, which no decoder repairs: the other recording's frame is chosen. Now and then most markers
/// of one to five frames in a row are broken, so that the recordings lose locks at different times.
fn damage(random: &mut Random, frame: &mut [u8], weak: &mut u64) {
    let seldom = if random.once_in(20) { 10 } else { 100 };
    for bit in frame.iter_mut() {
        *bit ^= random.once_in(seldom) as u8;
    }
    if *weak > 0 {
        *weak -= 1;
        for marker in [0, 128, 256] {
            frame[marker + 2 + random.below(14) as usize] ^= (random.below(4) > 0) as u8;
        }
    } else if random.once_in(12) {
        *weak = 1 + random.below(5);
    }
}

/// A stretch stays as it is, and as long a one after it becomes noise; and so on.
fn drown(random: &mut Random, bits: &mut [u8]) {
    let mut at = 0;
    while at < bits.len() {
        let duration = 1_000 + random.below(9_001) as usize;
        for bit in bits.iter_mut().skip(at + duration).take(duration) {
            *bit = random.below(2) as u8;
        }
        at += 2 * duration;
    }
}

/// About once in so many frames a dibit is lost or comes twice.
fn slipped(random: &mut Random, bits: &[u8], frames: u64) -> Vec<u8> {
    let mut times = || [0, 2].get(random.below(2 * frames * 192) as usize).copied().unwrap_or(1);
    bits.chunks_exact(2).flat_map(|dibit| dibit.repeat(times())).collect()
}

/// The byte at 60 %, or one shortly before it: no frame's border, and within a piece of 4,096 bytes as both programs read them.
fn early_end(air: &[Air], bits: usize) -> usize {
    let length = |piece: &Air| if let Air::Nothing(n) = piece { *n } else { 384 };
    let borders: Vec<usize> = (0..air.len()).map(|n| air[..n].iter().map(length).sum()).collect();
    let mut end = bits / 8 * 6 / 10;
    while end > 0 && (end % 4_096 == 0 || borders.contains(&(8 * end))) {
        end -= 1;
    }
    end
}

/// Four dibits a byte, the highest first.
fn packed(bits: &[u8]) -> Vec<u8> {
    bits.chunks_exact(8).map(|byte| byte.iter().fold(0, |x, bit| 2 * x + bit)).collect()
}

/// The journal of two recordings, read in pieces of 4,096 bytes as our program reads them: the memory is constant.
fn merge(names: [&str; 2]) {
    let mut files = names.map(|name| File::open(name).expect("no such recording"));
    let mut pieces = [Vec::new(), Vec::new()];
    let out = BufWriter::new(std::io::stdout());
    let mut merging = Merging { streams: Default::default(), sent: Default::default(), merger: Merger::default(), earlier: None, out };
    loop {
        for (file, piece) in files.iter_mut().zip(&mut pieces) {
            piece.clear();
            file.take(4_096).read_to_end(piece).expect("the recording is not given");
        }
        let longer = pieces[0].len().max(pieces[1].len());
        if longer == 0 {
            break;
        }
        (0..4 * longer).for_each(|i| merging.dibits(i, &pieces));
    }
    merging.release([None; 2], true);
    merging.out.flush().expect("the journal is not taken");
}

/// The synchronisers and the frames of their last pushes, the merger, the offset of the frame written last, and the journal.
struct Merging {
    streams: [Synchronizer; 2],
    sent: [Vec<Frame>; 2],
    merger: Merger,
    earlier: Option<u64>,
    out: BufWriter<Stdout>,
}

impl Merging {
    /// Dibit i of both pieces, the primary's first; then the frames, then what is ready. A recording without such a dibit has ended: its
    /// settled offset is absent.
    fn dibits(&mut self, i: usize, pieces: &[Vec<u8>; 2]) {
        let mut settled = [None; 2];
        for k in 0..2 {
            if let Some(byte) = pieces[k].get(i / 4) {
                self.streams[k].push(byte >> (6 - 2 * (i % 4)) & 3, &mut self.sent[k]);
                settled[k] = self.streams[k].settled();
            }
        }
        for k in 0..2 {
            for frame in self.sent[k].drain(..) {
                end_at_refusal_9(&self.merger, &frame);
                self.merger.push(k, frame);
            }
        }
        self.release(settled, false);
    }

    /// What is ready, if anything waits. The check is the hard decoder's, and asked only where both streams have the frame; what it said then is
    /// not asked again for the record.
    fn release(&mut self, settled: [Option<u64>; 2], flush: bool) {
        if self.merger.positions() == 0 {
            return;
        }
        let mut tried = Vec::new();
        let released = self.merger.release(settled, flush, |frame| {
            let speech = decode(&frame.received);
            let yes = speech.is_some();
            tried.push((frame.received, speech));
            yes
        });
        for (frame, _) in released {
            let speech = match tried.iter().position(|(envelope, _)| *envelope == frame.received) {
                Some(at) => tried.swap_remove(at).1,
                None => decode(&frame.received),
            };
            self.write(&frame, speech);
        }
    }

    /// Document 01's record of a frame, and the gap before it.
    fn write(&mut self, frame: &Frame, speech: Option<Speech>) {
        let end = self.earlier.map_or(frame.bit_offset, |earlier| earlier + 384);
        if end < frame.bit_offset {
            self.record(end, [1, 0, 0, 0, 0], &(frame.bit_offset - end).to_be_bytes());
        }
        let (outcome, corrected) = speech.map_or((2, 0), |s| (1, s.corrected_bits as u8));
        let head = [0, frame.sync_matched as u8, frame.marker_errors as u8, outcome, corrected];
        self.record(frame.bit_offset, head, &frame.received);
        self.earlier = Some(frame.bit_offset);
    }

    /// Bytes 8 to 12, and what stands from byte 16 on; zeros between and behind.
    fn record(&mut self, offset: u64, head: [u8; 5], body: &[u8]) {
        let mut record = [0; 64];
        record[..8].copy_from_slice(&offset.to_be_bytes());
        record[8..13].copy_from_slice(&head);
        record[16..16 + body.len()].copy_from_slice(body);
        self.out.write_all(&record).expect("the journal is not taken");
    }
}

/// The original keeps any number of positions. Ours refuses the 17th (refusal 9), and `merge` then releases the first before its time for a frame that
/// decodes; one that does not decode leaves the 16th free already. That is not imitated here, since no pair that is made comes near it.
fn end_at_refusal_9(merger: &Merger, frame: &Frame) {
    let late = |last: u64| frame.bit_offset + 191 < last + 384;
    if merger.positions() >= 15 && !merger.last_released().map_or(false, late) && !merger.has_key_near(frame.bit_offset) {
        eprintln!("merge_pairs: 15 positions wait and none is of the frame at {}: not to be compared", frame.bit_offset);
        std::process::exit(3);
    }
}
