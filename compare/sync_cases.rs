//! Streams of pushes, hard, soft and mixed, and of feeds. Each push is a case of its own, and so is each feed, which ends with the first
//! push that sends or is refused; the synchroniser goes on from case to case.
use crate::frame::{Frame, Synchronizer};
use crate::list::*;
use crate::streams::stream;

/// How the pushes of one stream are made.
#[derive(Clone, Copy, PartialEq)]
enum Way {
    Hard,
    Soft,
    Mixed,
}

pub fn write(list: &mut List, random: &mut Random, count: u64) {
    pushes(list, random, count * 3 / 4);
    feeds(list, random, count / 4);
}

fn pushes(list: &mut List, random: &mut Random, count: u64) {
    let end = list.cases() + count;
    let most = (count / 3).clamp(1_000, 40_000) as usize;
    for way in [Way::Hard, Way::Soft, Way::Mixed, Way::Hard].into_iter().cycle() {
        if list.cases() >= end {
            break;
        }
        let bits = stream(random, 2 * most);
        push_all(list, random, &bits, way);
    }
}

fn feeds(list: &mut List, random: &mut Random, count: u64) {
    let end = list.cases() + count;
    for kind in [FEED, FEED_SOFT, FEED_PACKED].into_iter().cycle() {
        if list.cases() >= end {
            break;
        }
        let bits = stream(random, 40_000);
        let mut dibits: Vec<u8> = bits.chunks_exact(2).map(|pair| 2 * pair[0] + pair[1]).collect();
        if kind != FEED_PACKED {
            for _ in 0..random.below(20) {
                let at = random.below(dibits.len() as u64) as usize;
                dibits[at] = 4 + random.below(252) as u8;
            }
        }
        feed_all(list, random, &mut dibits, kind);
    }
}

fn push_all(list: &mut List, random: &mut Random, bits: &[u8], way: Way) {
    let mut synchroniser = Synchronizer::default();
    let (mut taken, mut moved) = (0u32, Moved::default());
    list.case(NEW_SYNCHRONISER, &[], &[], "synchroniser: new");
    for pair in bits.chunks_exact(2) {
        let dibit = 2 * pair[0] + pair[1];
        if random.once_in(3_000) {
            refusals(list, random);
        }
        let second_half = taken as usize > bits.len() / 4;
        let soft = way == Way::Soft || (way == Way::Mixed && random.once_in(if second_half { 2 } else { 500 }));
        let before = (synchroniser.locked, synchroniser.slips);
        let mut sent = Vec::new();
        taken += 1;
        let (kind, input) = if soft {
            let reliabilities = [random.byte(), random.byte()];
            synchroniser.push_soft(dibit, reliabilities, &mut sent);
            (PUSH_SOFT, vec![dibit, reliabilities[0], reliabilities[1]])
        } else {
            synchroniser.push(dibit, &mut sent);
            (PUSH, vec![dibit])
        };
        let branch = branch(before, &synchroniser, &sent);
        list.case(kind, &input, &answer(&synchroniser, taken, &sent), branch);
        moved.by(list, &sent, &synchroniser);
    }
}

/// A stream in feeds of up to 800 dibits. What a feed did not take is fed again, without a dibit that was refused.
fn feed_all(list: &mut List, random: &mut Random, dibits: &mut Vec<u8>, kind: u8) {
    let mut synchroniser = Synchronizer::default();
    let (mut at, mut taken, mut moved) = (0, 0u32, Moved::default());
    list.case(NEW_SYNCHRONISER, &[], &[], "synchroniser: new");
    while at < dibits.len() {
        let most = (dibits.len() - at).min(1 + random.below(800) as usize);
        let lent = &dibits[at..at + most];
        let (input, fed) = feed_input(random, kind, lent);
        let before = (synchroniser.locked, synchroniser.slips);
        let mut sent = Vec::new();
        let (used, refused) = feed(&mut synchroniser, fed, &mut sent);
        taken += used as u32;
        let mut expected = used.to_be_bytes().to_vec();
        if refused {
            expected.push(1);
            list.case(kind, &input, &expected, "feed: refused 1 (ours)");
            dibits.remove(at + used as usize);
        } else {
            expected.extend(answer(&synchroniser, taken, &sent));
            let branch = branch(before, &synchroniser, &sent).replace("push:", "feed:");
            list.case(kind, &input, &expected, &branch);
        }
        moved.by(list, &sent, &synchroniser);
        at += used as usize;
    }
}

/// Dibits until one sends or is refused: how many were taken, and whether the next was refused.
fn feed(synchroniser: &mut Synchronizer, fed: Vec<(u8, Option<[u8; 2]>)>, sent: &mut Vec<Frame>) -> (u16, bool) {
    let mut used = 0;
    for (dibit, reliabilities) in fed {
        if dibit > 3 {
            return (used, true);
        }
        match reliabilities {
            Some(r) => synchroniser.push_soft(dibit, r, sent),
            None => synchroniser.push(dibit, sent),
        }
        used += 1;
        if !sent.is_empty() {
            break;
        }
    }
    (used, false)
}

/// The dibits and reliabilities that a feed of that kind gets, and how its case says so.
fn feed_input(random: &mut Random, kind: u8, dibits: &[u8]) -> (Vec<u8>, Vec<(u8, Option<[u8; 2]>)>) {
    let hard = || dibits.iter().map(|&d| (d, None)).collect();
    match kind {
        FEED => (dibits.to_vec(), hard()),
        FEED_SOFT => {
            // At times there are too few reliabilities: the feed goes as far as both reach.
            let reliable = if random.once_in(50) { random.below(2 * dibits.len() as u64 + 1) as usize } else { 2 * dibits.len() };
            let reliabilities = random.bytes(reliable);
            let fed = dibits.iter().zip(reliabilities.chunks_exact(2)).map(|(&d, r)| (d, Some([r[0], r[1]]))).collect();
            ([&(dibits.len() as u16).to_be_bytes()[..], dibits, &reliabilities].concat(), fed)
        }
        _ => {
            // Four dibits to a byte. Some in front may have gone before; a last byte that is not full is left out, or filled up where it is all.
            let start = random.below(6) as usize;
            let mut all = vec![0; start];
            all.extend(dibits);
            let whole = all.len() / 4 * 4;
            all.resize(if whole > start { whole } else { whole + 4 }, 0);
            let packed: Vec<u8> = all.chunks_exact(4).map(|d| d[0] << 6 | d[1] << 4 | d[2] << 2 | d[3]).collect();
            let fed = all[start..].iter().map(|&d| (d, None)).collect();
            ([&(start as u16).to_be_bytes()[..], &packed].concat(), fed)
        }
    }
}

/// Refusals 1 and 2 in their order; the original asserts on the first and has no second.
fn refusals(list: &mut List, random: &mut Random) {
    let room = random.below(1_296) as u16;
    let [high, low] = room.to_be_bytes();
    let dibit = 4 + random.below(252) as u8;
    list.case(PUSH, &[dibit], &[1], "push: refused 1 (ours)");
    list.case(PUSH, &[dibit, high, low], &[1], "push: refused 1 before 2 (ours)");
    list.case(PUSH, &[3, high, low], &[2], "push: refused 2 (ours)");
    list.case(PUSH_SOFT, &[dibit, 9, 9], &[1], "push: refused 1 (ours)");
}

fn answer(synchroniser: &Synchronizer, taken: u32, sent: &[Frame]) -> Vec<u8> {
    let mut out = vec![0, sent.len() as u8];
    for frame in sent {
        out.extend(frame.bit_offset.to_be_bytes());
        out.extend([frame.sync_matched as u8, frame.marker_errors as u8]);
        out.extend(frame.moves.map(|bits| bits as u8));
        out.extend(frame.received);
        out.extend(&frame.confidence);
    }
    out.push(synchroniser.locked as u8);
    out.extend((synchroniser.slips as u32).to_be_bytes());
    let net = synchroniser.net_slip();
    out.push((net < 0) as u8);
    out.extend((net.unsigned_abs() as u32).to_be_bytes());
    out.extend((synchroniser.frames as u32).to_be_bytes());
    out.extend((synchroniser.synchronized_frames as u32).to_be_bytes());
    out.extend((synchroniser.pending_bits() as u16).to_be_bytes());
    out.extend(taken.to_be_bytes());
    out.extend(synchroniser.settled().unwrap_or(0).to_be_bytes());
    out
}

/// The net slip and the slips followed, added up from the moves of frames. The original keeps both sums itself: the notes are held to them.
#[derive(Default)]
struct Moved {
    net: i64,
    slips: u64,
}

impl Moved {
    /// Some frames more; those with a move are counted by their moves.
    fn by(&mut self, list: &mut List, sent: &[Frame], synchroniser: &Synchronizer) {
        for [front, second, third] in sent.iter().map(|f| f.moves).filter(|&moves| moves != [0; 3]) {
            list.beside(format!("moves {front} {second} {third}"));
            self.net += front as i64 + third as i64;
            self.slips += [front, second, third - second].iter().map(|bits| bits.unsigned_abs() as u64 / 2).sum::<u64>();
        }
        assert_eq!((self.net, self.slips), (synchroniser.net_slip(), synchroniser.slips));
    }
}

fn branch(before: (bool, u64), after: &Synchronizer, sent: &[Frame]) -> &'static str {
    match (before.0, after.locked, sent.len()) {
        (true, false, _) => "push: a frame and loss of lock",
        (false, true, _) => "push: lock and its first frames",
        (_, _, 0) if after.locked => "push: locked, nothing sent",
        (_, _, 0) => "push: searching",
        _ if after.slips > before.1 => "push: a frame with slips followed",
        _ if sent.iter().all(|f| f.sync_matched) => "push: a frame with sync",
        _ => "push: a frame without sync",
    }
}
