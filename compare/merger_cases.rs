//! Scripts of pushes and releases. The original gives no answer to a push: kept, double and late are told from its state before and
//! after. Where document 01 refuses (7, 8, 9) the original is not called.
use crate::frame::{Frame, Merger};
use crate::list::*;
use std::collections::HashMap;

const LAST_OFFSET: u64 = 1 << 42;

pub fn write(list: &mut List, random: &mut Random, count: u64) {
    let end = list.cases() + count;
    while list.cases() < end {
        Script::new(random).run(list, random);
    }
}

struct Script {
    merger: Merger,
    /// By the caller's number: whether its check says yes, and the offset of the push.
    pushed: HashMap<u64, (bool, u64)>,
    /// How offsets are chosen: on one grid, near it, anywhere, or at the borders of the rules.
    kind: u64,
    grid: u64,
    clock: u64,
    number: u64,
    may_flush: bool,
    seldom_released: bool,
}

impl Script {
    fn new(random: &mut Random) -> Self {
        let clock = match random.below(4) {
            0 => 0,
            1 => random.below(10_000),
            2 => LAST_OFFSET - random.below(20_000),
            _ => random.below(LAST_OFFSET),
        };
        Script {
            merger: Merger::default(),
            pushed: HashMap::new(),
            kind: random.below(4),
            grid: clock,
            clock,
            number: 1 + random.below(1 << 40),
            may_flush: random.below(3) > 0,
            seldom_released: random.once_in(3),
        }
    }

    fn run(&mut self, list: &mut List, random: &mut Random) {
        list.case(NEW_MERGER, &[], &[], "merger: new");
        for _ in 0..200 {
            let pushes = if self.seldom_released { 17 } else { 13 };
            if random.below(20) < pushes {
                self.push(list, random);
            } else {
                self.release(list, random);
            }
        }
    }

    fn offset(&self, random: &mut Random) -> u64 {
        let on_grid = self.grid + 384 * (self.clock.saturating_sub(self.grid) / 384);
        let base = match (self.kind, self.merger.last_released()) {
            (0, _) => on_grid,
            (1, _) => on_grid.saturating_sub(random.below(8)) + random.below(8),
            (2, _) | (_, None) => self.clock.saturating_sub(random.below(800)) + random.below(800),
            (_, Some(last)) => last + [192, 193, 191 + random.below(4), 384 + random.below(400), 6_140 + random.below(8), 570 + random.below(12)][random.below(6) as usize],
        };
        let base = if random.once_in(20) { base.saturating_sub(random.below(3_000)) } else { base };
        // Where the places are full: late comes before refusal 9.
        if let (16, Some(last), true) = (self.merger.positions(), self.merger.last_released(), random.once_in(8)) {
            return last + random.below(192);
        }
        match (random.below(400), self.merger.first_key()) {
            (0, _) => u64::MAX - random.below(3),
            (1 | 2, _) => LAST_OFFSET + random.below(3),
            (3..=50, Some(key)) => [key + 191, key + 192, key.saturating_sub(191), key.saturating_sub(192)][random.below(4) as usize],
            _ => base,
        }
    }

    fn push(&mut self, list: &mut List, random: &mut Random) {
        let stream = if random.once_in(60) { 2 + random.below(254) } else { random.below(2) };
        let offset = self.offset(random);
        let (yes, matched, errors, moves) = (random.once_in(2), random.once_in(2), random.below(49) as u8, some_moves(random));
        self.number += 1;
        let mut input = vec![stream as u8];
        input.extend(offset.to_be_bytes());
        input.extend([matched as u8, errors]);
        input.extend(moves.map(|bits| bits as u8));
        input.extend(self.number.to_be_bytes());
        input.push(yes as u8);
        // The caller's number lies in the envelope's first eight bytes.
        let mut received = [0u8; 48];
        received[..8].copy_from_slice(&self.number.to_be_bytes());
        self.pushed.insert(self.number, (yes, offset));
        let frame = Frame { bit_offset: offset, sync_matched: matched, marker_errors: errors as u32, moves, received, confidence: Vec::new() };
        let (answer, branch) = self.take(stream, frame);
        list.case(MERGER_PUSH, &input, &[answer], branch);
        if random.once_in(2) {
            self.clock += [384 * random.below(20), random.below(9_000)].get(random.below(30) as usize).copied().unwrap_or(384);
            self.clock = self.clock.min(LAST_OFFSET + 400);
        }
    }

    fn take(&mut self, stream: u64, frame: Frame) -> (u8, &'static str) {
        let offset = frame.bit_offset;
        if stream > 1 {
            let before = offset > LAST_OFFSET;
            return (107, if before { "merger push: refused 7 before 8 (ours)" } else { "merger push: refused 7 (ours)" });
        }
        if offset > LAST_OFFSET {
            return (108, "merger push: refused 8 (ours)");
        }
        let late = self.merger.last_released().is_some_and(|last| offset + 191 < last + 384);
        let full = self.merger.positions() == 16 && !self.merger.has_key_near(offset);
        if !late && full {
            return (109, "merger push: refused 9 (ours)");
        }
        let before = self.merger.held();
        self.merger.push(stream as usize, frame);
        match (self.merger.held() > before, late) {
            (true, _) => (0, "merger push: kept"),
            (_, false) => (1, "merger push: double"),
            _ if full => (2, "merger push: late, with 16 positions pending"),
            _ => (2, "merger push: late"),
        }
    }

    fn settled(&self, random: &mut Random) -> Option<u64> {
        match random.below(6) {
            0 => None,
            1 => Some(random.next()),
            2 => Some(self.clock),
            3 => self.merger.first_key().map(|key| key + 191 + random.below(2)),
            _ => Some(self.clock.saturating_sub(random.below(3_000))),
        }
    }

    /// All that is ready, as the original releases it; ours is asked until nothing is ready.
    fn release(&mut self, list: &mut List, random: &mut Random) {
        let flush = self.may_flush && random.once_in(6);
        let settled = [self.settled(random), self.settled(random)];
        let mut input = vec![flush as u8 + 2 * settled[0].is_some() as u8 + 4 * settled[1].is_some() as u8];
        input.extend(settled[0].unwrap_or(7).to_be_bytes());
        input.extend(settled[1].unwrap_or(9).to_be_bytes());
        let before = self.merger.positions();
        let pushed = &self.pushed;
        let of = |f: &Frame| pushed[&u64::from_be_bytes(f.received[..8].try_into().unwrap())];
        let frames = self.merger.release(settled, flush, |f| of(f).0);
        let gone = before - self.merger.positions();
        let mut answer = vec![gone as u8];
        for (frame, alternate) in &frames {
            answer.extend(frame.bit_offset.to_be_bytes());
            answer.extend([frame.sync_matched as u8, frame.marker_errors as u8]);
            answer.extend(frame.moves.map(|bits| bits as u8));
            answer.extend(frame.received[..8].iter());
            answer.push(*alternate as u8);
            if frame.moves != [0; 3] {
                let at = if frame.bit_offset == of(frame).1 { "its own" } else { "another" };
                list.beside(format!("moves not zero, released at {at} offset"));
            }
        }
        let branch = match (gone, gone - frames.len()) {
            (0, _) => "merger release: nothing ready",
            (_, 0) => "merger release: frames",
            _ => "merger release: a position passed over",
        };
        list.case(MERGER_RELEASE, &input, &answer, branch);
    }
}

/// Most often such as frames have: a symbol more or less, or none, in front, at the second segment, and from there to the third. The merger passes
/// on what it gets: at times they are any three bytes.
fn some_moves(random: &mut Random) -> [i8; 3] {
    if random.once_in(20) {
        return [0; 3].map(|_| random.byte() as i8);
    }
    let [front, second, further] = [0; 3].map(|_| 2 * random.below(3) as i8 - 2);
    [front, second, second + further]
}
