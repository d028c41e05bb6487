//! The original's synchroniser as a whole program that names the frames that slipped, to be held to our `slips`. It reads packed dibits from standard
//! input and writes `slip OFFSET FRONT SECOND THIRD` for each frame with a move that is not zero, and last `end FRAMES SLIPS NETSLIP`.
//! The moves come from the lines that compare/note_moves adds. They cost less than one instruction in a hundred, so that the count of this program
//! can stand for the original's.
#[path = "noted_frame.rs"]
mod frame;

use frame::Synchronizer;
use std::io::{BufWriter, Read, Write};

/// Reads in pieces of 4,096 bytes as our program does: the memory is constant.
fn main() {
    let mut input = std::io::stdin().lock();
    let mut out = BufWriter::new(std::io::stdout().lock());
    let (mut synchroniser, mut piece) = (Synchronizer::default(), Vec::new());
    loop {
        piece.clear();
        input.by_ref().take(4_096).read_to_end(&mut piece).expect("the recording is not given");
        if piece.is_empty() {
            break;
        }
        for frame in synchroniser.packed(&piece) {
            let [front, second, third] = frame.moves;
            if frame.moves != [0; 3] {
                writeln!(out, "slip {} {front} {second} {third}", frame.bit_offset).expect("the lines are not taken");
            }
        }
    }
    writeln!(out, "end {} {} {}", synchroniser.frames, synchroniser.slips, synchroniser.net_slip()).expect("the lines are not taken");
    out.flush().expect("the lines are not taken");
}
