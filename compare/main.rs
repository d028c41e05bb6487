//! Makes case lists from a seed: the inputs, and what the original answers to them. See docs/REPLAY.md for the list's format.
//! `cases SEED COUNT [PARTS..]` writes about COUNT cases to standard output, or only the named parts' shares of them (coding, tail, voice,
//! soft, sync, merger), and says on standard error how many reached which branch.
mod coding;
mod coding_cases;
#[path = "noted_frame.rs"]
mod frame;
mod list;
mod merger_cases;
mod soft_cases;
mod streams;
mod sync_cases;
mod tail_cases;
mod voice_cases;
mod voice_frame;

use list::{List, Random};

fn main() {
    let arguments: Vec<String> = std::env::args().collect();
    let number = |k: usize| arguments.get(k).and_then(|a| a.parse::<u64>().ok());
    let (Some(seed), Some(count)) = (number(1), number(2)) else {
        eprintln!("cases SEED COUNT [PARTS..]");
        std::process::exit(2);
    };
    let only: Vec<&str> = arguments[3..].iter().map(|a| a.as_str()).collect();
    let mut random = Random::new(seed);
    let mut list = List::new();
    for (name, hundredths, write) in PARTS {
        if only.is_empty() || only.contains(name) {
            write(&mut list, &mut random, count * hundredths / 100);
        }
    }
    list.finish();
}

type Part = (&'static str, u64, fn(&mut List, &mut Random, u64));

/// The parts of a list and their shares of the count. A push of the synchroniser is a case of its own, so most cases are pushes.
const PARTS: &[Part] = &[
    ("coding", 14, coding_cases::write),
    ("tail", 18, tail_cases::write),
    ("voice", 8, voice_cases::write),
    ("soft", 4, soft_cases::write),
    ("sync", 36, sync_cases::write),
    ("merger", 20, merger_cases::write),
];
