//! Heaps full of edges, from fixed seeds: the library's audit, lookups and report against the separate reader's.

use compare::agree::Pair;
use compare::generate::segments::edges;
use compare::reader::front::{BLOCK_BYTES, LOOKUP_WORDS, REPLY_WORDS, REPORT_WORDS};

const FILES: u64 = 60_000;
/// More than any of these files has.
const ROOM: usize = 64;

/// As many bytes as a heap has a map of its free bytes for, and how many heaps are longer.
const LONG: usize = 1 << 20;
const LONG_FILES: u64 = 2_000;

/// The answers of the audits and of the lookups of so many files.
fn agreed(files: u64, before: usize) -> [[u64; 21]; 2] {
    let mut pair = Pair::default();
    let mut answers = [0_u64; 21];
    let mut found = [0_u64; 21];
    let blocks = BLOCK_BYTES * ROOM;
    for seed in 0..files {
        let name = format!("file {seed}, {before} bytes before");
        let file = edges(seed, before);
        let number = pair.agree(&name, &file.image, blocks, 8 * REPLY_WORDS);
        answers[number as usize] += 1;
        pair.report(&name, &file.image, blocks, 8 * REPORT_WORDS);
        for path in &file.paths {
            let number = pair.lookups_agree(&name, &file.image, path, blocks, 8 * LOOKUP_WORDS);
            found[number as usize] += 1;
        }
    }
    println!("audits by answer: {answers:?}");
    println!("lookups by answer: {found:?}");
    // Accepted, unsound trees, unsound heaps and names; nothing else is wrong.
    for (answer, share) in [(0, 5), (8, 50), (9, 5)] {
        assert!(answers[answer] >= files / share, "{answer}: {answers:?}");
    }
    assert_eq!(answers[0] + answers[8] + answers[9], files, "{answers:?}");
    [answers, found]
}

#[test]
fn the_library_agrees_on_every_segment() {
    let [_, found] = agreed(FILES, 0);
    assert!(found[0] >= 2 * FILES && found[15] >= FILES / 5, "{found:?}");
}

/// Without a map the free list is followed for each name and value.
#[test]
fn the_library_agrees_on_every_long_segment() {
    let [_, found] = agreed(LONG_FILES, LONG);
    assert!(found[0] >= LONG_FILES, "{found:?}");
}
