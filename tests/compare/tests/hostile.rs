//! Files on which a slow search shows: sound for the separate reader, and with the feature `proved` the library gives the
//! same replies, and soon.

use compare::generate::hostile::{Hostile, Kind, FREE_KINDS, KINDS};
use compare::reader::{audit, lookup, BLOCK_WORDS, MOST_BLOCKS, MOST_BYTES, MOST_OBJECTS};

const KIB: usize = 1024;

const SIZES: [usize; 3] = [64 * KIB, 256 * KIB, FREE_MOST];

/// The longest file of a kind with free blocks: in a longer heap the library follows the free list for each name and value.
const FREE_MOST: usize = 1024 * KIB;

/// Kinds that are also read at the longest length.
const LONG_KINDS: [&str; 6] = [
    "chain, random",
    "groups",
    "links spread",
    "names of 255 bytes",
    "long keys",
    "one long value",
];

/// Each kind at each size, by name.
fn files() -> impl Iterator<Item = (String, Hostile)> {
    let is_long = |kind: &Kind| LONG_KINDS.contains(&kind.0);
    let every = KINDS.into_iter().chain(FREE_KINDS);
    let every = SIZES
        .into_iter()
        .flat_map(move |size| every.clone().map(move |kind| (kind, size)));
    let long = KINDS
        .into_iter()
        .filter(is_long)
        .map(|kind| (kind, MOST_BYTES));
    every.chain(long).map(|((name, make), size)| {
        let file = make(size);
        assert_eq!(file.image.len(), size, "{name}");
        (format!("{name}, {size} bytes"), file)
    })
}

#[test]
fn every_kind_is_sound_at_every_size() {
    let lent = BLOCK_WORDS * MOST_BLOCKS;
    for (name, Hostile { image, path }) in files() {
        assert_eq!(audit(&image, lent).number, 0, "{name}");
        assert_eq!(lookup(&image, &path, lent).number, 0, "{name}");
    }
}

/// At the longest length the chains have as many blocks as there may be, and the groups and links as many objects.
#[test]
fn long_files_reach_the_limits() {
    let lent = BLOCK_WORDS * MOST_BLOCKS;
    for (name, blocks, objects) in [
        ("chain, random", MOST_BLOCKS, 1),
        ("groups", 4 * MOST_OBJECTS + 2, MOST_OBJECTS),
        ("long keys", MOST_BLOCKS, 1),
        ("links spread", MOST_OBJECTS + 10, MOST_OBJECTS),
    ] {
        let kind = KINDS.iter().find(|kind| kind.0 == name).expect("a kind");
        let reply = audit(&(kind.1)(MOST_BYTES).image, lent);
        assert_eq!(reply.objects.len(), objects, "{name}");
        assert_eq!(reply.block_count, blocks as u64, "{name}");
    }
}

#[cfg(feature = "proved")]
mod proved {
    use super::*;
    use compare::agree::Pair;
    use compare::library;
    use compare::reader::front::{BLOCK_BYTES, LOOKUP_WORDS, REPLY_WORDS, REPORT_WORDS};
    use std::time::{Duration, Instant};

    const BLOCKS: usize = BLOCK_BYTES * MOST_BLOCKS;

    #[test]
    fn the_library_agrees_on_every_kind() {
        let mut pair = Pair::default();
        for (name, Hostile { image, path }) in files() {
            let audited = pair.agree(&name, &image, BLOCKS, 8 * REPLY_WORDS);
            pair.report(&name, &image, BLOCKS, 8 * REPORT_WORDS);
            let mut find = |path| pair.lookups_agree(&name, &image, path, BLOCKS, 8 * LOOKUP_WORDS);
            let found = [find(&path), find(b"/absent")];
            // No kind has this name.
            assert_eq!((audited, found), (0, [0, 15]), "{name}");
        }
    }

    const LIMIT: Duration = Duration::from_secs(1);

    #[test]
    fn no_call_takes_a_second() {
        let mut blocks = vec![0; BLOCKS];
        let mut reply = vec![0; 8 * REPLY_WORDS];
        // Each object may have two words.
        let mut log = vec![0; 16 * MOST_OBJECTS];
        let long = KINDS.map(|kind| (kind, MOST_BYTES));
        let free = FREE_KINDS.map(|kind| (kind, FREE_MOST));
        for ((name, make), size) in long.into_iter().chain(free) {
            let Hostile { mut image, path } = make(size);
            let quick = |call: &str, start: Instant| {
                let taken = start.elapsed();
                assert!(taken < LIMIT, "{name}, {call}: {taken:?}");
            };
            let start = Instant::now();
            library::audit(&image, &mut blocks, &mut reply);
            quick("audit", start);
            let start = Instant::now();
            library::report(&image, &mut blocks, &mut reply);
            quick("report", start);
            let start = Instant::now();
            library::lookup(&image, &path, &mut blocks, &mut reply);
            quick("lookup", start);
            let start = Instant::now();
            library::describe(&image, &path, &mut blocks, &mut reply);
            quick("description", start);
            let start = Instant::now();
            library::mend(&mut image, &mut blocks, &mut log, &mut reply, u64::MAX);
            quick("mend", start);
            let start = Instant::now();
            library::undo(&mut image, &log, &mut reply, 1, 1);
            quick("undo", start);
        }
    }
}
