//! Blocks in hostile orders of addresses: the separate reader, and with the feature `proved` the library against it.

use compare::generate::block_orders::{file, one_more, scattered, touching, ORDERS, OTHERS};
use compare::generate::data_blocks::data_blocks;
use compare::plain::Meetings;
use compare::reader::{audit, AuditReply, BLOCK_WORDS, MOST_BLOCKS};

/// The most continuations of a file with gaps: several times as many as the library keeps in a run of their own.
const MOST: u64 = 300;
const FILES: u64 = 2_000;

/// More than any of the files with gaps has.
const ROOM: usize = 512;

fn reply(image: &[u8], blocks: usize) -> AuditReply {
    audit(image, BLOCK_WORDS * blocks)
}

/// The addresses in a list of blocks.
fn addresses(reply: &AuditReply) -> Vec<u64> {
    let fours = reply.list.chunks_exact(BLOCK_WORDS);
    fours
        .take(reply.block_count as usize)
        .map(|four| four[0])
        .collect()
}

#[test]
fn every_order_is_accepted_up_to_the_limit() {
    for (name, order) in ORDERS {
        for blocks in [OTHERS + 1, 64, 65, 128, 129, MOST_BLOCKS - 1, MOST_BLOCKS] {
            let image = touching(order, blocks).bytes;
            let reply = reply(&image, MOST_BLOCKS);
            let found = (reply.number, reply.block_count);
            assert_eq!(found, (0, blocks as u64), "{name}, {blocks} blocks");
        }
        let image = touching(order, MOST_BLOCKS + 1).bytes;
        assert_eq!(reply(&image, MOST_BLOCKS + 1).number, 13, "{name}");
    }
}

#[test]
fn the_orders_are_what_their_names_say() {
    let first = |name: &str, numbers: &[usize]| {
        let order = ORDERS
            .iter()
            .find(|order| order.0 == name)
            .expect("an order");
        assert_eq!((order.1)(numbers.len()), numbers, "{name}");
    };
    first("rising", &[0, 1, 2, 3, 4]);
    first("falling", &[4, 3, 2, 1, 0]);
    first("inward", &[0, 4, 1, 3, 2]);
    first("outward", &[2, 3, 1, 4, 0]);
    for (name, order) in ORDERS {
        let image = touching(order, 200).bytes;
        let mut listed = addresses(&reply(&image, MOST_BLOCKS))[2..197].to_vec();
        let rising = listed.is_sorted();
        assert_eq!(rising, name == "rising");
        listed.sort_unstable();
        listed.dedup();
        assert_eq!(listed.len(), 195, "{name}");
    }
}

/// A block more than one file has: it is entered, or it meets others, and then the first of them is named.
#[test]
fn one_block_more_meets_others_or_none() {
    let mut meetings = Meetings::default();
    let mut entered = 0;
    for seed in 0..FILES {
        let name = format!("file {seed}");
        let image = file(&scattered(seed, MOST).0).bytes;
        let before = reply(&image, ROOM);
        assert_eq!(before.number, 0, "{name}");
        let image = one_more(seed, MOST).bytes;
        let after = reply(&image, ROOM);
        meetings.check(&name, (after.number, after.met), || {
            compare::plain::audit(&image)
        });
        entered += u64::from(after.number == 0);
    }
    println!("{entered} entered");
    assert!(entered >= FILES / 20);
    meetings.are_at_least("one block more", [1000, 300, 500, 300]);
}

/// Blocks at any address: they touch, or share a byte.
#[test]
fn data_at_any_byte_meets_others_or_none() {
    let mut meetings = Meetings::default();
    for seed in 0..FILES {
        let name = format!("data {seed}");
        let image = data_blocks(seed);
        let reply = reply(&image, ROOM);
        let plain = compare::plain::audit(&image);
        assert_eq!(reply.number, if plain.is_ok() { 0 } else { 6 }, "{name}");
        meetings.check(&name, (reply.number, reply.met), || plain);
    }
    meetings.are_at_least("data", [FILES / 5, 300, 0, 0]);
}

#[cfg(feature = "proved")]
mod proved {
    use super::*;
    use compare::agree::{Call, Pair};
    use compare::reader::front::{BLOCK_BYTES, REPLY_WORDS, REPORT_WORDS};

    /// Audit, mend and report of an image with so much room.
    fn calls_agree(pair: &mut Pair, name: &str, image: &[u8], room: usize) -> u32 {
        let blocks = BLOCK_BYTES * room;
        pair.report(name, image, blocks, 8 * REPORT_WORDS);
        pair.lookups_agree(name, image, b"/", blocks, 24);
        pair.agree(name, image, blocks, 8 * REPLY_WORDS)
    }

    #[test]
    fn the_library_agrees_in_every_order() {
        let mut pair = Pair::default();
        for (name, order) in ORDERS {
            let large = [500, 4096, MOST_BLOCKS - 1, MOST_BLOCKS, MOST_BLOCKS + 1];
            for blocks in (OTHERS + 1..140).chain(large) {
                let image = touching(order, blocks).bytes;
                for room in [blocks - 1, blocks, blocks.max(ROOM)] {
                    let number = calls_agree(&mut pair, name, &image, room.min(MOST_BLOCKS));
                    let fits = blocks <= room.min(MOST_BLOCKS);
                    assert_eq!(number, if fits { 0 } else { 13 }, "{name}, {blocks} blocks");
                }
            }
        }
    }

    #[test]
    fn the_library_agrees_on_data_at_any_byte() {
        let mut pair = Pair::default();
        let mut sound = 0;
        for seed in 0..FILES {
            let name = format!("data {seed}");
            let number = calls_agree(&mut pair, &name, &data_blocks(seed), ROOM);
            sound += u64::from(number == 0);
        }
        assert!(sound >= FILES / 2, "{sound}");
        let meetings = pair.meetings(Call::Audit);
        meetings.are_at_least("the library", [FILES / 5, 300, 0, 0]);
    }

    #[test]
    fn the_library_meets_the_first_block() {
        let mut pair = Pair::default();
        for seed in 0..FILES {
            let name = format!("file {seed}");
            let image = one_more(seed, MOST).bytes;
            calls_agree(&mut pair, &name, &image, ROOM);
        }
        let meetings = pair.meetings(Call::Audit);
        meetings.are_at_least("the library", [1000, 300, 500, 300]);
    }
}
