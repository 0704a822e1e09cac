//! The proved library against the separate reader: the number and every byte lent.

use compare::agree::{lent_bytes, room_number, Call, Pair};
use compare::generate::corpus::{cases, each, full_room};
use compare::generate::{limits, sharing, small, special};
use compare::reader::front::{BLOCK_BYTES, REPLY_WORDS};
use compare::reader::{MOST_BLOCKS, MOST_BYTES};
use std::collections::hash_map::DefaultHasher;
use std::collections::{BTreeMap, HashSet};
use std::hash::{Hash, Hasher};

/// How often each answer was given, by the number of the room.
type Reached = BTreeMap<usize, [u64; 14]>;

#[test]
fn audits_agree() {
    let mut pair = Pair::default();
    let mut reached = Reached::new();
    let mut different = HashSet::new();
    let wanted = cases(40_000);
    let mut images = 0;
    each(wanted, |case| {
        let name = format!("{}, copy {}", case.file, case.copy);
        let reply = 8 * REPLY_WORDS + images % 17;
        for blocks in lent_bytes(case.image, images) {
            let number = pair.agree(&name, case.image, blocks, reply);
            reached.entry(room_number(blocks)).or_default()[number as usize] += 1;
        }
        different.insert(sum(case.image));
        images += 1;
    });
    print(images, different.len(), &reached);
    // Some damage leaves a file as it was.
    assert!(images as u64 >= wanted && different.len() as u64 >= wanted / 10 * 9);
    rooms_and_answers_are_complete(images as u64, &reached);
    let meetings = pair.meetings(Call::Audit);
    meetings.are_at_least("audits", [8000, 500, 1500, 100]);
}

fn sum(image: &[u8]) -> u64 {
    let mut hasher = DefaultHasher::new();
    image.hash(&mut hasher);
    hasher.finish()
}

fn print(images: usize, different: usize, reached: &Reached) {
    println!("{images} images, {different} of them different; answers by room:");
    print!("room  ");
    (0..14).for_each(|answer| print!("{answer:8}"));
    println!();
    for (room, times) in reached {
        print!("{room:4}  ");
        times.iter().for_each(|times| print!("{times:8}"));
        println!();
    }
}

/// Every image at every small room and with room enough, and each answer at one of them.
fn rooms_and_answers_are_complete(images: u64, reached: &Reached) {
    let rooms: Vec<usize> = reached.keys().copied().collect();
    assert_eq!(rooms, Vec::from_iter(0..=13));
    for (room, times) in reached {
        assert_eq!(times.iter().sum::<u64>(), images, "room {room}");
    }
    for answer in 0..14 {
        let times: u64 = reached.values().map(|times| times[answer]).sum();
        assert!(times > 0, "answer {answer} was never reached");
    }
}

#[test]
fn audits_agree_at_the_limits() {
    let mut pair = Pair::default();
    for (name, image) in limits::all() {
        for room in [
            0,
            1,
            MOST_BLOCKS / 2,
            MOST_BLOCKS - 1,
            MOST_BLOCKS,
            MOST_BLOCKS + 1,
        ] {
            let blocks = BLOCK_BYTES * room + room % BLOCK_BYTES;
            let number = pair.agree(name, &image, blocks, 8 * REPLY_WORDS);
            assert_eq!(number, if room < MOST_BLOCKS { 13 } else { 0 }, "{name}");
        }
        let mut short = image;
        short.truncate(MOST_BYTES - 1);
        pair.agree(name, &short, BLOCK_BYTES * MOST_BLOCKS, 8 * REPLY_WORDS);
    }
    for special in special::all() {
        for room in [
            MOST_BLOCKS - 1,
            MOST_BLOCKS,
            MOST_BLOCKS + 1,
            MOST_BLOCKS + 100,
        ] {
            let (name, image) = (&special.name, &special.sheet.bytes);
            let number = pair.agree(name, image, BLOCK_BYTES * room, 8 * REPLY_WORDS);
            assert!(room < MOST_BLOCKS || number == special.number, "{name}");
        }
    }
}

/// Faults in attributes and shared parts, alone and two at a time.
#[test]
fn sharings_agree() {
    let mut pair = Pair::default();
    let mut reached = [0; 14];
    for (turn, file) in sharing::all().iter().enumerate() {
        let image = &file.sheet.bytes;
        for blocks in lent_bytes(image, turn) {
            let number = pair.agree(&file.name, image, blocks, 8 * REPLY_WORDS);
            reached[number as usize] += 1;
            let full = blocks >= BLOCK_BYTES * full_room(image);
            assert!(!full || number == file.number, "{}: {number}", file.name);
        }
    }
    println!("answers: {reached:?}");
    for number in [0, 3, 5, 6, 7, 8, 9, 10, 12, 13] {
        assert!(reached[number] > 0, "answer {number} was never reached");
    }
}

#[test]
fn short_replies_give_13_first() {
    let mut pair = Pair::default();
    let sound = small::h().bytes;
    let meeting = small::h().with("heap segment", 0, 130).bytes;
    let too_short = vec![0; 95];
    const LEAST: usize = 8 * REPLY_WORDS;
    for reply in [0, 1, 7, 8, 24, LEAST - 8, LEAST - 1, LEAST, LEAST + 9] {
        for blocks in [0, 5, BLOCK_BYTES * 8, BLOCK_BYTES * 8 + 3] {
            let enough = reply >= LEAST;
            let number = pair.agree("H", &sound, blocks, reply);
            assert_eq!(number == 0, enough && blocks >= BLOCK_BYTES * 8);
            let number = pair.agree("H, segment at 130", &meeting, blocks, reply);
            assert_eq!(number == 6, enough && blocks >= BLOCK_BYTES * 8);
            assert!(pair.left().is_refused(number));
            let number = pair.agree("95 bytes", &too_short, blocks, reply);
            assert_eq!(number, if enough { 1 } else { 13 });
        }
    }
    pair.agree("no image", &[], 160, LEAST);
}
