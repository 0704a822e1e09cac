//! Lookups and descriptions of the proved library against the separate reader: the number and every byte lent.

use compare::agree::{lent_bytes, room_number, Call, Pair};
use compare::generate::corpus::{cases, each, full_room};
use compare::generate::paths::{self, malformed, well_formed};
use compare::generate::random::Random;
use compare::generate::write::write;
use compare::generate::{asked, files, limits, small, special};
use compare::reader::front::{BLOCK_BYTES, DESCRIBE_WORDS, LOOKUP_WORDS, REPLY_WORDS};
use compare::reader::MOST_BLOCKS;
use std::collections::hash_map::DefaultHasher;
use std::collections::{BTreeMap, HashSet};
use std::hash::{Hash, Hasher};

/// The bytes of a list for every block of an image.
fn full(image: &[u8]) -> usize {
    BLOCK_BYTES * full_room(image)
}

/// How often each answer was given.
type Times = [u64; 21];

#[derive(Default)]
struct Comparison {
    pair: Pair,
    turn: usize,
    /// Lookups and descriptions by the number of the room.
    reached: BTreeMap<usize, [Times; 2]>,
}

impl Comparison {
    /// Both calls of a path with so many bytes lent for blocks; gives the lookup's number, kind and address, and the
    /// description's number. The reply has up to 16 bytes more than it needs.
    fn ask(
        &mut self,
        name: &str,
        image: &[u8],
        path: &[u8],
        blocks: usize,
    ) -> (paths::Answer, u32) {
        self.turn += 1;
        let more = self.turn % 17;
        let reply = 8 * LOOKUP_WORDS + more;
        let found = self.pair.lookups_agree(name, image, path, blocks, reply);
        let [kind, address] = [1, 2].map(|word| self.pair.left().word(word));
        assert!(found == 0 || self.pair.left().is_refused(found), "{name}");
        let reply = 8 * DESCRIBE_WORDS + more;
        let described = self
            .pair
            .descriptions_agree(name, image, path, blocks, reply);
        let left = self.pair.left();
        assert!(described == 0 || left.is_refused(described), "{name}");
        let times = self.reached.entry(room_number(blocks)).or_default();
        times[0][found as usize] += 1;
        times[1][described as usize] += 1;
        ((found, kind as u32, address), described)
    }

    /// The same at every small room and with room enough.
    fn ask_at_all_rooms(&mut self, name: &str, image: &[u8], path: &[u8]) {
        for blocks in lent_bytes(image, self.turn) {
            self.ask(name, image, path, blocks);
        }
    }

    fn times(&self, call: usize, answer: usize) -> u64 {
        let at_rooms = self.reached.values();
        at_rooms.map(|times| times[call][answer]).sum()
    }

    fn print(&self) {
        println!("answer   lookups  descriptions");
        for answer in 0..21 {
            let [found, described] = [0, 1].map(|call| self.times(call, answer));
            println!("{answer:6}  {found:8}      {described:8}");
        }
        let calls: u64 = self.reached.values().flatten().flatten().sum();
        println!("{calls} calls each of library and reader");
    }

    /// All that each can give, and nothing else: no lookup reads a dataset's messages, none counts objects.
    fn every_answer_is_reached(&self) {
        for answer in 0..21 {
            let [found, described] = [0, 1].map(|call| self.times(call, answer) > 0);
            assert_eq!(
                found,
                matches!(answer, 0..=10 | 13..=17),
                "lookup, {answer}"
            );
            assert_eq!(
                described,
                matches!(answer, 0..=11 | 13..=17 | 20),
                "description, {answer}"
            );
        }
    }

    fn every_room_is_lent(&self) {
        let rooms: Vec<usize> = self.reached.keys().copied().collect();
        assert_eq!(rooms, Vec::from_iter(0..=13));
    }
}

/// A description refuses what its lookup refuses, and whatever isn't a dataset.
fn assert_together(name: &str, found: paths::Answer, described: u32) {
    match found {
        (0, 2, _) => assert!(matches!(described, 0 | 3 | 5 | 6 | 11 | 13), "{name}"),
        (0, ..) => assert_eq!(described, 20, "{name}"),
        (number, ..) => assert_eq!(described, number, "{name}"),
    }
}

/// Every path of three components or fewer, and paths beside those of two: the plan decides at full room.
#[test]
fn planned_paths_are_answered() {
    let mut comparison = Comparison::default();
    for seed in 1000..1300 {
        let plan = files::plan(seed);
        let file = write(&plan, seed);
        let (name, image) = (format!("file {seed}"), &file.sheet.bytes);
        let beside = paths::planned(&plan, 2)
            .into_iter()
            .flat_map(|path| paths::beside(&path));
        for path in paths::planned(&plan, 3).into_iter().chain(beside) {
            let (found, described) = comparison.ask(&name, image, &path, full(image));
            let expected = paths::answer(&plan, &file, &path);
            assert_eq!(found, expected, "{name}, \"{}\"", path.escape_ascii());
            assert_together(&name, found, described);
            // All data of a sound file fits.
            assert!(found.1 != 2 || described == 0, "{name}");
        }
        for path in paths::planned(&plan, 1) {
            comparison.ask_at_all_rooms(&name, image, &path);
        }
    }
    comparison.print();
    comparison.every_room_is_lent();
}

#[test]
fn damaged_images_agree() {
    let mut comparison = Comparison::default();
    let mut different = HashSet::new();
    let mut random = Random::new(11);
    let wanted = cases(24_000);
    let mut images = 0;
    each(wanted, |case| {
        let name = format!("{}, copy {}", case.file, case.copy);
        let paths = case.planned_paths(&mut random);
        // One path at all rooms, that of a dataset if there is one.
        let mut chosen = &paths[images % paths.len()];
        for path in &paths {
            let (found, described) = comparison.ask(&name, case.image, path, full(case.image));
            assert_together(&name, found, described);
            if found.1 == 2 {
                chosen = path;
            }
        }
        comparison.ask_at_all_rooms(&name, case.image, chosen);
        different.insert(sum(case.image));
        images += 1;
    });
    println!("{images} images, {} of them different", different.len());
    comparison.print();
    // Some damage leaves a file as it was.
    assert!(images as u64 >= wanted && different.len() as u64 >= wanted / 10 * 9);
    comparison.every_room_is_lent();
    comparison.every_answer_is_reached();
    let least = [7500, 150, 1500, 60];
    let pair = &comparison.pair;
    pair.meetings(Call::Lookup).are_at_least("lookups", least);
    let meetings = pair.meetings(Call::Description);
    meetings.are_at_least("descriptions", least);
}

fn sum(image: &[u8]) -> u64 {
    let mut hasher = DefaultHasher::new();
    image.hash(&mut hasher);
    hasher.finish()
}

/// About so many strings of a file are looked up.
const STRINGS: usize = 60;

/// Strings of every heap as a component, also where the heap or a name is unsound.
#[test]
fn special_files_agree() {
    let mut comparison = Comparison::default();
    for special in special::all() {
        let (name, image) = (&special.name, &special.sheet.bytes);
        let strings = special.sheet.strings();
        let some = strings.len().div_ceil(STRINGS).max(1);
        for string in strings.into_iter().step_by(some) {
            let path = [b"/", string].concat();
            comparison.ask_at_all_rooms(name, image, &path);
            for beside in paths::beside(&path) {
                comparison.ask(name, image, &beside, full(image));
            }
        }
        comparison.ask_at_all_rooms(name, image, b"/");
        comparison.ask_at_all_rooms(name, image, b"/x");
    }
    comparison.print();
    comparison.every_room_is_lent();
}

#[test]
fn lookups_by_name_have_their_answers() {
    let mut comparison = Comparison::default();
    for asked in asked::all() {
        let blocks = BLOCK_BYTES * asked.lent + asked.lent % BLOCK_BYTES;
        let (name, path) = (&asked.name, &asked.path);
        let answers = comparison.ask(name, &asked.image, path, blocks);
        let title = format!("{name}, {}, {blocks} bytes", path.escape_ascii());
        assert_eq!(answers, (asked.lookup, asked.description), "{title}");
    }
    comparison.print();
}

/// The form of a path decides over everything else.
#[test]
fn malformed_paths_give_14() {
    let mut comparison = Comparison::default();
    let links: [(&[u8], u64); 2] = [(b"a", small::ROOT), (b"n", small::ROOT)];
    let loops = small::h_with(&links, 3, 0).bytes;
    let images = [small::h().bytes, loops, vec![0; 95], Vec::new()];
    for (number, image) in images.iter().enumerate() {
        let name = format!("image {number}");
        for path in malformed() {
            for blocks in lent_bytes(image, number) {
                let answers = comparison.ask(&name, image, &path, blocks);
                assert_eq!(answers, ((14, 0, 0), 14), "{}", path.escape_ascii());
            }
        }
        for path in well_formed() {
            let (found, _) = comparison.ask(&name, image, &path, full(image));
            assert_ne!(found.0, 14, "{}", path.escape_ascii());
            comparison.ask_at_all_rooms(&name, image, &path);
        }
    }
}

/// Each byte, alone, before, within and behind a name.
#[test]
fn every_byte_in_a_component() {
    let mut comparison = Comparison::default();
    let image = small::h().bytes;
    for byte in 0..=255 {
        for (path, at_name) in [
            (vec![b'/', byte], true),
            (vec![b'/', byte, b'a'], false),
            (vec![b'/', b'a', byte], false),
            (vec![b'/', b'a', byte, b'b'], false),
            (vec![byte, b'a'], false),
        ] {
            let (found, _) = comparison.ask("H", &image, &path, full(&image));
            let expected = match byte {
                0 => 14,
                b'/' if path == b"/a/b" => 17,
                b'/' if path == b"/a" => 0,
                b'/' => 14,
                _ if path[0] != b'/' => 14,
                b'.' if at_name => 14,
                b'a' | b'b' if at_name => 0,
                _ => 15,
            };
            assert_eq!(found.0, expected, "{}", path.escape_ascii());
        }
    }
}

/// 13 is given before the path and the image are read.
#[test]
fn short_replies_give_13_first() {
    let mut pair = Pair::default();
    let sound = small::h().bytes;
    let meeting = small::h().with("heap segment", 0, 130).bytes;
    let short = vec![0; 95];
    let asked: [(&[u8], &[u8], u32); 6] = [
        (&sound, b"/a", 0),
        (&meeting, b"/a", 6),
        (&sound, b"/c", 15),
        (&sound, b"/a/", 14),
        (&short, b"/a", 1),
        (&short, b"", 14),
    ];
    let (least, most) = (8 * LOOKUP_WORDS, 8 * DESCRIBE_WORDS);
    for (image, path, number) in asked {
        for blocks in [BLOCK_BYTES * 6, BLOCK_BYTES * 6 + 3, full(image)] {
            for reply in (0..40).chain(most - 17..most + 17).chain([8 * REPLY_WORDS]) {
                let found = pair.lookups_agree("short reply", image, path, blocks, reply);
                assert_eq!(found, if reply < least { 13 } else { number });
                assert!(found == 0 || pair.left().is_refused(found));
                let described = pair.descriptions_agree("short reply", image, path, blocks, reply);
                assert_eq!(described, if reply < most { 13 } else { number });
                assert!(described == 0 || pair.left().is_refused(described));
            }
        }
    }
}

#[test]
fn lookups_agree_at_the_limits() {
    let mut comparison = Comparison::default();
    let paths: [&[u8]; 10] = [
        b"/",
        b"/00000",
        b"/00001",
        b"/00000/00000/00000/00447",
        b"/11999",
        b"/12000",
        b"/00001/x",
        b"/dataset 0001",
        b"/dataset 0032",
        b"/dataset 1023",
    ];
    for (name, image) in limits::all() {
        for room in [0, 2, 3, MOST_BLOCKS - 1, MOST_BLOCKS, MOST_BLOCKS + 1] {
            let blocks = BLOCK_BYTES * room + room % BLOCK_BYTES;
            for path in paths {
                comparison.ask(name, &image, path, blocks);
            }
        }
    }
    comparison.print();
    for answer in [0, 13, 15, 17] {
        assert!(comparison.times(0, answer) > 0, "{answer}");
    }
}
