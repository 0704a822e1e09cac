//! Whose block it is, and which block answer 6 names: by the separate reader, and with the feature `proved` by the C front end
//! of the proved library too.

use compare::generate::corpus::full_room;
use compare::generate::sheet::Sheet;
use compare::generate::small::{self, A_BLOCKS, E_BLOCKS, H_BLOCKS};
use compare::generate::write::write;
use compare::generate::{files, limits, moved, paths, special};
use compare::owners::{check_described, check_owners};
use compare::plain::{self, Meetings};
use compare::reader::front::{self, DESCRIBE_WORDS, LOOKUP_WORDS, MEND_WORDS, REPLY_WORDS};
use compare::reader::{audit, describe, lookup, mend, AuditReply};
use compare::reader::{BLOCK_WORDS, MOST_BLOCKS, MOST_OBJECTS};

/// The words of a list for every block that a walk may enter.
const MOST: usize = BLOCK_WORDS * MOST_BLOCKS;

/// The words of a list for every block of an image.
fn full(image: &[u8]) -> usize {
    BLOCK_WORDS * full_room(image)
}

/// The words of a log for every object that an audit may find.
const LOG: usize = 2 * MOST_OBJECTS;

/// The calls on bytes, of the reader or of the library.
struct Calls {
    audit: fn(&[u8], &mut [u8], &mut [u8]) -> u32,
    lookup: fn(&[u8], &[u8], &mut [u8], &mut [u8]) -> u32,
    describe: fn(&[u8], &[u8], &mut [u8], &mut [u8]) -> u32,
    mend: fn(&mut [u8], &mut [u8], &mut [u8], &mut [u8], u64) -> u32,
}

fn all_calls() -> Vec<Calls> {
    vec![
        Calls {
            audit: front::audit_bytes,
            lookup: front::lookup_bytes,
            describe: front::describe_bytes,
            mend: front::mend_bytes,
        },
        #[cfg(feature = "proved")]
        Calls {
            audit: compare::library::audit,
            lookup: compare::library::lookup,
            describe: compare::library::describe,
            mend: compare::library::mend,
        },
    ]
}

#[derive(Clone, Copy, PartialEq, Eq, Debug)]
enum Call {
    Audit,
    Lookup,
    Describe,
    Mend,
}

const CALLS: [(Call, usize); 4] = [
    (Call::Audit, REPLY_WORDS),
    (Call::Lookup, LOOKUP_WORDS),
    (Call::Describe, DESCRIBE_WORDS),
    (Call::Mend, MEND_WORDS),
];

/// What a call leaves in the slices lent.
struct Left {
    number: u32,
    blocks: Vec<u8>,
    reply: Vec<u8>,
}

impl Calls {
    /// Lookup and description are of "/a". So many words are lent for blocks, with 5 bytes more, and so many bytes for the reply.
    /// A refused mend leaves the image as it is and zeros in the log.
    fn call(&self, call: Call, image: &[u8], words: usize, reply: usize) -> Left {
        let mut blocks = vec![0xa5; 8 * words + 5];
        let mut reply = vec![0xa5; reply];
        let number = match call {
            Call::Audit => (self.audit)(image, &mut blocks, &mut reply),
            Call::Lookup => (self.lookup)(image, b"/a", &mut blocks, &mut reply),
            Call::Describe => (self.describe)(image, b"/a", &mut blocks, &mut reply),
            Call::Mend => {
                let (mut mended, mut log) = (image.to_vec(), vec![0xa5; 40]);
                let number = (self.mend)(&mut mended, &mut blocks, &mut log, &mut reply, 9);
                assert!(number == 0 || mended == image && log == [0; 40]);
                number
            }
        };
        Left {
            number,
            blocks,
            reply,
        }
    }
}

/// So many bytes, these words first and then zeros.
fn bytes(words: &[u64], length: usize) -> Vec<u8> {
    let mut bytes: Vec<u8> = words.iter().flat_map(|word| word.to_le_bytes()).collect();
    bytes.resize(length, 0);
    bytes
}

/// Words behind the last four stay zero, and so do bytes behind the last word.
#[test]
fn small_files_have_these_lists() {
    let (e, h) = (small::e().bytes, small::h().bytes);
    let none: &[[u64; 4]] = &[];
    for (call, image, words, number, list) in [
        (Call::Audit, &e, 19, 13, none),
        (Call::Audit, &e, 20, 0, &E_BLOCKS),
        (Call::Audit, &e, 23, 0, &E_BLOCKS),
        (Call::Mend, &e, 19, 13, none),
        (Call::Mend, &e, 23, 0, &E_BLOCKS),
        (Call::Audit, &h, 31, 13, none),
        (Call::Audit, &h, 32, 0, &H_BLOCKS),
        (Call::Audit, &h, 35, 0, &H_BLOCKS),
        (Call::Mend, &h, 31, 13, none),
        (Call::Mend, &h, 32, 0, &H_BLOCKS),
        // The group needs six blocks, the description leaves three.
        (Call::Describe, &h, 23, 13, none),
        (Call::Describe, &h, 24, 0, &A_BLOCKS),
        (Call::Describe, &h, 27, 0, &A_BLOCKS),
        (Call::Lookup, &h, 23, 13, none),
        (Call::Lookup, &h, 27, 0, none),
    ] {
        for calls in all_calls() {
            let left = calls.call(call, image, words, 8 * REPLY_WORDS);
            assert_eq!(left.number, number, "{call:?}, {words} words");
            let expected = bytes(list.as_flattened(), 8 * words + 5);
            assert_eq!(left.blocks, expected, "{call:?}, {words} words");
            let count = u64::to_le_bytes(list.len() as u64);
            assert_eq!(left.reply[..8], count, "{call:?}, {words} words");
        }
    }
}

/// What audit, lookup, description and mend meet in a file, if they answer 6.
type Meets = (Sheet, [Option<u64>; 4]);

/// H, and a file whose dataset has a continuation before its header, with an address changed.
fn meetings() -> Vec<Meets> {
    let h = |field, address| small::h().with(field, 0, address);
    let continued = moved::continued().with("layout size", 0, 40);
    let in_audits = |met| [Some(met), None, None, Some(met)];
    let of_data = |audited, described| [Some(audited), None, Some(described), Some(audited)];
    vec![
        // The superblock is at 0.
        (h("root address", 0), [Some(0); 4]),
        (h("entry address", 80), [Some(0); 4]),
        // In the root's header and in the tree, which isn't entered yet.
        (h("heap segment", 130), [Some(96); 4]),
        // In the tree too, which is lower than the heap and entered after it.
        (h("tree child", 678), [Some(680); 4]),
        (h("layout address", 678), in_audits(680)),
        // In segment and symbol node.
        (h("layout address", 799), in_audits(712)),
        // In symbol node and header. A description has no block of the group in its list.
        (h("layout address", 1126), of_data(800, 1128)),
        (h("layout address", 94), of_data(0, 0)),
        // In the continuation too, which is lower than the header and entered after it.
        (
            continued.with("layout address", 0, 1140),
            of_data(1160, 1160),
        ),
    ]
}

#[test]
fn answer_6_names_the_first_block_met() {
    for (turn, (sheet, expected)) in meetings().into_iter().enumerate() {
        let image = sheet.bytes;
        for ((call, words), met) in CALLS.into_iter().zip(expected) {
            for calls in all_calls() {
                let title = format!("file {turn}, {call:?}");
                let length = 8 * words + 3;
                let left = calls.call(call, &image, 43, length);
                let Some(met) = met else {
                    assert_eq!(left.number, 0, "{title}");
                    continue;
                };
                assert_eq!(left.number, 6, "{title}");
                assert_eq!(left.reply, bytes(&[met], length), "{title}");
                assert_eq!(left.blocks, bytes(&[], 8 * 43 + 5), "{title}");
                // A reply that is too short comes first, and names no block.
                let short = calls.call(call, &image, 43, 8 * words - 1);
                assert_eq!(short.number, 13, "{title}");
                assert_eq!(short.reply, bytes(&[], 8 * words - 1), "{title}");
            }
        }
    }
}

/// "To enter a block: 5, 6, 13", and only 6 names a block.
#[test]
fn other_refusals_of_a_block_name_none() {
    let segment = |address, size| {
        let sheet = small::h().with("heap segment", 0, address);
        sheet.with("heap segment size", 0, size).bytes
    };
    for (image, words, number, met) in [
        // In the heap, and not inside the file.
        (segment(690, 9000), 35, 5, 0),
        (segment(690, 88), 35, 6, 680),
        // The list is full before the segment, and then one block earlier.
        (segment(690, 88), 12, 6, 680),
        (segment(690, 88), 11, 13, 0),
        (segment(712, 88), 12, 13, 0),
    ] {
        for (call, reply) in CALLS {
            for calls in all_calls() {
                let left = calls.call(call, &image, words, 8 * reply);
                assert_eq!(left.number, number, "{call:?}, {words} words");
                let expected = bytes(&[met], 8 * reply);
                assert_eq!(left.reply, expected, "{call:?}, {words} words");
            }
        }
    }
}

/// The most blocks fill so many words. There is no more room than that, and with a word less there is room for one block less.
#[test]
fn there_is_room_for_the_most_blocks() {
    let full = limits::everything();
    let special = special::all().into_iter();
    let mut more = special.filter(|special| special.name == "8,193 blocks");
    let more = more.next().expect("a file of 8,193 blocks").sheet.bytes;
    let list = audit(&full, MOST).list;
    assert!(list[MOST - 2] > 0, "a kind in the last block");
    for calls in all_calls() {
        for call in [Call::Audit, Call::Mend] {
            for (words, number) in [(MOST - 4, 13), (MOST - 1, 13), (MOST, 0), (MOST + 3, 0)] {
                let left = calls.call(call, &full, words, 8 * REPLY_WORDS);
                assert_eq!(left.number, number, "{call:?}, {words} words");
                let words_left: &[u64] = if number == 0 { &list } else { &[] };
                let expected = bytes(words_left, 8 * words + 5);
                assert!(left.blocks == expected, "{call:?}, {words} words");
            }
            for words in [MOST, MOST + 4, MOST + 1000] {
                let left = calls.call(call, &more, words, 8 * REPLY_WORDS);
                assert_eq!(left.number, 13, "{call:?}, {words} words");
            }
        }
    }
}

/// Planned files, special ones and those at the limits: every list of an audit that accepts, and of descriptions.
fn blocks_have_their_owners(
    mut audited: impl FnMut(&str, &[u8]) -> AuditReply,
    mut described: impl FnMut(&str, &[u8], &[u8]) -> (u32, Vec<u64>),
) {
    let mut images = 0;
    let mut check = |name: &str, image: &[u8]| {
        let reply = audited(name, image);
        if reply.number == 0 {
            check_owners(name, image, &reply);
            images += 1;
        }
        reply
    };
    for special in special::all() {
        check(&special.name, &special.sheet.bytes);
    }
    for (name, image) in limits::all() {
        check(name, &image);
    }
    let mut descriptions = 0;
    for seed in 1000..1500 {
        let plan = files::plan(seed);
        let file = write(&plan, seed);
        let (name, image) = (format!("file {seed}"), &file.sheet.bytes);
        let reply = check(&name, image);
        assert_eq!(reply.number, 0, "{name}");
        for path in paths::planned(&plan, 2) {
            let (number, list) = described(&name, image, &path);
            if number == 0 {
                let (_, _, address) = paths::answer(&plan, &file, &path);
                check_described(&name, &list, &reply, address);
                descriptions += 1;
            }
        }
    }
    assert!(images > 550 && descriptions > 1000);
}

#[test]
fn blocks_of_an_object_are_those_of_its_walk() {
    let described = |_: &str, image: &[u8], path: &[u8]| {
        let reply = describe(image, path, full(image));
        (reply.number, reply.list)
    };
    blocks_have_their_owners(|_, image| audit(image, full(image)), described);
}

/// A block at every address in turn: what each call meets first is what the plain walk meets first.
#[test]
fn moved_blocks_meet_others() {
    let mut meetings: [Meetings; 3] = Default::default();
    moved::each(|name, image| {
        let reply = audit(image, full(image));
        let audited = (reply.number, reply.met);
        meetings[0].check(&name, audited, || plain::audit(image));
        if reply.number == 0 {
            check_owners(name, image, &reply);
        }
        let reply = lookup(image, b"/a", full(image));
        let found = (reply.number, reply.met);
        meetings[1].check(&name, found, || plain::lookup(image, b"/a", false));
        let reply = describe(image, b"/a", full(image));
        let described = (reply.number, reply.met);
        meetings[2].check(&name, described, || plain::lookup(image, b"/a", true));
        let reply = mend(&mut image.to_vec(), full(image), LOG, 0);
        assert_eq!((reply.number, reply.met), audited, "{name}");
    });
    for ((call, least), meetings) in LEAST.into_iter().zip(&meetings) {
        meetings.are_at_least(call, least);
    }
}

/// How many meetings of moved blocks there are at least, by call.
const LEAST: [(&str, [u64; 4]); 3] = [
    ("audits", [10_000, 40, 2500, 1000]),
    ("lookups", [2000, 6, 1200, 300]),
    ("descriptions", [3500, 7, 1500, 600]),
];

/// The proved library on the same files.
#[cfg(feature = "proved")]
mod proved {
    use super::*;
    use compare::agree::{words, Call, Pair};

    #[test]
    fn proved_blocks_of_an_object_are_those_of_its_walk() {
        let mut pair = Pair::default();
        let mut others = Pair::default();
        let described = |name: &str, image: &[u8], path: &[u8]| {
            let lent = (8 * full(image), 8 * DESCRIBE_WORDS);
            let number = others.descriptions_agree(name, image, path, lent.0, lent.1);
            (number, words(&others.left().blocks))
        };
        blocks_have_their_owners(|name, image| pair.audit(name, image), described);
    }

    /// The library's own list has two sizes: for 64 blocks where an image has at most 16,384 bytes, and for all.
    #[test]
    fn proved_sizes_of_the_working_list_show_in_no_reply() {
        let mut pair = Pair::default();
        let mut answers = [0; 14];
        for blocks in 60..=72 {
            for bytes in [12_000, 16_383, 16_384, 16_385] {
                let mut image = limits::one_dataset(blocks, bytes);
                let dataset = audit(&image, full(&image)).objects[1].address as usize;
                image[dataset + 4] = 9;
                for room in [0, 7, 8, 9].into_iter().chain(56..=73).chain([MOST_BLOCKS]) {
                    let name = format!("{blocks} blocks, {bytes} bytes, room {room}");
                    let list = 32 * room + 17;
                    let numbers = [
                        pair.agree(&name, &image, list, 8 * REPLY_WORDS),
                        pair.lookups_agree(&name, &image, b"/a", list, 8 * LOOKUP_WORDS),
                        pair.descriptions_agree(&name, &image, b"/a", list, 8 * DESCRIBE_WORDS),
                        pair.mends_agree(&name, &image, (list, 16, 8 * MEND_WORDS), 1),
                    ];
                    for number in numbers {
                        answers[number as usize] += 1;
                    }
                    let room_for = [blocks, blocks - 6, blocks - 5, blocks];
                    let expected = room_for.map(|least| if room as u64 >= least { 0 } else { 13 });
                    assert_eq!(numbers, expected, "{name}");
                }
            }
        }
        assert!(answers[0] > 1000 && answers[13] > 1000, "{answers:?}");
    }

    #[test]
    fn proved_moved_blocks_meet_others() {
        let mut pair = Pair::default();
        moved::each(|name, image| {
            let reply = pair.audit(name, image);
            if reply.number == 0 {
                check_owners(name, image, &reply);
            }
            pair.lookups_agree(name, image, b"/a", 8 * full(image), 8 * LOOKUP_WORDS);
            pair.descriptions_agree(name, image, b"/a", 8 * full(image), 8 * DESCRIBE_WORDS);
            let lent = (8 * full(image), 8 * LOG, 8 * MEND_WORDS);
            let mended = pair.mends_agree(name, image, lent, 0);
            assert_eq!(mended, reply.number, "{name}");
        });
        let calls = [Call::Audit, Call::Lookup, Call::Description];
        for ((name, least), call) in LEAST.into_iter().zip(calls) {
            pair.meetings(call).are_at_least(name, least);
        }
        pair.meetings(Call::Mend).are_at_least("mends", LEAST[0].1);
    }
}
