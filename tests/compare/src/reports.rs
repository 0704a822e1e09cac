//! What holds of every damage report, told from the bytes of image, list and reply, beside the reader's audit and the plain
//! walk.

use crate::plain::{self, Four};
use crate::reader::front::{BLOCK_BYTES, REPORT_WORDS};
use crate::reader::{audit, room, Part, LEAST_BYTES, MOST_BYTES, SUPERBLOCK_OWNER};

/// What a call leaves in the slices lent.
pub struct Left {
    pub number: u32,
    pub blocks: Vec<u8>,
    pub reply: Vec<u8>,
}

/// The number of so many bytes at a place.
pub fn number(bytes: &[u8], at: u64, width: usize) -> u64 {
    let bytes = bytes[at as usize..][..width].iter().rev();
    bytes.fold(0, |number, byte| number << 8 | u64::from(*byte))
}

fn words(bytes: &[u8]) -> Vec<u64> {
    let words = bytes.chunks_exact(8);
    words.map(|word| number(word, 0, 8)).collect()
}

/// Where there is no block to name.
const NONE: Four = [0; 4];

/// The superblock of an image that can't be opened.
const UNOPENED: Four = [0, 96, 1, SUPERBLOCK_OWNER];

/// A report that was made, read off the bytes.
pub struct Report {
    pub answer: u64,
    pub place: u64,
    /// The damaged block.
    pub block: Four,
    pub met: u64,
    /// The blocks entered.
    pub list: Vec<Four>,
}

fn end(block: &Four) -> u128 {
    u128::from(block[0]) + u128::from(block[1])
}

/// The byte at a place is in a block.
pub fn holds(block: &Four, place: u64) -> bool {
    block[0] <= place && u128::from(place) < end(block)
}

fn share_a_byte(one: &Four, other: &Four) -> bool {
    u128::from(one[0]) < end(other) && u128::from(other[0]) < end(one)
}

/// A header begins the next object; every other block is of the same object as the one before it.
fn owner_after(list: &[Four], kind: u64) -> u64 {
    let last = list.last().map_or(SUPERBLOCK_OWNER, |block| block[3]);
    if kind == Part::Header as u64 {
        last.wrapping_add(1)
    } else {
        last
    }
}

/// The image has a superblock that can be entered: with no room at all 5 or 13 is then about the superblock.
fn is_opened(image: &[u8]) -> bool {
    matches!(audit(image, 0).number, 5 | 13)
}

/// The end-of-file address of a superblock.
fn end_of_file(image: &[u8]) -> u64 {
    number(image, 40 + 4 * u64::from(image[8]), 8)
}

/// Everything that is asked of a report. A reply that is too short has none.
pub fn check(title: &str, image: &[u8], left: &Left) -> Option<Report> {
    let zero = |bytes: &[u8]| bytes.iter().all(|byte| *byte == 0);
    if left.reply.len() / 8 < REPORT_WORDS {
        assert_eq!(left.number, 13, "{title}");
        assert!(zero(&left.blocks) && zero(&left.reply), "{title}");
        return None;
    }
    assert_eq!(left.number, 0, "{title}");
    let reply = words(&left.reply[..8 * REPORT_WORDS]);
    let count = reply[1] as usize;
    let room = room(left.blocks.len() / 8);
    assert!(count <= room, "{title}");
    let (entered, rest) = left.blocks.split_at(BLOCK_BYTES * count);
    assert!(
        zero(&left.reply[8 * REPORT_WORDS..]) && zero(rest),
        "{title}"
    );
    let list = words(entered);
    let fours = list.chunks_exact(4).map(|four| four.try_into());
    let report = Report {
        answer: reply[0],
        place: reply[2],
        block: [reply[3], reply[4], reply[5], reply[6]],
        met: reply[7],
        list: fours.collect::<Result<_, _>>().expect("fours"),
    };
    let audited = audit(image, left.blocks.len() / 8);
    assert_eq!(report.answer, u64::from(audited.number), "{title}");
    if report.answer == 0 {
        assert_eq!(count as u64, audited.block_count, "{title}");
        assert_eq!(list, audited.list[..4 * count], "{title}");
    }
    check_list(title, image, &report.list);
    check_block(title, image, room, &report);
    Some(report)
}

/// The superblock first; every block inside the end of file; no two share a byte; each of the object whose header is the last
/// before it.
fn check_list(title: &str, image: &[u8], list: &[Four]) {
    for (turn, block) in list.iter().enumerate() {
        let (kind, object) = (block[2], block[3]);
        assert_eq!(kind == Part::Superblock as u64, turn == 0, "{title}");
        assert_eq!(object, owner_after(&list[..turn], kind), "{title}");
        assert!(end(block) <= u128::from(end_of_file(image)), "{title}");
    }
    let mut by_address: Vec<&Four> = list.iter().collect();
    by_address.sort_unstable();
    let mut pairs = by_address.windows(2);
    assert!(pairs.all(|pair| !share_a_byte(pair[0], pair[1])), "{title}");
}

fn check_block(title: &str, image: &[u8], room: usize, report: &Report) {
    let Report {
        answer,
        place,
        block,
        met,
        list,
    } = report;
    let mut meets = list.iter().filter(|entered| share_a_byte(entered, block));
    let inside = || end(block) <= u128::from(end_of_file(image));
    match *answer {
        0 => assert_eq!((*place, *block, *met), (0, NONE, 0), "{title}"),
        1 => {
            let read_here = (LEAST_BYTES..=MOST_BYTES).contains(&image.len());
            assert!(!read_here, "{title}");
            assert_eq!((*place, *block, *met), (0, NONE, 0), "{title}");
            assert!(list.is_empty(), "{title}");
        }
        5 | 6 | 13 => {
            assert_eq!(*place, block[0], "{title}");
            assert_eq!(block[3], owner_after(list, block[2]), "{title}");
            assert_eq!(inside(), *answer != 5, "{title}");
            match *answer {
                5 => assert_eq!(*met, 0, "{title}"),
                6 => {
                    let first = meets.next().expect("a block that is met");
                    assert_eq!(*met, first[0], "{title}");
                    let plain = plain::audit(image).err().expect("blocks that meet");
                    assert_eq!((*block, *met), (plain.block, plain.first()), "{title}");
                }
                _ => {
                    assert_eq!(list.len(), room, "{title}");
                    assert!(meets.next().is_none() && *met == 0, "{title}");
                }
            }
        }
        2..=4 if !is_opened(image) => {
            assert_eq!((*place, *block, *met), (0, UNOPENED, 0), "{title}");
            assert!(list.is_empty(), "{title}");
        }
        _ => {
            assert!(holds(block, *place), "{title}: {block:?}, {place}");
            assert!(end(block) <= image.len() as u128, "{title}");
            let mut holding = list.iter().filter(|entered| holds(entered, *place));
            assert_eq!(holding.next(), Some(block), "{title}");
            assert_eq!((holding.next(), *met), (None, 0), "{title}");
            let known = is_in_the_table(*answer, block[2], place - block[0]);
            assert!(known, "{title}: {answer}, {block:?}, {place}");
        }
    }
}

/// Whether the request's table has a fault of this answer in a block of this kind, so many bytes from its start.
fn is_in_the_table(answer: u64, kind: u64, offset: u64) -> bool {
    let key = offset >= 24 && (offset - 24).is_multiple_of(16);
    let entry = offset >= 8 && (offset - 8).is_multiple_of(40);
    match (answer, kind) {
        (3 | 10, 2) => offset == 0 || offset >= 16,
        (11 | 12, 2) => offset >= 16,
        (3 | 10 | 11 | 12, 3) => true,
        (7 | 9, 4) | (9, 5) | (7 | 8, 6) | (7, 7) => offset == 0,
        (9, 6) => key,
        (8, 7) => offset == 0 || entry,
        (9 | 12, 7) => entry,
        _ => false,
    }
}
