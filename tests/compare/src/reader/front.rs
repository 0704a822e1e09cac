//! The audit, path lookup, dataset description, mending, undo and damage report as the C front end offers them: "on numbers and byte
//! slices; there a word is 8 little-endian bytes", "C returns the number; other fields go as words to a further slice,
//! spare bytes zero". With answer 6 the first of these words is the address of the block met.

use super::audit::{self, Audited};
use super::blocks::{Blocks, BLOCK_WORDS};
use super::describe::{self, Described, Description};
use super::limits::MOST_OBJECTS;
use super::lookup;
use super::mend;
use super::refusal::{ask, Located, Refusal, Stop, Walked, NOWHERE};
use super::report;

/// The bytes of a block in the list.
pub const BLOCK_BYTES: usize = 8 * BLOCK_WORDS;

/// "block count, objects, then address, stored and true count of each": 2 words and 3 for each object.
pub const REPLY_WORDS: usize = 2 + 3 * MOST_OBJECTS;

/// Block count, kind and address.
pub const LOOKUP_WORDS: usize = 3;

/// Block count, rank, 32 sizes, 32 maxima, class, version, class bits, element size, shared address, layout class, data
/// address and data size.
pub const DESCRIBE_WORDS: usize = 74;

/// "block count, entries, writes"
pub const MEND_WORDS: usize = 3;

/// "undo's writes"
pub const UNDO_WORDS: usize = 1;

/// "answer, block count, place, address, length, kind, object, met"
pub const REPORT_WORDS: usize = 8;

pub fn audit_bytes(image: &[u8], blocks: &mut [u8], reply: &mut [u8]) -> u32 {
    let audited = long_enough(reply, REPLY_WORDS).and_then(|()| audit::run(image, room_of(blocks)));
    match audited {
        Ok(audited) => {
            write_list(blocks, &audited.blocks);
            write_audit(reply, &audited);
            0
        }
        Err(stop) => refuse(stop, blocks, reply),
    }
}

pub fn lookup_bytes(image: &[u8], path: &[u8], blocks: &mut [u8], reply: &mut [u8]) -> u32 {
    let found =
        long_enough(reply, LOOKUP_WORDS).and_then(|()| lookup::find(image, path, room_of(blocks)));
    match found {
        Ok(found) => {
            // "At lookup's end the list is all zeros and the block count 0."
            blocks.fill(0);
            write_words(reply, &[0, u64::from(found.kind()), found.address()]);
            0
        }
        Err(stop) => refuse(stop, blocks, reply),
    }
}

pub fn describe_bytes(image: &[u8], path: &[u8], blocks: &mut [u8], reply: &mut [u8]) -> u32 {
    let described = long_enough(reply, DESCRIBE_WORDS)
        .and_then(|()| describe::run(image, path, room_of(blocks)));
    match described {
        Ok(Described {
            blocks: entered,
            description,
        }) => {
            write_list(blocks, &entered);
            let count = entered.entered().len() as u64;
            write_words(reply, &description_words(count, &description));
            0
        }
        Err(stop) => refuse(stop, blocks, reply),
    }
}

/// A refused mend has zeros in every field but `met`, in its list and in its log, and so these too are written.
pub fn mend_bytes(
    image: &mut [u8],
    blocks: &mut [u8],
    log: &mut [u8],
    reply: &mut [u8],
    limit: u64,
) -> u32 {
    if let Err(stop) = long_enough(reply, MEND_WORDS) {
        log.fill(0);
        return refuse(stop, blocks, reply);
    }
    let mended = mend::mend(image, blocks.len() / 8, log.len() / 8, limit);
    write_words(blocks, &mended.list);
    write_words(log, &mended.log);
    if mended.number == Refusal::BlocksMeet.number() {
        write_words(reply, &[mended.met]);
    } else {
        write_words(reply, &[mended.block_count, mended.entries, mended.writes]);
    }
    mended.number
}

/// A refused undo has no writes.
pub fn undo_bytes(image: &mut [u8], log: &[u8], reply: &mut [u8], entries: u64, limit: u64) -> u32 {
    if let Err(stop) = long_enough(reply, UNDO_WORDS) {
        return refuse(stop, &mut [], reply);
    }
    let words: Vec<u64> = log
        .chunks_exact(8)
        .map(|word| u64::from_le_bytes(word.try_into().expect("8 bytes")))
        .collect();
    let undone = mend::undo(image, &words, entries, limit);
    write_words(reply, &[undone.writes]);
    undone.number
}

/// "A report is always made", and its number is 0, but "13 with zeros if the reply has under 8 words".
pub fn report_bytes(image: &[u8], blocks: &mut [u8], reply: &mut [u8]) -> u32 {
    if let Err(stop) = long_enough(reply, REPORT_WORDS) {
        return refuse(stop, blocks, reply);
    }
    let report = report::report(image, blocks.len() / 8);
    write_words(blocks, &report.list);
    let [address, length, kind, object] = report.block;
    let words: [u64; REPORT_WORDS] = [
        u64::from(report.answer),
        report.block_count,
        report.place,
        address,
        length,
        kind,
        object,
        report.met,
    ];
    write_words(reply, &words);
    0
}

/// "Under 770, 3 or 1 words gives 13 first, in C only", and "C's 770 words become 3,074". The others have their own least
/// number of words.
fn long_enough(reply: &[u8], words: usize) -> Walked<()> {
    ask(reply.len() / 8 >= words, Refusal::NoRoom).at(NOWHERE)
}

fn room_of(blocks: &[u8]) -> usize {
    super::room(blocks.len() / 8)
}

/// "Any number but 0 returns zeros in every other field, zero-fills every list lent for writing"; with 6 "in C the first word"
/// is the address of the block met.
fn refuse(stop: Stop, blocks: &mut [u8], reply: &mut [u8]) -> u32 {
    blocks.fill(0);
    reply.fill(0);
    let number = stop.number();
    if number == Refusal::BlocksMeet.number() {
        write_words(reply, &[stop.met()]);
    }
    number
}

fn write_list(blocks: &mut [u8], entered: &Blocks) {
    let entered = entered.entered();
    let (fours, rest) = blocks.split_at_mut(BLOCK_BYTES * entered.len());
    for (four, block) in fours.chunks_exact_mut(BLOCK_BYTES).zip(entered) {
        write_words(four, &block.words());
    }
    rest.fill(0);
}

fn write_audit(reply: &mut [u8], audited: &Audited) {
    let objects = &audited.objects;
    reply[..8].copy_from_slice(&(audited.blocks.entered().len() as u64).to_le_bytes());
    reply[8..16].copy_from_slice(&(objects.len() as u64).to_le_bytes());
    let (places, rest) = reply[16..].split_at_mut(24 * objects.len());
    for (place, object) in places.chunks_exact_mut(24).zip(objects) {
        place[..8].copy_from_slice(&object.address.to_le_bytes());
        place[8..16].copy_from_slice(&u64::from(object.stored).to_le_bytes());
        place[16..].copy_from_slice(&u64::from(object.true_count).to_le_bytes());
    }
    rest.fill(0);
}

fn write_words(reply: &mut [u8], words: &[u64]) {
    let (places, rest) = reply.split_at_mut(8 * words.len());
    for (place, word) in places.chunks_exact_mut(8).zip(words) {
        place.copy_from_slice(&word.to_le_bytes());
    }
    rest.fill(0);
}

fn description_words(block_count: u64, fields: &Description) -> [u64; DESCRIBE_WORDS] {
    let mut words = [0; DESCRIBE_WORDS];
    words[0] = block_count;
    words[1] = fields.rank;
    words[2..34].copy_from_slice(&fields.sizes);
    words[34..66].copy_from_slice(&fields.maxima);
    words[66..].copy_from_slice(&[
        u64::from(fields.class),
        u64::from(fields.version),
        u64::from(fields.class_bits),
        u64::from(fields.element_size),
        fields.shared_address,
        u64::from(fields.layout_class),
        fields.data_address,
        fields.data_size,
    ]);
    words
}
