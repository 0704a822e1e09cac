//! Mending and undo.

use super::audit;
use super::bytes::u32_at;
use super::refusal::{ask, Located, Read, Refusal, Walked, NOWHERE};
use super::superblock;

#[derive(Clone, PartialEq, Eq, Debug, Default)]
pub struct MendReply {
    pub number: u32,
    /// As in the audit.
    pub met: u64,
    pub block_count: u64,
    pub entries: u64,
    pub writes: u64,
    pub list: Vec<u64>,
    pub log: Vec<u64>,
}

#[derive(Clone, Copy, PartialEq, Eq, Debug, Default)]
pub struct UndoReply {
    pub number: u32,
    pub writes: u64,
}

/// "Mending takes a write limit n."
pub fn mend(image: &mut [u8], lent_words: usize, log_words: usize, limit: u64) -> MendReply {
    match try_mend(image, lent_words, log_words, limit) {
        Ok(reply) => reply,
        Err(stop) => MendReply {
            number: stop.number(),
            met: stop.met(),
            list: vec![0; lent_words],
            log: vec![0; log_words],
            ..MendReply::default()
        },
    }
}

/// "It audits, then writes the log: per wrong object, in audit order, the field's address and old count times 2^32
/// plus true count. 18 exactly if the log can't hold them all. Then it performs the first n entries, or all."
fn try_mend(
    image: &mut [u8],
    lent_words: usize,
    log_words: usize,
    limit: u64,
) -> Walked<MendReply> {
    let audited = audit::run(image, super::room(lent_words))?;
    let mut log = vec![0; log_words];
    let mut places = log.chunks_exact_mut(2);
    let wrong = audited
        .objects
        .iter()
        .filter(|object| object.stored != object.true_count);
    let mut entries = 0;
    for object in wrong {
        let place = places.next().ok_or(Refusal::LogTooShort).at(NOWHERE)?;
        place[0] = object.address + 4;
        place[1] = u64::from(object.stored) << 32 | u64::from(object.true_count);
        entries += 1;
    }
    let writes = limit.min(entries);
    for entry in log.chunks_exact(2).take(writes as usize) {
        write_count(image, entry[0], entry[1] as u32);
    }
    Ok(MendReply {
        number: 0,
        met: 0,
        block_count: audited.blocks.entered().len() as u64,
        entries,
        writes,
        list: audited.blocks.list(lent_words),
        log,
    })
}

/// "Undo takes e entries and a limit n".
pub fn undo(image: &mut [u8], log: &[u64], entries: u64, limit: u64) -> UndoReply {
    match try_undo(image, log, entries, limit) {
        Ok(writes) => UndoReply { number: 0, writes },
        Err(refusal) => UndoReply {
            number: refusal.number(),
            writes: 0,
        },
    }
}

/// "answer 1 first, 18 if fewer than 2e words, 19 if any of the e fields leaves the image or holds neither old nor
/// new; then the old counts of the last n entries, or of all if n is above e, are written, last first"
fn try_undo(image: &mut [u8], log: &[u64], entries: u64, limit: u64) -> Read<u64> {
    ask(superblock::length_in_range(image), Refusal::ImageLength)?;
    let held = (log.len() / 2) as u64;
    ask(entries <= held, Refusal::LogTooShort)?;
    let taken = &log[..2 * entries as usize];
    for entry in taken.chunks_exact(2) {
        ask(fits(image, entry), Refusal::LogDoesNotFit)?;
    }
    let writes = limit.min(entries);
    for entry in taken.chunks_exact(2).rev().take(writes as usize) {
        write_count(image, entry[0], (entry[1] >> 32) as u32);
    }
    Ok(writes)
}

fn fits(image: &[u8], entry: &[u64]) -> bool {
    let inside = entry[0]
        .checked_add(4)
        .is_some_and(|end| end <= image.len() as u64);
    if !inside {
        return false;
    }
    let now = u32_at(image, entry[0] as usize);
    now == (entry[1] >> 32) as u32 || now == entry[1] as u32
}

fn write_count(image: &mut [u8], at: u64, count: u32) {
    let at = at as usize;
    image[at..at + 4].copy_from_slice(&count.to_le_bytes());
}
