//! The damage report. "It runs the audit's walk at the same room", and says in which block the walk stopped.

use super::audit;
use super::blocks::{Blocks, BLOCK_WORDS, SUPERBLOCK_OWNER};
use super::refusal::{Part, Refusal, Stop};
use super::superblock;
use super::table::Object;

/// The report, and the block list as it leaves it.
#[derive(Clone, PartialEq, Eq, Debug, Default)]
pub struct ReportReply {
    /// The audit's number.
    pub answer: u32,
    /// So many blocks were entered: all, or those before the fault.
    pub block_count: u64,
    pub place: u64,
    /// The damaged block as the list has it: address, length, kind and object.
    pub block: [u64; BLOCK_WORDS],
    /// As in the audit.
    pub met: u64,
    /// Those of a file that the audit accepts.
    pub objects: Vec<Object>,
    /// "The list is left in every case".
    pub list: Vec<u64>,
}

/// "2, 3, 4 of the superblock": of either version so many bytes are there.
const UNOPENED: [u64; BLOCK_WORDS] = [0, 96, Part::Superblock as u64, SUPERBLOCK_OWNER];

/// "A report is always made."
pub fn report(image: &[u8], lent_words: usize) -> ReportReply {
    let superblock = match superblock::read(image) {
        Ok(superblock) => superblock,
        Err(refusal) => return unopened(refusal, lent_words),
    };
    let mut blocks = Blocks::empty(&superblock, super::room(lent_words));
    let walked = audit::walk(image, &superblock, &mut blocks);
    let reply = match walked {
        Ok(objects) => ReportReply {
            objects,
            ..ReportReply::default()
        },
        Err(stop) => ReportReply {
            answer: stop.number(),
            place: stop.place(),
            block: damaged(&blocks, stop),
            met: stop.met(),
            ..ReportReply::default()
        },
    };
    ReportReply {
        block_count: blocks.entered().len() as u64,
        list: blocks.list(lent_words),
        ..reply
    }
}

/// An image that can't be opened has no list. With 1 there is "none: four zeros".
fn unopened(refusal: Refusal, lent_words: usize) -> ReportReply {
    let block = match refusal {
        Refusal::ImageLength => [0; BLOCK_WORDS],
        _ => UNOPENED,
    };
    ReportReply {
        answer: refusal.number(),
        block,
        list: vec![0; lent_words],
        ..ReportReply::default()
    }
}

/// The block that was being read when the fault was met, or the one that can't be entered, "as it is pointed to".
fn damaged(blocks: &Blocks, stop: Stop) -> [u64; BLOCK_WORDS] {
    match stop {
        Stop::Fault(_, site) => {
            let read = blocks.entered_at(site.block);
            read.expect("a block that was entered").words()
        }
        Stop::NotEntered {
            part,
            address,
            length,
            owner,
            ..
        } => [address, length, part as u64, owner],
    }
}
