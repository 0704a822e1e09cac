//! The link audit.

use super::blocks::Blocks;
use super::group::{self, Target};
use super::header::{self, Kind};
use super::refusal::{Located, Site, Stop, Walked};
use super::superblock::{self, Superblock};
use super::table::{Object, Table};
use super::{attribute, dataset};

/// The audit's reply and the block list as it leaves it.
#[derive(Clone, PartialEq, Eq, Debug, Default)]
pub struct AuditReply {
    pub number: u32,
    /// With 6 the address of the first block entered that the refused one meets.
    pub met: u64,
    pub block_count: u64,
    pub objects: Vec<Object>,
    pub list: Vec<u64>,
}

/// What a finished audit knows.
pub struct Audited {
    pub blocks: Blocks,
    pub objects: Vec<Object>,
}

pub fn audit(image: &[u8], lent_words: usize) -> AuditReply {
    match run(image, super::room(lent_words)) {
        Ok(audited) => AuditReply {
            number: 0,
            met: 0,
            block_count: audited.blocks.entered().len() as u64,
            list: audited.blocks.list(lent_words),
            objects: audited.objects,
        },
        // "Any number but 0 returns zeros in every other field, zero-fills every list lent for writing", but for `met`.
        Err(stop) => AuditReply {
            number: stop.number(),
            met: stop.met(),
            list: vec![0; lent_words],
            ..AuditReply::default()
        },
    }
}

/// Where an audit stops, if it does. A reply has its number alone, and with 6 the block met.
pub fn audit_stop(image: &[u8], lent_words: usize) -> Option<Stop> {
    run(image, super::room(lent_words)).err()
}

pub fn run(image: &[u8], room: usize) -> Walked<Audited> {
    let superblock = superblock::read(image).at(Site::block(0))?;
    let mut blocks = Blocks::empty(&superblock, room);
    let objects = walk(image, &superblock, &mut blocks)?;
    Ok(Audited { blocks, objects })
}

/// "enter the superblock; take objects in order of discovery, root first." The list is empty before; where the walk stops it
/// has the blocks entered so far.
pub fn walk(image: &[u8], superblock: &Superblock, blocks: &mut Blocks) -> Walked<Vec<Object>> {
    blocks.enter_superblock(superblock)?;
    let mut table = Table::with_root(superblock.root);
    let mut number = 0;
    while let Some(address) = table.address(number) {
        blocks.walk_for(number as u64);
        // "A shared address is discovered as an object where its message is read, an attribute's with its header's
        // messages."
        let header = header::read(image, blocks, address, |attribute| {
            let shared = attribute::shared_address(attribute)?;
            shared.map_or(Ok(()), |address| table.share(address))
        })?;
        table.store(number, header.stored);
        let committed = matches!(header.kind, Kind::Committed);
        let learned = table.learn_kind(number, committed);
        learned.at(Site::block(address))?;
        match header.kind {
            Kind::Group { tree, heap } => {
                group::walk(image, superblock, blocks, (tree, heap), |link| {
                    match link.target {
                        Target::Hard(address) => table.link(address),
                        Target::Symbolic => Ok(()),
                    }
                })?;
            }
            Kind::Dataset {
                space,
                datatype,
                layout,
            } => {
                let messages = [space, datatype, layout];
                dataset::read(blocks, messages, |address| table.share(address))?;
            }
            Kind::Committed => {}
        }
        number += 1;
    }
    Ok(table.into_objects())
}
