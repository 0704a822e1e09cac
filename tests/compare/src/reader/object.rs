//! One object alone.

use super::blocks::{Block, Blocks};
use super::header::{self, Kind};
use super::limits::MOST_BLOCKS;
use super::refusal::{Located, Site, Walked};
use super::{dataset, group, superblock};

/// The blocks that a walk of the object at an address enters, from an empty list. What it links to or shares is left.
pub fn object_alone(image: &[u8], address: u64) -> Walked<Vec<Block>> {
    let superblock = superblock::read(image).at(Site::block(0))?;
    let mut blocks = Blocks::empty(&superblock, MOST_BLOCKS);
    let header = header::read(image, &mut blocks, address, |_| Ok(()))?;
    match header.kind {
        Kind::Group { tree, heap } => {
            group::walk(image, &superblock, &mut blocks, (tree, heap), |_| Ok(()))?;
        }
        Kind::Dataset {
            space,
            datatype,
            layout,
        } => {
            dataset::read(&mut blocks, [space, datatype, layout], |_| Ok(()))?;
        }
        Kind::Committed => {}
    }
    Ok(blocks.entered().to_vec())
}
