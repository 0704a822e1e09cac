//! The block list of a walk.

use super::refusal::{Part, Refusal, Stop, Walked};
use super::superblock::Superblock;
use std::ops::Range;

/// "four words: address, length, kind [..] and the number of the object"
pub const BLOCK_WORDS: usize = 4;

/// "all ones the superblock"
pub const SUPERBLOCK_OWNER: u64 = u64::MAX;

#[derive(Clone, Copy, PartialEq, Eq, Debug)]
pub struct Block {
    pub address: u64,
    pub length: u64,
    pub part: Part,
    pub owner: u64,
}

impl Block {
    fn end(&self) -> u64 {
        self.address + self.length
    }

    pub fn words(&self) -> [u64; BLOCK_WORDS] {
        [self.address, self.length, self.part as u64, self.owner]
    }
}

pub struct Blocks {
    end_of_file: u64,
    room: usize,
    /// "the number of the object it was walked for"
    owner: u64,
    /// In the order of entering.
    entered: Vec<Block>,
    /// The same blocks as (first byte, end), by address.
    by_address: Vec<(u64, u64)>,
}

impl Blocks {
    /// A list of no block, for a walk of the first object.
    pub fn empty(superblock: &Superblock, room: usize) -> Blocks {
        Blocks {
            end_of_file: superblock.end,
            room,
            owner: 0,
            entered: Vec::with_capacity(room),
            by_address: Vec::with_capacity(room),
        }
    }

    /// A fresh list, "superblock first".
    pub fn start(superblock: &Superblock, room: usize) -> Walked<Blocks> {
        let mut blocks = Blocks::empty(superblock, room);
        blocks.enter_superblock(superblock)?;
        Ok(blocks)
    }

    pub fn enter_superblock(&mut self, superblock: &Superblock) -> Walked<()> {
        self.walk_for(SUPERBLOCK_OWNER);
        self.enter(Part::Superblock, 0, superblock.length)?;
        // "description writes 0 for the rest"; the audit says for each object which it is.
        self.walk_for(0);
        Ok(())
    }

    /// What is entered from here on belongs to this object.
    pub fn walk_for(&mut self, owner: u64) {
        self.owner = owner;
    }

    /// The end of `length` bytes at `address` if they lie "inside the end-of-file address".
    fn end(&self, part: Part, address: u64, length: u64) -> Walked<u64> {
        let end = address.checked_add(length);
        end.filter(|end| *end <= self.end_of_file)
            .ok_or(Stop::NotEntered {
                refusal: Refusal::BlockOutside,
                part,
                address,
                length,
                owner: self.owner,
                met: 0,
            })
    }

    /// "A part whose length must first be read gives 5 if its fixed prefix isn't inside." Gives the prefix's place.
    pub fn prefix(&self, part: Part, address: u64, length: u64) -> Walked<usize> {
        self.end(part, address, length)?;
        Ok(address as usize)
    }

    /// "To enter a block: 5, 6, 13". No block is empty. Gives the block's place in the image.
    pub fn enter(&mut self, part: Part, address: u64, length: u64) -> Walked<Range<usize>> {
        let end = self.end(part, address, length)?;
        let before = self.before(address);
        let apart = match self.by_address.get(before) {
            Some(next) => end <= next.0,
            None => true,
        };
        let owner = self.owner;
        let refused = |refusal, met| Stop::NotEntered {
            refusal,
            part,
            address,
            length,
            owner,
            met,
        };
        if !apart {
            return Err(refused(Refusal::BlocksMeet, self.first_met(address, end)));
        }
        if self.entered.len() >= self.room {
            return Err(refused(Refusal::NoRoom, 0));
        }
        self.by_address.insert(before, (address, end));
        self.entered.push(Block {
            address,
            length,
            part,
            owner,
        });
        Ok(address as usize..end as usize)
    }

    /// How many blocks end at an address or before it. Most files are written upwards, so that all do.
    fn before(&self, address: u64) -> usize {
        match self.by_address.last() {
            Some(last) if last.1 > address => {
                self.by_address.partition_point(|block| block.1 <= address)
            }
            _ => self.by_address.len(),
        }
    }

    /// "the address of the first block entered that it meets"
    fn first_met(&self, address: u64, end: u64) -> u64 {
        let meets = |block: &&Block| block.address < end && address < block.end();
        let met = self.entered.iter().find(meets);
        met.expect("a block that is met").address
    }

    pub fn entered(&self) -> &[Block] {
        &self.entered
    }

    /// The block entered that has this address: no other has, since blocks share no byte and none is empty.
    pub fn entered_at(&self, address: u64) -> Option<&Block> {
        self.entered.iter().find(|block| block.address == address)
    }

    /// The list lent: the fours entered, then zeros.
    pub fn list(&self, lent_words: usize) -> Vec<u64> {
        let mut list = vec![0; lent_words];
        for (four, block) in list.chunks_exact_mut(BLOCK_WORDS).zip(&self.entered) {
            four.copy_from_slice(&block.words());
        }
        list
    }
}
