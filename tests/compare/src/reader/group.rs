//! A group's heap, tree and symbol nodes.

use super::blocks::Blocks;
use super::bytes::{u16_at, u32_at, u64_at};
use super::heap::{self, Heap};
use super::refusal::{ask, Located, Part, Read, Refusal, Site, Walked};
use super::superblock::Superblock;
use super::text::Text;

/// A sound entry of a symbol node.
pub struct Link<'a> {
    pub name: Text<'a>,
    pub target: Target,
}

#[derive(Clone, Copy, PartialEq, Eq, Debug)]
pub enum Target {
    Hard(u64),
    Symbolic,
}

/// What the keys of all nodes above ask of a name: above `low`, at most `high`.
#[derive(Clone, Copy)]
struct Bounds<'a> {
    low: Text<'a>,
    high: Option<Text<'a>>,
}

impl<'a> Bounds<'a> {
    fn within(&self, low: Text<'a>, high: Text<'a>) -> Bounds<'a> {
        Bounds {
            low: self.low.max(low),
            high: Some(self.high.map_or(high, |outer| outer.min(high))),
        }
    }
}

struct Walk<'a, 'b, F> {
    image: &'a [u8],
    superblock: &'b Superblock,
    blocks: &'b mut Blocks,
    heap: Heap<'a>,
    last: Text<'a>,
    each: F,
}

/// "for a group the heap header, segment, then the tree top down, left to right, keys before children". `each` is
/// called with every link in turn.
pub fn walk<'a, F>(
    image: &'a [u8],
    superblock: &Superblock,
    blocks: &mut Blocks,
    (tree, heap): (u64, u64),
    each: F,
) -> Walked<()>
where
    F: FnMut(Link<'a>) -> Read<()>,
{
    let heap = heap::read(image, blocks, heap)?;
    let mut walk = Walk {
        image,
        superblock,
        blocks,
        heap,
        last: Text::EMPTY,
        each,
    };
    let everything = Bounds {
        low: Text::EMPTY,
        high: None,
    };
    walk.node(tree, None, everything)
}

impl<'a, F> Walk<'a, '_, F>
where
    F: FnMut(Link<'a>) -> Read<()>,
{
    /// A tree node; `level` is the one that its parent asks for, none for the root.
    fn node(&mut self, address: u64, level: Option<u8>, bounds: Bounds<'a>) -> Walked<()> {
        // "It occupies 32 + 32K bytes, K internal."
        let length = 32 + 32 * self.superblock.internal_k;
        let node = &self.image[self.blocks.enter(Part::Tree, address, length)?];
        let whole = Site::block(address);
        ask(node[..4] == *b"TREE", Refusal::WrongSignature).at(whole)?;
        let used = usize::from(u16_at(node, 6));
        ask(self.node_is_sound(node, level, used), Refusal::BadTree).at(whole)?;
        if used == 0 {
            return Ok(());
        }
        for key in 0..=used {
            let at = 24 + 16 * key;
            let ends = self.heap.ends(u64_at(node, at));
            ends.at(Site::inside(address, at))?;
        }
        let mut low = self.key(node, address, 24)?;
        for child in 0..used {
            let at = 32 + 16 * child;
            let high = self.key(node, address, at + 8)?;
            let bounds = bounds.within(low, high);
            // "A child is one level lower; children of level 0 are symbol nodes."
            match node[5].checked_sub(1) {
                Some(lower) => self.node(u64_at(node, at), Some(lower), bounds)?,
                None => self.symbol_node(u64_at(node, at), bounds)?,
            }
            low = high;
        }
        Ok(())
    }

    /// The key whose offset stands there in a node.
    fn key(&self, node: &[u8], address: u64, at: usize) -> Walked<Text<'a>> {
        let key = self.heap.key(u64_at(node, at));
        key.at(Site::inside(address, at))
    }

    /// "type 0 (else 8), level, entries used", "At most 2K entries. Only a root of level 0 may be empty".
    fn node_is_sound(&self, node: &[u8], level: Option<u8>, used: usize) -> bool {
        let right_level = match level {
            Some(level) => node[5] == level,
            None => node[5] <= 8,
        };
        let may_be_empty = level.is_none() && node[5] == 0;
        let right_use = used as u64 <= 2 * self.superblock.internal_k && (used > 0 || may_be_empty);
        node[4] == 0 && right_level && right_use
    }

    /// "it occupies 8 + 80K bytes, K leaf. Count 1 to 2K."
    fn symbol_node(&mut self, address: u64, bounds: Bounds<'a>) -> Walked<()> {
        let length = 8 + 80 * self.superblock.leaf_k;
        let node = &self.image[self.blocks.enter(Part::SymbolNode, address, length)?];
        let signed = node[..4] == *b"SNOD" && node[4] == 1;
        let whole = Site::block(address);
        ask(signed, Refusal::WrongSignature).at(whole)?;
        let count = u16_at(node, 6);
        let in_range = (1..=2 * self.superblock.leaf_k).contains(&u64::from(count));
        ask(in_range, Refusal::BadTree).at(whole)?;
        // From here on a name has to be above the last one and above the key.
        let mut last = self.last.max(bounds.low);
        let (entries, _) = node[8..].as_chunks();
        for (number, entry) in entries[..usize::from(count)].iter().enumerate() {
            let site = Site::inside(address, 8 + 40 * number);
            last = self.entry(entry, last, bounds.high).at(site)?;
        }
        self.last = last;
        Ok(())
    }

    /// "for a symbol entry: name, its place among names and keys, type, link value, then, in the audit only, the
    /// discovery of an object"
    #[inline(always)]
    fn entry(
        &mut self,
        entry: &[u8; 40],
        last: Text<'a>,
        high: Option<Text<'a>>,
    ) -> Read<Text<'a>> {
        let name = self.heap.name(u64_at(entry, 0))?;
        let in_place = name > last && high.is_none_or(|high| name <= high);
        ask(in_place, Refusal::BadTree)?;
        // "Types 0 and 1 are hard links; 2 is a symbolic link [..]. Others give 8."
        let target = match u32_at(entry, 16) {
            0 | 1 => Target::Hard(u64_at(entry, 8)),
            2 => {
                self.heap.link_value(u64::from(u32_at(entry, 24)))?;
                Target::Symbolic
            }
            _ => return Err(Refusal::BadTree),
        };
        (self.each)(Link { name, target })?;
        Ok(name)
    }
}
