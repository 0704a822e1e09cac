//! Local heaps: names, link values and keys.

use super::blocks::Blocks;
use super::bytes::{u64_at, UNDEFINED};
use super::gaps::{ended_below, Gaps};
use super::refusal::{ask, Located, Part, Read, Refusal, Site, Walked};
use super::text::Text;

/// A name has at most 255 bytes: a longer key compares with names by its first 256.
const KEY_BYTES: usize = 256;

pub struct Heap<'a> {
    segment: &'a [u8],
    /// The offsets below this one are those from which a NUL is met inside the segment.
    ended_below: usize,
    /// None without free blocks.
    gaps: Option<Gaps<'a>>,
}

/// "the heap header, segment", then the free list.
pub fn read<'a>(image: &'a [u8], blocks: &mut Blocks, address: u64) -> Walked<Heap<'a>> {
    let head = &image[blocks.enter(Part::Heap, address, 32)?];
    let signed = head[..4] == *b"HEAP" && head[4] == 0;
    let whole = Site::block(address);
    ask(signed, Refusal::WrongSignature).at(whole)?;
    let size = u64_at(head, 8);
    // "Segment at least 8."
    ask(size >= 8, Refusal::BadHeapOrName).at(whole)?;
    let segment_at = u64_at(head, 24);
    let segment = &image[blocks.enter(Part::Segment, segment_at, size)?];
    // "head 1 or undefined means no list"
    let gaps = match u64_at(head, 16) {
        1 | UNDEFINED => None,
        first => {
            let gaps = Gaps::read(segment, first).ok_or(Refusal::BadHeapOrName);
            Some(gaps.at(Site::block(segment_at))?)
        }
    };
    Ok(Heap {
        segment,
        ended_below: ended_below(segment),
        gaps,
    })
}

impl<'a> Heap<'a> {
    /// "Names, link values and keys are NUL-terminated inside the segment."
    pub fn ends(&self, offset: u64) -> Read<()> {
        ask(offset < self.ended_below as u64, Refusal::BadHeapOrName)
    }

    /// Keys only have to end; a long one is cut.
    #[inline(always)]
    pub fn key(&self, offset: u64) -> Read<Text<'a>> {
        self.ends(offset)?;
        let rest = &self.segment[offset as usize..];
        Ok(Text::new(&rest[..rest.len().min(KEY_BYTES)]))
    }

    /// "A name has 1 to 255 bytes, no '/', and isn't "."."
    #[inline(always)]
    pub fn name(&mut self, offset: u64) -> Read<Text<'a>> {
        let name = self.key(offset)?;
        let sound = (1..=255).contains(&name.length()) && !name.is_dot() && !name.has_slash();
        ask(sound, Refusal::BadHeapOrName)?;
        if let Some(gaps) = &mut self.gaps {
            // "No byte of a name or link value, its NUL included, lies in a free block."
            let start = offset as usize;
            let held = gaps.hold_name(start, start + name.length());
            ask(held, Refusal::BadHeapOrName)?;
        }
        Ok(name)
    }

    /// A symbolic link's value: any bytes, of any length.
    pub fn link_value(&mut self, offset: u64) -> Read<()> {
        self.ends(offset)?;
        let gaps = self.gaps.as_mut();
        let held = gaps.is_none_or(|gaps| gaps.hold_value(offset as usize));
        ask(held, Refusal::BadHeapOrName)
    }
}
