//! The free list of a heap, and the gaps between free blocks: every name and link value lies in one of these.

use super::bytes::u64_at;

/// The bytes from a free block or the segment's start on, up to the next free block or the segment's end.
#[derive(Clone, Copy, Default)]
struct Gap {
    /// So many free blocks lie before it.
    number: usize,
    start: usize,
    end: usize,
}

pub struct Gaps<'a> {
    segment: &'a [u8],
    /// The offsets of the free blocks, rising.
    free: Vec<u32>,
    /// Where the last name lies, and the last value: the next one is often there too.
    name: Gap,
    value: Gap,
    /// For each gap the offset behind its last NUL, found when a value first lies there. Empty before the first value.
    ended_below: Vec<Option<usize>>,
}

impl<'a> Gaps<'a> {
    /// "Free blocks lie in the segment and don't overlap."
    pub fn read(segment: &'a [u8], head: u64) -> Option<Gaps<'a>> {
        let free = in_order(free_blocks(segment, head)?, segment.len());
        let mut end = 0;
        for start in &free {
            if (*start as usize) < end {
                return None;
            }
            end = end_of(segment, *start);
        }
        Some(Gaps {
            segment,
            free,
            name: Gap::default(),
            value: Gap::default(),
            ended_below: Vec::new(),
        })
    }

    /// Whether a name and its NUL lie in one gap.
    #[inline]
    pub fn hold_name(&mut self, start: usize, nul: usize) -> bool {
        self.name = self.find(start, self.name);
        self.name.start <= start && nul < self.name.end
    }

    /// Whether a value begins in a gap and ends in it.
    #[inline]
    pub fn hold_value(&mut self, offset: usize) -> bool {
        self.value = self.find(offset, self.value);
        let Gap { number, start, end } = self.value;
        if self.ended_below.is_empty() {
            self.ended_below.resize(self.free.len() + 1, None);
        }
        let found = || start + ended_below(&self.segment[start..end]);
        start <= offset && offset < *self.ended_below[number].get_or_insert_with(found)
    }

    /// The gap that an offset lies in, or the one behind it if it lies in a free block. `last` is tried first.
    fn find(&self, offset: usize, last: Gap) -> Gap {
        if (last.start..last.end).contains(&offset) {
            return last;
        }
        let number = self.free.partition_point(|start| *start as usize <= offset);
        let (before, behind) = self.free.split_at(number);
        let end = behind
            .first()
            .map_or(self.segment.len(), |next| *next as usize);
        Gap {
            number,
            start: before
                .last()
                .map_or(0, |block| end_of(self.segment, *block)),
            end,
        }
    }
}

/// Where the free block at an offset ends.
fn end_of(segment: &[u8], start: u32) -> usize {
    start as usize + u64_at(segment, start as usize + 8) as usize
}

/// The offset behind the last NUL; 0 if there is none.
pub fn ended_below(bytes: &[u8]) -> usize {
    let mut end = bytes.len();
    // By parts, since one is searched much faster for whether it has a NUL than for where.
    while let Some(part) = bytes[..end].last_chunk::<64>() {
        if part.iter().fold(false, |any, byte| any | (*byte == 0)) {
            break;
        }
        end -= 64;
    }
    let last = bytes[..end].iter().rposition(|byte| *byte == 0);
    last.map_or(0, |last| last + 1)
}

/// The offsets of the blocks in a free list. "Next 1 ends the list".
fn free_blocks(segment: &[u8], head: u64) -> Option<Vec<u32>> {
    let mut free = Vec::new();
    let mut next = head;
    while next != 1 {
        // More blocks of 16 bytes than the segment can hold: two of them overlap.
        if next >= segment.len() as u64 || free.len() > segment.len() / 16 {
            return None;
        }
        let rest = &segment[next as usize..];
        let block = rest.first_chunk::<16>()?;
        let size = u64_at(block, 8);
        // "own size (16 or more, header included)"
        if size < 16 || size > rest.len() as u64 {
            return None;
        }
        free.push(next as u32);
        next = u64_at(block, 0);
    }
    Some(free)
}

/// Different offsets below `length` in rising order.
fn in_order(mut offsets: Vec<u32>, length: usize) -> Vec<u32> {
    if offsets.is_sorted() {
        return offsets;
    }
    if offsets.is_sorted_by(|one, next| one > next) {
        offsets.reverse();
        return offsets;
    }
    if offsets.len() < length / 1024 {
        offsets.sort_unstable();
        return offsets;
    }
    // Many in no order: a bit for each offset, and then the bits in turn.
    let mut bits = vec![0_u64; length / 64 + 1];
    for offset in &offsets {
        bits[*offset as usize / 64] |= 1 << (offset % 64);
    }
    offsets.clear();
    for (number, mut word) in (0..).zip(bits) {
        while word != 0 {
            offsets.push(64 * number + word.trailing_zeros());
            word &= word - 1;
        }
    }
    offsets
}
