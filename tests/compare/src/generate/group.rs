//! Heaps, symbol nodes and trees.

use super::plan::{Group, Target};
use super::random::Random;
use super::sheet::Sheet;
use super::UNDEFINED;

/// A heap's segment under construction.
#[derive(Default)]
pub struct Segment {
    pub sheet: Sheet,
    /// Offsets and sizes.
    pub free: Vec<(u64, u64)>,
}

impl Segment {
    /// A segment with an empty string at offset 0.
    pub fn new() -> Segment {
        let mut segment = Segment::default();
        segment.sheet.reserve(8);
        segment
    }

    /// Adds a string and its NUL; gives its offset.
    pub fn string(&mut self, text: &[u8]) -> u64 {
        let at = self.sheet.reserve(0);
        self.sheet.text("heap string", at, text);
        let end = self.sheet.reserve(0);
        self.sheet.number("heap string end", end, 1, 0);
        self.sheet.pad();
        at
    }

    pub fn hole(&mut self, size: u64) {
        let at = self.sheet.reserve(size);
        self.free.push((at, size));
    }

    /// Writes the free list in the order of `free`; gives its head.
    pub fn link_free(&mut self) -> u64 {
        for (number, &(at, size)) in self.free.iter().enumerate() {
            let next = self.free.get(number + 1).map_or(1, |block| block.0);
            self.sheet.number("free next", at, 8, next);
            self.sheet.number("free size", at + 8, 8, size);
        }
        self.free.first().map_or(1, |block| block.0)
    }
}

pub fn write_heap(sheet: &mut Sheet, at: u64, head: u64, segment_at: u64, segment: &Sheet) {
    sheet.text("heap signature", at, b"HEAP");
    sheet.number("heap version", at + 4, 1, 0);
    sheet.number("heap reserved", at + 5, 3, 0);
    sheet.number("heap segment size", at + 8, 8, segment.bytes.len() as u64);
    sheet.number("heap free head", at + 16, 8, head);
    sheet.number("heap segment", at + 24, 8, segment_at);
    sheet.paste(segment_at, segment);
}

#[derive(Clone, Copy)]
pub struct Entry {
    pub name: u64,
    pub address: u64,
    pub kind: u32,
    pub scratch: u64,
}

pub fn write_symbols(sheet: &mut Sheet, at: u64, entries: &[Entry]) {
    sheet.text("symbols signature", at, b"SNOD");
    sheet.number("symbols version", at + 4, 1, 1);
    sheet.number("symbols reserved", at + 5, 1, 0);
    sheet.number("symbols count", at + 6, 2, entries.len() as u64);
    for (number, entry) in entries.iter().enumerate() {
        let at = at + 8 + 40 * number as u64;
        sheet.number("entry name", at, 8, entry.name);
        sheet.number("entry address", at + 8, 8, entry.address);
        sheet.number("entry type", at + 16, 4, u64::from(entry.kind));
        sheet.number("entry reserved", at + 20, 4, 0);
        sheet.number("entry scratch", at + 24, 4, entry.scratch);
    }
}

/// What hangs below a node: its place and the key after it.
#[derive(Clone, Copy)]
pub struct Child {
    pub address: u64,
    pub key: u64,
}

/// A tree node; `first` is its key 0.
pub fn write_node(sheet: &mut Sheet, at: u64, level: u8, first: u64, children: &[Child]) {
    sheet.text("tree signature", at, b"TREE");
    sheet.number("tree type", at + 4, 1, 0);
    sheet.number("tree level", at + 5, 1, u64::from(level));
    sheet.number("tree entries", at + 6, 2, children.len() as u64);
    sheet.number("tree left", at + 8, 8, UNDEFINED);
    sheet.number("tree right", at + 16, 8, UNDEFINED);
    if !children.is_empty() {
        sheet.number("tree key", at + 24, 8, first);
    }
    for (number, child) in children.iter().enumerate() {
        let at = at + 32 + 16 * number as u64;
        sheet.number("tree child", at, 8, child.address);
        sheet.number("tree key", at + 8, 8, child.key);
    }
}

/// A group on its way into a file.
pub struct Writer<'a> {
    pub sheet: &'a mut Sheet,
    pub random: &'a mut Random,
    pub leaf_k: u64,
    pub internal_k: u64,
    pub gap: u64,
    /// The places of the objects' headers.
    pub places: &'a [u64],
}

impl Writer<'_> {
    /// Gives the places of tree and heap.
    pub fn group(&mut self, group: &Group) -> (u64, u64) {
        let mut segment = Segment::new();
        let entries = self.entries(group, &mut segment);
        let keys = self.keys(group, &entries, &mut segment);
        self.random.shuffle(&mut segment.free);
        let mut head = segment.link_free();
        if segment.free.is_empty() && self.random.once_in(2) {
            head = UNDEFINED;
        }
        let heap = self.reserve(32);
        let segment_at = self.reserve(segment.sheet.bytes.len() as u64);
        write_heap(self.sheet, heap, head, segment_at, &segment.sheet);
        let leaves = self.symbol_nodes(group, &entries, &keys);
        (self.tree(group, leaves), heap)
    }

    pub fn reserve(&mut self, length: u64) -> u64 {
        let gap = self.random.between(0, self.gap);
        self.sheet.reserve(gap);
        self.sheet.reserve(length)
    }

    /// Puts the strings into the segment in any order, free blocks between them; the entries are in order of names.
    fn entries(&mut self, group: &Group, segment: &mut Segment) -> Vec<Entry> {
        let mut order: Vec<usize> = (0..group.links.len()).collect();
        self.random.shuffle(&mut order);
        let blank = Entry {
            name: 0,
            address: UNDEFINED,
            kind: 2,
            scratch: 0,
        };
        let mut entries = vec![blank; order.len()];
        let mut holes = group.free;
        for number in order {
            if holes > 0 && self.random.once_in(2) {
                segment.hole(8 * self.random.between(2, 5));
                holes -= 1;
            }
            let link = &group.links[number];
            let entry = &mut entries[number];
            entry.name = segment.string(&link.name);
            match &link.target {
                Target::Soft(value) => entry.scratch = segment.string(value),
                Target::Address(address) => (entry.kind, entry.address) = (0, *address),
                Target::Object(object) => {
                    entry.address = self.places[*object];
                    entry.kind = self.random.below(2) as u32;
                    entry.scratch = self.random.below(1000) * u64::from(entry.kind);
                }
            }
        }
        while holes > 0 {
            segment.hole(8 * self.random.between(2, 5));
            holes -= 1;
        }
        entries
    }

    /// The key after each entry: its name, or a string of its own that lies before the next name.
    fn keys(&mut self, group: &Group, entries: &[Entry], segment: &mut Segment) -> Vec<u64> {
        let mut keys: Vec<u64> = entries.iter().map(|entry| entry.name).collect();
        if group.own_keys {
            for (number, key) in keys.iter_mut().enumerate() {
                let mut text = group.links[number].name.clone();
                let next = group.links.get(number + 1).map(|link| &link.name);
                text.extend_from_slice(b"\x01/");
                if next.is_some_and(|next| *next <= text) {
                    text.truncate(text.len() - 2);
                }
                *key = segment.string(&text);
            }
        }
        keys
    }

    /// How many of `left` things the next node takes.
    fn share(&mut self, full: bool, k: u64, left: usize) -> usize {
        let most = (2 * k).min(left as u64);
        let share = if full {
            most
        } else {
            self.random.between(1, most)
        };
        share as usize
    }

    fn symbol_nodes(&mut self, group: &Group, entries: &[Entry], keys: &[u64]) -> Vec<Child> {
        let mut leaves = Vec::new();
        let mut start = 0;
        while start < entries.len() {
            let end = start + self.share(group.full, self.leaf_k, entries.len() - start);
            let address = self.reserve(8 + 80 * self.leaf_k);
            write_symbols(self.sheet, address, &entries[start..end]);
            let key = keys[end - 1];
            leaves.push(Child { address, key });
            start = end;
        }
        leaves
    }

    /// Nodes over nodes until one is left and the level is reached.
    fn tree(&mut self, group: &Group, mut children: Vec<Child>) -> u64 {
        let length = 32 + 32 * self.internal_k;
        if children.is_empty() {
            let at = self.reserve(length);
            write_node(self.sheet, at, 0, 0, &[]);
            return at;
        }
        let mut level = 0;
        loop {
            // From here on nodes are filled up if the tree would grow too high else.
            let full = group.full || level + levels_left(children.len(), self.internal_k) > 7;
            let mut nodes = Vec::new();
            let mut first = 0;
            let mut start = 0;
            while start < children.len() {
                let end = start + self.share(full, self.internal_k, children.len() - start);
                let address = self.reserve(length);
                write_node(self.sheet, address, level, first, &children[start..end]);
                first = children[end - 1].key;
                nodes.push(Child {
                    address,
                    key: first,
                });
                start = end;
            }
            if nodes.len() == 1 && level >= group.level {
                return nodes[0].address;
            }
            children = nodes;
            level += 1;
        }
    }
}

/// How many levels of full nodes lie above so many children.
fn levels_left(mut children: usize, k: u64) -> u8 {
    let mut levels = 0;
    while children > 1 {
        children = children.div_ceil(2 * k as usize);
        levels += 1;
    }
    levels
}
