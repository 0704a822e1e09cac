//! Root groups whose heap is full of edges: free blocks at any offset that touch each other, the segment's ends and strings,
//! strings of lengths where a search by parts has its steps, and lists and offsets that are wrong by a byte.

use super::group::{write_heap, write_node, write_symbols, Child, Entry};
use super::header::{self, Message};
use super::random::Random;
use super::sheet::Sheet;
use super::small::ROOT;
use super::superblock::Superblock;
use super::UNDEFINED;

/// A file, the paths of the names in it as far as they end, and last that of a name which isn't in it.
pub struct Edges {
    pub image: Vec<u8>,
    pub paths: Vec<Vec<u8>>,
}

const NAMES: [usize; 9] = [1, 15, 16, 17, 31, 32, 33, 254, 255];
const BAD_NAMES: [usize; 4] = [0, 256, 257, 300];
const VALUES: [usize; 14] = [0, 1, 7, 15, 16, 17, 31, 32, 33, 254, 255, 256, 257, 700];
/// How many bytes a key has behind the name that it follows.
const KEYS: [usize; 8] = [1, 15, 16, 17, 240, 255, 256, 300];

/// Both K: a symbol node has at most four entries, a tree node at most two children.
const LEAF_K: u64 = 2;
const INTERNAL_K: u64 = 1;
const MOST_NAMES: u64 = 12;

/// What a segment is made of, from its start to its end without a gap.
enum Item {
    Free(usize),
    Name(usize),
    Value(usize),
    /// The key behind an entry; with a free block around it, if it fits.
    Key(usize, bool),
    /// Bytes that are no string: without a NUL.
    Filler(usize),
}

/// A segment under construction, and the offsets into it.
struct Segment {
    random: Random,
    bytes: Vec<u8>,
    /// Offsets and sizes, in the order of the list.
    free: Vec<(usize, usize)>,
    head: u64,
    names: Vec<u64>,
    /// For each entry the key behind it, and another one whose first 256 bytes are the same, if it has so many.
    keys: Vec<[u64; 2]>,
    values: Vec<u64>,
    /// Where items begin and end.
    edges: Vec<usize>,
}

/// Everything of a file that depends on its seed. So many bytes, a multiple of 16, stand before all items of the segment.
pub fn edges(seed: u64, before: usize) -> Edges {
    let mut random = Random::new(seed);
    let names = names(&mut random);
    let mut segment = Segment::new(random, &names, (seed % 16) as usize, before);
    let entries = segment.entries();
    // Of four files one is left as it is, and one has two changes.
    let changes = [0, 1, 1, 2][(seed / 16 % 4) as usize];
    segment.link_free();
    let mut group = Group {
        first: segment.empty_string(),
        entries,
        segment,
    };
    for _ in 0..changes {
        group.change();
    }
    Edges {
        paths: group.paths(),
        image: group.file(),
    }
}

fn letter(random: &mut Random) -> u8 {
    b'b' + random.below(24) as u8
}

/// Different names in rising order, most of which begin alike.
fn names(random: &mut Random) -> Vec<Vec<u8>> {
    let count = random.between(1, MOST_NAMES);
    let mut names = Vec::new();
    for _ in 0..count {
        let length = random.pick(&NAMES);
        let mut name = vec![b'n'; length];
        let own = random.between(1, 3).min(length as u64);
        for byte in &mut name[length - own as usize..] {
            *byte = letter(random);
        }
        names.push(name);
    }
    if random.once_in(16) {
        let number = random.below(count) as usize;
        names[number] = vec![b'n'; random.pick(&BAD_NAMES)];
    }
    names.sort();
    names.dedup();
    names
}

impl Segment {
    /// All items in any order, behind so many bytes; `odd` is the length modulo 16.
    fn new(random: Random, names: &[Vec<u8>], odd: usize, before: usize) -> Segment {
        let mut segment = Segment {
            random,
            bytes: vec![b'b'; before],
            free: Vec::new(),
            head: 1,
            names: vec![0; names.len()],
            keys: vec![[0; 2]; names.len()],
            values: Vec::new(),
            edges: Vec::new(),
        };
        let items = segment.items(names.len());
        let count = items.len();
        for (number, item) in items.into_iter().enumerate() {
            segment.edges.push(segment.bytes.len());
            segment.add(item, names, (number + 1 == count).then_some(odd));
        }
        let left = (odd + 16 - segment.bytes.len() % 16) % 16;
        segment.filler(left);
        segment
    }

    fn items(&mut self, names: usize) -> Vec<Item> {
        let random = &mut self.random;
        let mut items: Vec<Item> = (0..names).map(Item::Name).collect();
        for number in 0..names {
            if random.once_in(2) {
                items.push(Item::Key(number, random.once_in(2)));
            }
        }
        let frees = random.pick(&[0, 1, 2, 5, 10, 30]);
        for _ in 0..frees {
            let size = random.pick(&[16, 16, 17, 31, 32, 33]);
            let other = random.between(16, 80);
            items.push(Item::Free(random.pick(&[size, other]) as usize));
        }
        for _ in 0..random.below(4) {
            items.push(Item::Value(random.pick(&VALUES)));
        }
        for _ in 0..random.below(4) {
            items.push(Item::Filler(random.between(1, 40) as usize));
        }
        random.shuffle(&mut items);
        items
    }

    /// Adds an item. The last one is told the length modulo 16, so that a free block can end with the segment.
    fn add(&mut self, item: Item, names: &[Vec<u8>], last: Option<usize>) {
        match item {
            Item::Free(size) => {
                // Some lie at a multiple of 256, if that isn't far.
                let left = self.bytes.len().next_multiple_of(256) - self.bytes.len();
                if left < 40 && self.random.once_in(2) {
                    self.filler(left);
                }
                let end = self.bytes.len() + size;
                let more = last.map_or(0, |odd| (odd + 16 - end % 16) % 16);
                self.free_block(size + more, &[]);
            }
            Item::Name(number) => self.names[number] = self.string(&names[number]),
            Item::Value(length) => {
                let bytes = (0..length).map(|_| self.random.between(1, 255) as u8);
                let text: Vec<u8> = bytes.collect();
                let at = self.string(&text);
                self.values.push(at);
            }
            Item::Key(number, in_free) => {
                let mut text = names[number].clone();
                // Below every longer name that begins so.
                text.push(1);
                let length = self.random.pick(&KEYS);
                text.resize(names[number].len() + length, b'k');
                self.keys[number] = if in_free && text.len() < 60 {
                    let at = self.free_block(text.len() + 17, &text);
                    [at, at]
                } else {
                    let one = self.string(&text);
                    let last = text.len() - 1;
                    text[last] = text[last].wrapping_add(u8::from(last >= 256));
                    [one, self.string(&text)]
                };
            }
            Item::Filler(length) => self.filler(length),
        }
    }

    /// Adds a string and its NUL.
    fn string(&mut self, text: &[u8]) -> u64 {
        let at = self.bytes.len();
        self.bytes.extend_from_slice(text);
        self.edges.push(self.bytes.len());
        self.bytes.push(0);
        at as u64
    }

    fn filler(&mut self, length: usize) {
        for _ in 0..length {
            let byte = letter(&mut self.random);
            self.bytes.push(byte);
        }
    }

    /// Adds a free block with a text behind its head; gives the text's offset.
    fn free_block(&mut self, size: usize, text: &[u8]) -> u64 {
        let at = self.bytes.len();
        self.free.push((at, size));
        self.bytes.extend_from_slice(&[0; 16]);
        self.bytes.extend_from_slice(text);
        // Old strings lie in a free block, or nothing does.
        let byte = if self.random.once_in(2) { b'f' } else { 0 };
        self.bytes.resize(at + size, byte);
        if !text.is_empty() {
            self.bytes[at + size - 1] = 0;
        }
        at as u64 + 16
    }

    /// The free list in one of several orders.
    fn link_free(&mut self) {
        match self.random.below(3) {
            0 => {}
            1 => self.free.reverse(),
            _ => self.random.shuffle(&mut self.free),
        }
        for number in 0..self.free.len() {
            let (at, size) = self.free[number];
            let next = self.free.get(number + 1).map_or(1, |next| next.0);
            self.set(at, next as u64);
            self.set(at + 8, size as u64);
        }
        self.head = match self.free.first() {
            Some(first) => first.0 as u64,
            None => self.random.pick(&[1, UNDEFINED]),
        };
    }

    /// Writes a word, or as much of it as there is room for.
    fn set(&mut self, at: usize, word: u64) {
        let end = (at + 8).min(self.bytes.len());
        self.bytes[at..end].copy_from_slice(&word.to_le_bytes()[..end - at]);
    }

    /// The string right before a free block has no NUL of its own. If another block lies at a multiple of 256, the list
    /// goes on there, so that the first byte of this one is a NUL.
    fn open_before(&mut self, at: usize) {
        if at > 0 {
            self.bytes[at - 1] = b'x';
        }
        let round = |block: &&(usize, usize)| block.0.is_multiple_of(256) && block.0 != at;
        if let Some(&(other, _)) = self.free.iter().find(round) {
            self.set(at, other as u64);
        }
    }

    /// The offset of a NUL, if there is one: an empty key.
    fn empty_string(&self) -> u64 {
        let nul = self.bytes.iter().position(|byte| *byte == 0);
        nul.unwrap_or(0) as u64
    }

    /// An entry for each name. A value may begin anywhere in a string.
    fn entries(&mut self) -> Vec<Entry> {
        let mut entries = Vec::new();
        for number in 0..self.names.len() {
            let value = match self.values.len() {
                0 => self.random.pick(&self.names),
                _ => self.random.pick(&self.values),
            };
            let length = self.rest(value).len() as u64;
            let inside = value + self.random.below(length + 1);
            let soft = self.random.once_in(3);
            entries.push(Entry {
                name: self.names[number],
                address: if soft { UNDEFINED } else { ROOT },
                kind: if soft { 2 } else { 0 },
                scratch: self.random.pick(&[value, inside, value + length]),
            });
        }
        entries
    }

    /// The bytes from an offset on before a NUL, or up to the segment's end.
    fn rest(&self, offset: u64) -> &[u8] {
        let from = (offset as usize).min(self.bytes.len());
        let mut strings = self.bytes[from..].split(|byte| *byte == 0);
        strings.next().unwrap_or(&[])
    }

    /// An offset where something begins or ends, or near it, or near the segment's end, or far behind it.
    fn edge(&mut self) -> u64 {
        let length = self.bytes.len() as u64;
        let (block, size) = match self.free.len() {
            0 => (0, 0),
            _ => self.random.pick(&self.free),
        };
        let (block, size) = (block as u64, size as u64);
        let near = self.random.pick(&self.edges) as u64;
        let last = length - self.random.below(18).min(length);
        let any = self.random.below(length);
        let end = block + size;
        let inside = block + self.random.below(size.max(1));
        let before = [block, end, near].map(|edge| edge.saturating_sub(1));
        let far = self
            .random
            .pick(&[length, length + 1, 1 << 32, UNDEFINED - 15, UNDEFINED]);
        let places = [
            block, end, near, last, any, inside, far, 0, 1, before[0], before[1], before[2],
        ];
        self.random.pick(&places)
    }
}

struct Group {
    first: u64,
    entries: Vec<Entry>,
    segment: Segment,
}

impl Group {
    /// One thing that may be wrong.
    fn change(&mut self) {
        let edge = self.segment.edge();
        let random = &mut self.segment.random;
        let entry = random.below(self.entries.len() as u64) as usize;
        let block = match self.segment.free.len() {
            0 => None,
            _ => Some(random.pick(&self.segment.free)),
        };
        match (random.below(13), block) {
            (0, _) => self.entries[entry].name = edge,
            (1, _) => {
                self.entries[entry].kind = 2;
                self.entries[entry].scratch = edge & 0xffff_ffff;
            }
            (2, _) => self.first = edge,
            (3, _) => self.segment.keys[entry] = [edge; 2],
            (4, _) => self.segment.head = edge,
            // The list leads elsewhere, or comes back.
            (5, Some((at, _))) => self.segment.set(at, edge),
            (6, Some((at, size))) => {
                let left = (self.segment.bytes.len() - at) as u64;
                let size = size as u64;
                let sizes = [
                    0,
                    1,
                    15,
                    16,
                    size - 1,
                    size + 1,
                    left - 1,
                    left,
                    left + 1,
                    UNDEFINED,
                ];
                let size = random.pick(&sizes);
                self.segment.set(at + 8, size);
            }
            // A name or a value that goes on, into what is behind it.
            (7, _) => {
                let Entry { name, scratch, .. } = self.entries[entry];
                let string = random.pick(&[name, scratch]);
                let nul = string as usize + self.segment.rest(string).len();
                if let Some(nul) = self.segment.bytes.get_mut(nul) {
                    *nul = b'x';
                }
            }
            (8, Some((at, _))) => self.segment.open_before(at),
            // A byte at the start or the end of a name, or inside it.
            (9, _) => {
                let at = self.entries[entry].name;
                let length = self.segment.rest(at).len() as u64;
                let random = &mut self.segment.random;
                let inside = random.below(length.max(1));
                let place = at + random.pick(&[0, inside, length.saturating_sub(1)]);
                let byte = random.pick(&[b'/', b'.', 0]);
                if let Some(place) = self.segment.bytes.get_mut(place as usize) {
                    *place = byte;
                }
            }
            (10, _) => {
                let other = random.below(self.entries.len() as u64) as usize;
                self.entries.swap(entry, other);
            }
            // A byte where something begins or ends.
            (11, _) => {
                let byte = random.pick(&[0, 1, 16, b'/']);
                if let Some(place) = self.segment.bytes.get_mut(edge as usize) {
                    *place = byte;
                }
            }
            // The end of the segment without a NUL.
            _ => {
                let length = self.segment.bytes.len();
                let cut = random.below(40).min(length as u64 - 1) as usize;
                self.segment.bytes[length - cut..].fill(b'e');
            }
        }
    }

    fn paths(&self) -> Vec<Vec<u8>> {
        let names = self
            .entries
            .iter()
            .map(|entry| self.segment.rest(entry.name));
        let names = names.chain([&b"absent"[..]]);
        names.map(|name| [b"/", name].concat()).collect()
    }

    /// The file, whose segment is its last block.
    fn file(&self) -> Vec<u8> {
        let mut sheet = Sheet::default();
        sheet.reserve(ROOT + 40);
        let heap = sheet.reserve(32);
        let mut children = Vec::new();
        let mut start = 0;
        while start < self.entries.len() {
            let end = (start + 2 * LEAF_K as usize).min(self.entries.len());
            let address = sheet.reserve(8 + 80 * LEAF_K);
            write_symbols(&mut sheet, address, &self.entries[start..end]);
            children.push((address, end - 1));
            start = end;
        }
        let mut level = 0;
        while level == 0 || children.len() > 1 {
            children = self.nodes(&mut sheet, level, &children);
            level += 1;
        }
        let mut segment = Sheet::default();
        segment.raw(0, &self.segment.bytes);
        let segment_at = sheet.reserve(self.segment.bytes.len() as u64);
        write_heap(&mut sheet, heap, self.segment.head, segment_at, &segment);
        let table = vec![vec![Message::symbol_table(children[0].0, heap)]];
        header::write(&mut sheet, &[ROOT], 1, &table);
        let superblock = Superblock {
            version: 0,
            leaf_k: LEAF_K as u16,
            internal_k: INTERNAL_K as u16,
            end: sheet.bytes.len() as u64,
            root: ROOT,
        };
        superblock.write(&mut sheet);
        sheet.bytes
    }

    /// Nodes over children, each of which is an address and the number of its last entry.
    fn nodes(&self, sheet: &mut Sheet, level: u8, children: &[(u64, usize)]) -> Vec<(u64, usize)> {
        let mut nodes = Vec::new();
        let mut first = self.first;
        for pair in children.chunks(2 * INTERNAL_K as usize) {
            let at = sheet.reserve(32 + 32 * INTERNAL_K);
            let below: Vec<Child> = pair
                .iter()
                .map(|&(address, last)| Child {
                    address,
                    key: self.key(last, level),
                })
                .collect();
            write_node(sheet, at, level, first, &below);
            let last = pair[pair.len() - 1].1;
            first = self.key(last, level);
            nodes.push((at, last));
        }
        nodes
    }

    /// The key behind an entry: a string of its own, of which another level may have its own too, or the name.
    fn key(&self, entry: usize, level: u8) -> u64 {
        match self.segment.keys[entry][usize::from(level % 2)] {
            0 => self.entries[entry].name,
            key => key,
        }
    }
}
