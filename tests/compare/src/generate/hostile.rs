//! Files on which a slow search shows: each is sound, so that it is read to its end, and as long as asked for.

use super::block_orders::{self, touching, Order, FIRST, LINK, OTHERS as OTHER_BLOCKS};
use super::group::{write_heap, write_node, write_symbols, Child, Entry};
use super::header::{self, Message};
use super::plan::{Content, Group, Object, Plan, Target};
use super::sheet::Sheet;
use super::small::committed_message;
use super::special::{link, root};
use super::superblock::Superblock;
use super::write::write;
use super::UNDEFINED;
use crate::reader::{MOST_BLOCKS, MOST_OBJECTS};

/// A file, and the path of an object in it.
pub struct Hostile {
    pub image: Vec<u8>,
    pub path: Vec<u8>,
}

/// A kind of file by its name, made of any length from 64 KiB on up to the limit.
pub type Kind = (&'static str, fn(usize) -> Hostile);

pub const KINDS: [Kind; 17] = [
    ("chain, rising", |size| chain(size, block_orders::rising)),
    ("chain, falling", |size| chain(size, block_orders::falling)),
    ("chain, inward", |size| chain(size, block_orders::inward)),
    ("chain, random", |size| chain(size, block_orders::random)),
    ("groups", groups),
    ("messages", messages),
    ("links to the last object", |size| links(size, last_object)),
    ("links spread", |size| links(size, spread_object)),
    ("names of 5 bytes", |size| names(size, 5, b"")),
    ("names of 12 bytes", |size| names(size, 12, b"")),
    ("names before slashes", |size| names(size, 12, b"/..\0")),
    ("names of 16 bytes", |size| names(size, 16, b"")),
    ("names of 255 bytes", |size| names(size, 255, b"")),
    ("long keys", keys),
    ("one long value", |size| values(size, false)),
    ("tree of level 8", |size| deep(size, 5)),
    ("tree of level 8, long names", |size| deep(size, 255)),
];

/// The kinds with free blocks.
pub const FREE_KINDS: [Kind; 5] = [
    ("one long value, free behind", |size| values(size, true)),
    ("free blocks, rising", |size| {
        free(size, block_orders::rising)
    }),
    ("free blocks, falling", |size| {
        free(size, block_orders::falling)
    }),
    ("free blocks, random", |size| {
        free(size, block_orders::random)
    }),
    ("names and free blocks", names_and_free),
];

const ROOT: u64 = 96;
/// A header with a symbol table message or a datatype message.
const HEADER: u64 = 40;
const ENTRY: usize = 40;
/// More than the superblock, the root's header, tree and heap, and what symbol nodes have besides their entries.
const OTHERS: usize = 1024;
/// The least size of a free block.
const FREE: usize = 16;
/// The most entries of a symbol node: its count has 16 bits, and it has room for an even number.
const NODE_ENTRIES: usize = 65_534;

/// The root group of a file with committed datatypes behind its header.
#[derive(Default)]
struct Root {
    objects: u64,
    segment: Vec<u8>,
    free_head: u64,
    /// The offset of the first key.
    first: u64,
    /// The entries of each symbol node, and the offset of the key behind it.
    nodes: Vec<(Vec<Entry>, u64)>,
}

impl Root {
    /// A segment that begins with an empty string, and no free list.
    fn new() -> Root {
        Root {
            segment: vec![0; 8],
            free_head: UNDEFINED,
            ..Root::default()
        }
    }

    /// Adds a string to the segment; gives its offset.
    fn string(&mut self, text: &[u8]) -> u64 {
        let at = self.segment.len() as u64;
        self.segment.extend_from_slice(text);
        self.segment.push(0);
        at
    }

    /// Adds free blocks of the least size to the segment, in the order in which the free list has them.
    fn free(&mut self, order: &[usize]) {
        let start = self.segment.len();
        let place = |number: usize| (start + FREE * number) as u64;
        self.segment.resize(start + FREE * order.len(), 0);
        for (turn, &number) in order.iter().enumerate() {
            let next = order.get(turn + 1).map_or(1, |next| place(*next));
            let at = start + FREE * number;
            self.segment[at..at + 8].copy_from_slice(&next.to_le_bytes());
            self.segment[at + 8] = FREE as u8;
        }
        self.free_head = place(order[0]);
    }

    /// All entries in as few symbol nodes as can be, each with its last one's name as the key behind it.
    fn few_nodes(&mut self, entries: Vec<Entry>) {
        let nodes = entries.len().div_ceil(NODE_ENTRIES);
        let node = |some: &[Entry]| (some.to_vec(), some[some.len() - 1].name);
        let some = entries.len().div_ceil(nodes);
        self.nodes = entries.chunks(some).map(node).collect();
    }

    /// The file, of so many bytes.
    fn file(&self, size: usize) -> Vec<u8> {
        let most = self.nodes.iter().map(|node| node.0.len()).max();
        let leaf_k = most.unwrap_or(0).div_ceil(2).max(1) as u64;
        let internal_k = self.nodes.len().div_ceil(2).max(1) as u64;
        let mut sheet = Sheet::default();
        sheet.reserve(ROOT + HEADER + HEADER * self.objects);
        let heap = sheet.reserve(32);
        let tree = sheet.reserve(32 + 32 * internal_k);
        let mut children = Vec::new();
        for (entries, key) in &self.nodes {
            let address = sheet.reserve(8 + 80 * leaf_k);
            write_symbols(&mut sheet, address, entries);
            children.push(Child { address, key: *key });
        }
        write_node(&mut sheet, tree, 0, self.first, &children);
        let mut segment = Sheet::default();
        segment.raw(0, &self.segment);
        let segment_at = sheet.reserve(segment.bytes.len() as u64);
        write_heap(&mut sheet, heap, self.free_head, segment_at, &segment);
        let table = vec![vec![Message::symbol_table(tree, heap)]];
        header::write(&mut sheet, &[ROOT], 1, &table);
        for number in 0..self.objects {
            let datatype = vec![vec![committed_message()]];
            header::write(&mut sheet, &[object_at(number)], 1, &datatype);
        }
        let superblock = Superblock {
            version: 0,
            leaf_k: leaf_k as u16,
            internal_k: internal_k as u16,
            end: size as u64,
            root: ROOT,
        };
        superblock.write(&mut sheet);
        filled(sheet.bytes, size)
    }
}

fn object_at(number: u64) -> u64 {
    ROOT + HEADER + HEADER * number
}

fn filled(mut image: Vec<u8>, size: usize) -> Vec<u8> {
    assert!(image.len() <= size, "{} bytes of {size}", image.len());
    image.resize(size, 0);
    image
}

/// A number in so many letters below 'z'.
fn counter(number: usize, letters: u32) -> Vec<u8> {
    let digit = |place: u32| b'a' + (number / 25usize.pow(place) % 25) as u8;
    (0..letters).rev().map(digit).collect()
}

fn hard(name: u64, address: u64) -> Entry {
    Entry {
        name,
        address,
        kind: 0,
        scratch: 0,
    }
}

fn with_path(root: &Root, size: usize, name: &[u8]) -> Hostile {
    Hostile {
        image: root.file(size),
        path: [b"/", name].concat(),
    }
}

/// A header that goes on in as many continuations as there is room for, each of which names the next.
fn chain(size: usize, order: Order) -> Hostile {
    let fitting = (size - FIRST as usize) / LINK as usize + OTHER_BLOCKS;
    Hostile {
        image: filled(touching(order, fitting.min(MOST_BLOCKS)).bytes, size),
        path: b"/".to_vec(),
    }
}

/// More than an empty group takes with its entry and its name. It has four blocks, so that there are enough of these.
const GROUP: usize = 200;

/// A root that names as many empty groups as there is room for.
fn groups(size: usize) -> Hostile {
    let count = ((size - OTHERS) / GROUP).min(OBJECTS);
    let links = (1..=count).map(|number| link(counter(number, 5), Target::Object(number)));
    let mut objects = vec![root(links.collect())];
    for _ in 0..count {
        objects.push(Object::new(Content::Group(Group::default())));
    }
    let mut plan = Plan::new(objects);
    (plan.leaf_k, plan.internal_k) = (count.div_ceil(2) as u16, 1);
    planned(plan, size, &counter(count, 5))
}

fn planned(plan: Plan, size: usize, name: &[u8]) -> Hostile {
    Hostile {
        image: filled(write(&plan, 7).sheet.bytes, size),
        path: [b"/", name].concat(),
    }
}

/// One header of as many empty messages as fit.
fn messages(size: usize) -> Hostile {
    let count = ((size - OTHERS) / 8).min(65_534);
    let (tree, heap, segment) = (ROOT, ROOT + 64, ROOT + 96);
    let at = segment + 8;
    let mut sheet = Sheet::default();
    write_node(&mut sheet, tree, 0, 0, &[]);
    let mut empty = Sheet::default();
    empty.reserve(8);
    write_heap(&mut sheet, heap, UNDEFINED, segment, &empty);
    let mut block = vec![Message::symbol_table(tree, heap)];
    block.extend((0..count).map(|_| Message::step(0, 0, &[])));
    header::write(&mut sheet, &[at], 1, &[block]);
    let superblock = Superblock {
        version: 0,
        leaf_k: 1,
        internal_k: 1,
        end: size as u64,
        root: at,
    };
    superblock.write(&mut sheet);
    Hostile {
        image: filled(sheet.bytes, size),
        path: b"/".to_vec(),
    }
}

/// How many objects there may be besides the root.
const OBJECTS: usize = MOST_OBJECTS - 1;

fn last_object(_: usize, objects: usize) -> usize {
    objects - 1
}

fn spread_object(turn: usize, objects: usize) -> usize {
    7919 * turn % objects
}

/// One link to each object, then links to objects by their turn. Of a short file at most a third is objects and their links.
fn links(size: usize, object: fn(usize, usize) -> usize) -> Hostile {
    let mut root = Root::new();
    let objects = (size / 256).min(OBJECTS);
    root.objects = objects as u64;
    let used = OTHERS + HEADER as usize * objects;
    let count = (size - used) / (ENTRY + 6);
    let mut entries = Vec::new();
    for turn in 0..count {
        let target = if turn < objects {
            turn
        } else {
            object(turn, objects)
        };
        let name = root.string(&counter(turn, 5));
        entries.push(hard(name, object_at(target as u64)));
    }
    root.few_nodes(entries);
    with_path(&root, size, &counter(count - 1, 5))
}

/// A name of so many bytes, the last five of which are a number.
fn name_of(number: usize, bytes: usize) -> Vec<u8> {
    let mut name = vec![b'n'; bytes - 5];
    name.extend(counter(number, 5));
    name
}

/// Names of so many bytes, each with these bytes behind it in the segment.
fn names(size: usize, bytes: usize, behind: &[u8]) -> Hostile {
    let mut root = Root::new();
    let count = (size - OTHERS) / (ENTRY + bytes + 1 + behind.len());
    let mut entries = Vec::new();
    for number in 0..count {
        let name = root.string(&name_of(number, bytes));
        root.segment.extend_from_slice(behind);
        entries.push(hard(name, ROOT));
    }
    root.few_nodes(entries);
    with_path(&root, size, &name_of(count - 1, bytes))
}

/// As many symbol nodes of one entry as there is room for, and keys that are the ends of one string.
fn keys(size: usize) -> Hostile {
    let count = (size / 2 / (88 + 16 + 5)).min(MOST_BLOCKS - 5);
    let mut root = Root::new();
    let string = size - OTHERS - count * (88 + 16 + 5);
    let letters = (0..).flat_map(|number| counter(number % (count + 1), 3));
    let text: Vec<u8> = letters.take(string).collect();
    let start = root.string(&text);
    for number in 0..count {
        let mut name = counter(number, 3);
        name.push(b'z');
        let entry = hard(root.string(&name), ROOT);
        root.nodes
            .push((vec![entry], start + 3 * (number as u64 + 1)));
    }
    let name = [counter(count - 1, 3), vec![b'z']].concat();
    with_path(&root, size, &name)
}

/// Symbolic links that share one value of half the file, with a free block right behind it or none.
fn values(size: usize, free_behind: bool) -> Hostile {
    let mut root = Root::new();
    let value = root.string(&vec![b'v'; size / 2]);
    if free_behind {
        root.free(&[0]);
    }
    let count = (size / 2 - OTHERS - FREE) / (ENTRY + 6);
    let mut entries = Vec::new();
    for number in 0..count {
        entries.push(Entry {
            name: root.string(&counter(number, 5)),
            address: UNDEFINED,
            kind: 2,
            scratch: value,
        });
    }
    root.few_nodes(entries);
    with_path(&root, size, &counter(count - 1, 5))
}

/// A heap of free blocks and nothing else.
fn free(size: usize, order: Order) -> Hostile {
    let mut root = Root::new();
    root.free(&order((size - OTHERS) / FREE));
    with_path(&root, size, b"")
}

/// Half the bytes are entries with names, and half are free blocks in random order.
fn names_and_free(size: usize) -> Hostile {
    let mut root = Root::new();
    let count = (size / 2 - OTHERS) / (ENTRY + 6);
    let mut entries = Vec::new();
    for number in 0..count {
        let name = root.string(&counter(number, 5));
        entries.push(hard(name, ROOT));
    }
    root.free(&block_orders::random(size / 2 / FREE));
    root.few_nodes(entries);
    with_path(&root, size, &counter(count - 1, 5))
}

/// A tree of level 8 whose nodes have at most two children, over at most 256 symbol nodes.
fn deep(size: usize, bytes: usize) -> Hostile {
    // Behind the nodes of the tree; the last symbol node may have few entries.
    let left = size - 24 * 1024 - size / 256;
    let count = left / (ENTRY + (bytes + 1).next_multiple_of(8));
    let links = (0..count).map(|number| link(name_of(number, bytes), Target::Object(0)));
    let mut root = root(links.collect());
    if let Content::Group(group) = &mut root.content {
        (group.level, group.full) = (8, true);
    }
    let mut plan = Plan::new(vec![root]);
    (plan.leaf_k, plan.internal_k) = (count.div_ceil(512) as u16, 1);
    planned(plan, size, &name_of(count - 1, bytes))
}
