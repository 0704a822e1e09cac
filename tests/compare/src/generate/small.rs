//! The small files of document 01 ("Small files to try"), and one with sharings.

use super::attribute::Attribute;
use super::dataset::{Dataset, Datatype, Layout};
use super::group::{write_heap, write_node, write_symbols, Child, Entry, Segment};
use super::header::{self, Message};
use super::sheet::Sheet;
use super::superblock::Superblock;
use super::UNDEFINED;
use crate::reader::SUPERBLOCK_OWNER;

pub const ROOT: u64 = 96;
pub const DATASET: u64 = 1128;
/// The root's tree in E and H.
const TREE: u64 = 136;

/// "E: 800 bytes, K 4 and 16; header at 96 (40 long), tree 136 (544), heap 680 (32), segment 712 (88)."
pub fn e() -> Sheet {
    let mut sheet = Sheet::default();
    sheet.reserve(800);
    write_root(&mut sheet, 800, 1);
    write_group(&mut sheet, TREE, &[]);
    sheet
}

pub fn write_superblock(sheet: &mut Sheet, end: u64) {
    superblock(end).write(sheet);
}

/// That of E and H, in a file that ends there.
fn superblock(end: u64) -> Superblock {
    Superblock {
        version: 0,
        leaf_k: 4,
        internal_k: 16,
        end,
        root: ROOT,
    }
}

fn write_root(sheet: &mut Sheet, end: u64, stored: u32) {
    write_superblock(sheet, end);
    let messages = vec![vec![table(TREE)]];
    header::write(sheet, &[ROOT], stored, &messages);
}

/// The symbol table message of a group whose tree lies there.
pub fn table(tree: u64) -> Message {
    Message::symbol_table(tree, tree + 544)
}

/// Tree, heap, segment and, if there are links, a symbol node, one behind the other. The rest of the segment is a free
/// block.
pub fn write_group(sheet: &mut Sheet, tree: u64, links: &[(&[u8], u64)]) {
    let (heap, segment_at, symbols) = (tree + 544, tree + 576, tree + 664);
    let mut segment = Segment::new();
    let entries: Vec<Entry> = links
        .iter()
        .map(|&(name, address)| Entry {
            name: segment.string(name),
            address,
            kind: 0,
            scratch: 0,
        })
        .collect();
    let left = 88 - segment.sheet.bytes.len() as u64;
    if left >= 16 {
        segment.hole(left);
    }
    segment.sheet.reserve(88 - segment.sheet.bytes.len() as u64);
    let head = segment.link_free();
    write_heap(sheet, heap, head, segment_at, &segment.sheet);
    if entries.is_empty() {
        write_node(sheet, tree, 0, 0, &[]);
        return;
    }
    let child = Child {
        address: symbols,
        key: entries[entries.len() - 1].name,
    };
    write_node(sheet, tree, 0, 0, &[child]);
    write_symbols(sheet, symbols, &entries);
}

/// "H: E plus SNOD at 800 (328), names "a" and "b" for a dataset header at 1128 (96 long) with four bytes at 1224."
pub fn h() -> Sheet {
    h_with(&[(b"a", DATASET), (b"b", DATASET)], 1, 2)
}

/// H with other links and other stored counts of the root and the dataset.
pub fn h_with(links: &[(&[u8], u64)], root_stored: u32, stored: u32) -> Sheet {
    let mut sheet = Sheet::default();
    sheet.reserve(1228);
    write_root(&mut sheet, 1228, root_stored);
    write_group(&mut sheet, TREE, links);
    let dataset = Dataset {
        sizes: vec![4],
        maxima: None,
        datatype: Datatype::integer(1),
        layout: Layout::Stored(4),
    };
    let messages = vec![dataset.messages(1224, 0)];
    header::write(&mut sheet, &[DATASET], stored, &messages);
    sheet.raw(1224, b"data");
    sheet
}

/// The dataset "d" and the committed datatype "t" of C.
pub const C_DATASET: u64 = 1168;
pub const C_COMMITTED: u64 = 1256;

/// C: root header at 96 (80 long) with an attribute of version 2, tree 176, heap 720, segment 752, SNOD 840 with "d" and
/// "t", a dataset at 1168 (88 long) without data and a committed datatype at 1256 (40 long). The attribute and the
/// dataset share the committed datatype. Stored counts 1.
pub fn c() -> Sheet {
    c_with(&[], &[])
}

/// C with the shared flag on the message of "t", the last of its messages.
pub fn c_with_own_flag() -> Sheet {
    c().with("message flags", 5, 2)
}

/// C with further messages in the root's header, before and behind the attribute; all that follows moves.
pub fn c_with(before: &[Message], behind: &[Message]) -> Sheet {
    let attribute = Attribute::shared(2, 0).message();
    let mut root = vec![table(0)];
    root.extend_from_slice(before);
    root.push(attribute);
    root.extend_from_slice(behind);
    let tree = ROOT + 16 + header::length(&root);
    let dataset = tree + 664 + 328;
    let committed = dataset + 88;
    root[0] = table(tree);
    let root = root.iter().map(|message| message.placed(&[committed]));
    let mut sheet = Sheet::default();
    sheet.reserve(committed + 40);
    write_superblock(&mut sheet, committed + 40);
    header::write(&mut sheet, &[ROOT], 1, &[root.collect()]);
    write_group(&mut sheet, tree, &[(b"d", dataset), (b"t", committed)]);
    header::write(&mut sheet, &[dataset], 1, &[sharing_dataset(committed)]);
    header::write(&mut sheet, &[committed], 1, &[vec![committed_message()]]);
    sheet
}

/// The messages of a dataset of one element without data that shares the object at an address.
pub fn sharing_dataset(committed: u64) -> Vec<Message> {
    let dataset = Dataset {
        sizes: Vec::new(),
        maxima: None,
        datatype: Datatype::Shared {
            version: 2,
            object: 0,
        },
        layout: Layout::At(UNDEFINED, 0),
    };
    let mut messages = dataset.messages(0, committed);
    messages[1].flags = 2;
    messages
}

/// The message of a committed datatype: a string of one byte.
pub fn committed_message() -> Message {
    Message::step(3, 0, &[0x13, 0, 0, 0, 1, 0, 0, 0, 0, 0, 0, 0, 0, 0, 0, 0])
}

/// The leaf K of a group with so many names that all its symbol nodes hang below one tree node, and the bytes of each.
const MANY_K: u64 = 16;
const MANY_NODE: u64 = 8 + 80 * MANY_K;

/// A root group like that of E, but with names for so many committed datatypes less one. A header's stored count is its
/// number, so that each can be told from the others. In order: tree, heap, segment, symbol nodes, headers.
pub fn objects(count: u64) -> Sheet {
    let (mut sheet, headers) = many_names(count - 1, 40);
    for number in 1..count {
        let messages = vec![committed_message()];
        let place = headers + 40 * (number - 1);
        header::write(&mut sheet, &[place], number as u32, &[messages]);
    }
    end_many(sheet)
}

/// The same group with names for so many addresses, one behind the other, and no headers there: it fits into few bytes.
pub fn addresses(count: usize) -> Sheet {
    end_many(many_names(count as u64, 1).0)
}

/// Tree, heap, segment and symbol nodes of a root group with so many names, whose objects come behind these so many bytes
/// apart; gives the address of the first.
fn many_names(count: u64, apart: u64) -> (Sheet, u64) {
    let mut segment = Segment::new();
    let names: Vec<u64> = (1..=count)
        .map(|number| segment.string(format!("{number:04}").as_bytes()))
        .collect();
    let nodes = 712 + segment.sheet.bytes.len() as u64;
    let in_node = 2 * MANY_K;
    let objects = nodes + MANY_NODE * count.div_ceil(in_node);
    let mut sheet = Sheet::default();
    sheet.reserve(objects);
    write_heap(&mut sheet, 680, 1, 712, &segment.sheet);
    let mut children = Vec::new();
    for (number, some) in (0..).zip(names.chunks(in_node as usize)) {
        let address = nodes + MANY_NODE * number;
        let first = objects + apart * in_node * number;
        write_symbols(&mut sheet, address, &entries(some, first, apart));
        let key = some[some.len() - 1];
        children.push(Child { address, key });
    }
    write_node(&mut sheet, TREE, 0, 0, &children);
    (sheet, objects)
}

fn end_many(mut sheet: Sheet) -> Sheet {
    let head = Superblock {
        leaf_k: MANY_K as u16,
        ..superblock(sheet.reserve(0))
    };
    head.write(&mut sheet);
    header::write(&mut sheet, &[ROOT], 1, &[vec![table(TREE)]]);
    sheet
}

/// The bytes of an object in `packed`: a header whose message has none, an entry, and a name of two letters.
const PACKED: u64 = 24 + 40 + 3;

/// A root group with names for committed datatypes in as few bytes as can be: as many as so many bytes hold.
pub fn packed(bytes: u64) -> Sheet {
    let (tree, heap, segment_at) = (136, 200, 232);
    // An even number. Segment and symbol node have 8 bytes besides.
    let count = (bytes - (segment_at + 16)) / PACKED / 2 * 2;
    let (segment, names) = two_letters(count);
    let symbols = segment_at + segment.bytes.len() as u64;
    let headers = symbols + 8 + 40 * count;
    let mut sheet = Sheet::default();
    write_heap(&mut sheet, heap, 1, segment_at, &segment);
    let child = Child {
        address: symbols,
        key: names[names.len() - 1],
    };
    write_node(&mut sheet, tree, 0, 0, &[child]);
    write_symbols(&mut sheet, symbols, &entries(&names, headers, 24));
    for number in 0..count {
        let place = headers + 24 * number;
        let empty = vec![Message::step(3, 0, &[])];
        header::write(&mut sheet, &[place], number as u32 + 1, &[empty]);
    }
    let table = Message::symbol_table(tree, heap);
    header::write(&mut sheet, &[ROOT], 1, &[vec![table]]);
    let head = Superblock {
        leaf_k: (count / 2) as u16,
        internal_k: 1,
        ..superblock(sheet.reserve(0))
    };
    head.write(&mut sheet);
    sheet
}

/// A segment of so many names without gaps, in rising order, and their offsets.
fn two_letters(count: u64) -> (Sheet, Vec<u64>) {
    let mut segment = Sheet::default();
    segment.reserve(8);
    let names: Vec<u64> = (0..count).map(|number| 8 + 3 * number).collect();
    for (number, name) in names.iter().enumerate() {
        let letter = |digit: usize| b'A' + digit as u8;
        let text = [letter(number / 50), letter(number % 50), 0];
        segment.text("heap string", *name, &text);
    }
    (segment, names)
}

/// Hard links of these names to headers from `first` on, so many bytes apart.
fn entries(names: &[u64], first: u64, apart: u64) -> Vec<Entry> {
    (first..)
        .step_by(apart as usize)
        .zip(names)
        .map(|(address, name)| Entry {
            name: *name,
            address,
            kind: 0,
            scratch: 0,
        })
        .collect()
}

/// The files and their variants, by name.
pub fn all() -> Vec<(&'static str, Sheet)> {
    let loop_links: [(&[u8], u64); 3] = [(b"a", DATASET), (b"b", DATASET), (b"loop", ROOT)];
    vec![
        ("E", e()),
        ("E, end 799", e().with("superblock end of file", 0, 799)),
        ("E, end 801", e().with("superblock end of file", 0, 801)),
        ("H", h()),
        (
            "H, stored 1",
            h_with(&[(b"a", DATASET), (b"b", DATASET)], 1, 1),
        ),
        (
            "H, b before a",
            h_with(&[(b"b", DATASET), (b"a", DATASET)], 1, 2),
        ),
        ("H with loop", h_with(&loop_links, 1, 2)),
        ("C", c()),
    ]
}

/// The blocks of E in the audit's list, four words each.
pub const E_BLOCKS: [[u64; 4]; 5] = [
    [0, 96, 1, SUPERBLOCK_OWNER],
    [96, 40, 2, 0],
    [680, 32, 4, 0],
    [712, 88, 5, 0],
    [136, 544, 6, 0],
];

/// Those of H.
pub const H_BLOCKS: [[u64; 4]; 8] = [
    [0, 96, 1, SUPERBLOCK_OWNER],
    [96, 40, 2, 0],
    [680, 32, 4, 0],
    [712, 88, 5, 0],
    [136, 544, 6, 0],
    [800, 328, 7, 0],
    [1128, 96, 2, 1],
    [1224, 4, 8, 1],
];

/// Those of the dataset "a" of H described.
pub const A_BLOCKS: [[u64; 4]; 3] = [
    [0, 96, 1, SUPERBLOCK_OWNER],
    [1128, 96, 2, 0],
    [1224, 4, 8, 0],
];
