//! Groups with links to many objects, whose addresses come in any order and may have their low bits in common.

use super::block_orders::Order;
use super::group::{write_heap, write_node, write_symbols, Child, Entry, Segment};
use super::header::{self, Message};
use super::random::Random;
use super::sheet::Sheet;
use super::small::{committed_message, ROOT};
use super::superblock::Superblock;
use crate::reader::MOST_BYTES;

/// The superblock and the root's blocks lie below this address, the other objects from there on.
const OBJECTS: u64 = 131_072;

/// How far from each other objects may lie. With the last, a file has no room for as many as there may be.
pub const STRIDES: [u64; 8] = [40, 48, 64, 256, 1024, 4096, 16_000, 16_384];

/// So many objects besides the root, fewer if a file has no room for them, found in that order. Some have more links.
pub fn many(objects: usize, order: Order, stride: u64) -> (Sheet, usize) {
    let room = (MOST_BYTES as u64 - OBJECTS) / stride;
    let objects = objects.min(room as usize);
    let mut random = Random::new(objects as u64 + stride);
    let address = |object: usize| OBJECTS + stride * object as u64;
    let mut targets: Vec<u64> = Vec::new();
    for object in order(objects) {
        targets.push(address(object));
        if random.once_in(2) {
            let again = random.pick(&targets);
            targets.push(again);
        }
    }
    let mut sheet = Sheet::default();
    let mut segment = Segment::new();
    let mut entries = Vec::new();
    for (number, &address) in targets.iter().enumerate() {
        entries.push(Entry {
            name: segment.string(format!("{number:04}").as_bytes()),
            address,
            kind: 0,
            scratch: 0,
        });
    }
    let leaf_k = entries.len().div_ceil(2).max(1) as u64;
    sheet.reserve(ROOT + 40);
    let (heap, tree) = (sheet.reserve(32), sheet.reserve(64));
    let node = sheet.reserve(8 + 80 * leaf_k);
    let child = entries.last().map(|entry| Child {
        address: node,
        key: entry.name,
    });
    write_node(&mut sheet, tree, 0, 0, child.as_slice());
    write_symbols(&mut sheet, node, &entries);
    let at = sheet.reserve(0);
    write_heap(&mut sheet, heap, 1, at, &segment.sheet);
    assert!(sheet.bytes.len() as u64 <= OBJECTS);
    let table = vec![vec![Message::symbol_table(tree, heap)]];
    header::write(&mut sheet, &[ROOT], 1, &table);
    for object in 0..objects {
        let datatype = vec![vec![committed_message()]];
        header::write(&mut sheet, &[address(object)], 1, &datatype);
    }
    let superblock = Superblock {
        version: 0,
        leaf_k: leaf_k as u16,
        internal_k: 1,
        end: sheet.bytes.len() as u64,
        root: ROOT,
    };
    superblock.write(&mut sheet);
    (sheet, objects)
}
