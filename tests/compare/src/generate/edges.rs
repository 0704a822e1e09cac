//! Special files with one group: strings at the edges of free blocks, and keys.

use super::group::{write_heap, write_node, write_symbols, Child, Entry, Segment};
use super::header::{self, Message};
use super::sheet::Sheet;
use super::special::{special, Special};
use super::superblock::Superblock;
use super::UNDEFINED;

const SYMBOLS: u64 = 96 + 40 + 96 + 32;

/// A root group with one tree node and one symbol node of K 2 at fixed places; the segment comes last.
fn group(segment: &Segment, head: u64, keys: (u64, u64), entries: &[Entry]) -> Sheet {
    let mut sheet = Sheet::default();
    let length = segment.sheet.bytes.len() as u64;
    let superblock = Superblock {
        version: 0,
        leaf_k: 2,
        internal_k: 2,
        end: SYMBOLS + 168 + length,
        root: 96,
    };
    superblock.write(&mut sheet);
    let table = Message::symbol_table(136, 232);
    header::write(&mut sheet, &[96], 1, &[vec![table]]);
    let child = Child {
        address: SYMBOLS,
        key: keys.1,
    };
    write_node(&mut sheet, 136, 0, keys.0, &[child]);
    write_heap(&mut sheet, 232, head, SYMBOLS + 168, &segment.sheet);
    write_symbols(&mut sheet, SYMBOLS, entries);
    sheet
}

fn hard(name: u64) -> Entry {
    Entry {
        name,
        address: 96,
        kind: 0,
        scratch: 0,
    }
}

fn soft(name: u64, value: u64) -> Entry {
    Entry {
        name,
        address: UNDEFINED,
        kind: 2,
        scratch: value,
    }
}

/// "aa" at 8, "zzz" at 16, "eight888" at 24 just before a free block at 32 (16 bytes, next 256: its first byte is 0),
/// "n" at 48 just behind it, a free block at 256 (16 bytes) and another at 272 (24 bytes, the last).
fn edge_segment() -> (Segment, u64) {
    let mut segment = Segment::new();
    segment.string(b"aa");
    segment.string(b"zzz");
    segment.sheet.text("heap string", 24, b"eight888");
    segment.hole(16);
    segment.string(b"n");
    segment.sheet.reserve(256 - 56);
    segment.hole(16);
    segment.hole(24);
    let head = segment.link_free();
    (segment, head)
}

/// Names and link values beside free blocks.
pub fn heap_edges() -> Vec<Special> {
    let (segment, head) = edge_segment();
    let with = |entry: Entry| group(&segment, head, (0, 16), &[entry]);
    let length = segment.sheet.bytes.len() as u64;
    vec![
        special("name behind a free block", with(hard(48)), 0),
        special("name whose NUL is free", with(hard(24)), 9),
        special("name in a free block", with(hard(33)), 9),
        special("link value whose NUL is free", with(soft(8, 24)), 9),
        special("link value behind a free block", with(soft(8, 48)), 0),
        special("link value before a free block", with(soft(8, 255)), 0),
        special("link value in a free block", with(soft(8, 40)), 9),
        special("link value at the end", with(soft(8, length)), 9),
        special("link value at 2^32 - 1", with(soft(8, 0xffff_ffff)), 9),
        special(
            "free blocks overlap by a byte",
            with(hard(8)).with("free size", 1, 17),
            9,
        ),
        special("free block ends at the end", with(hard(8)), 0),
        special(
            "free block leaves the end",
            with(hard(8)).with("free size", 2, 25),
            9,
        ),
    ]
}

/// Keys: long, empty, in free blocks, without an end; and which names they bound.
pub fn key_edges() -> Vec<Special> {
    let mut segment = Segment::new();
    let long = segment.string(&[b'k'; 300]);
    let name = segment.string(&[b'k'; 255]);
    let slash = segment.string(b"/");
    let z = segment.string(b"z");
    segment
        .sheet
        .text("heap string", segment.sheet.bytes.len() as u64, b"open");
    let open = segment.sheet.bytes.len() as u64 - 4;
    let with = |low, high| group(&segment, 1, (low, high), &[hard(name)]);
    let (edges, head) = edge_segment();
    let free = |low, high| group(&edges, head, (low, high), &[hard(8)]);
    vec![
        special("a long key bounds", with(0, long), 0),
        special("a long key shuts out", with(long, z), 8),
        special("a name is its own last key", with(0, name), 0),
        special("a name is its own first key", with(name, z), 8),
        special("a key with a slash", with(slash, z), 0),
        special("an empty last key", with(0, 0), 8),
        special("a first key without end", with(open, z), 9),
        special("a last key without end", with(0, open), 9),
        special("a key in a free block", free(40, 16), 0),
        special("an empty key in a free block", free(41, 16), 0),
        special("a key past the segment", free(0, 1 << 40), 9),
    ]
}
