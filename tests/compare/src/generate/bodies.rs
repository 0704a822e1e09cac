//! Special files with one dataset: message bodies too short for what they hold.

use super::header::{self, Message};
use super::sheet::Sheet;
use super::special::{special, Special};
use super::superblock::Superblock;

/// A committed datatype is at 96, with a message of 8 bytes.
const COMMITTED: u64 = 96;
const DATASET: u64 = 128;

/// A dataset with these message bodies; `shared` is the datatype's flag.
fn dataset(space: &[u8], datatype: &[u8], layout: &[u8], shared: u8) -> Sheet {
    let messages = vec![vec![
        Message::step(1, 0, space),
        Message::step(3, shared, datatype),
        Message::step(8, 0, layout),
    ]];
    let mut sheet = Sheet::default();
    sheet.reserve(96);
    let datatype = Message::step(3, 0, &STRING);
    header::write(&mut sheet, &[COMMITTED], 1, &[vec![datatype]]);
    header::write(&mut sheet, &[DATASET], 1, &messages);
    let superblock = Superblock {
        version: 0,
        leaf_k: 1,
        internal_k: 1,
        end: sheet.bytes.len() as u64,
        root: DATASET,
    };
    superblock.write(&mut sheet);
    sheet
}

const SCALAR: [u8; 8] = [1, 0, 0, 0, 0, 0, 0, 0];
const STRING: [u8; 8] = [0x13, 0, 0, 0, 4, 0, 0, 0];
const FOUR: [u8; 8] = [3, 0, 4, 0, 1, 2, 3, 4];

/// An unshared datatype of version 1 and 4 bytes, cut to `length`.
fn own(class: u8, length: usize) -> Sheet {
    let mut body = [0u8; 24];
    body[..8].copy_from_slice(&[0x10 | class, 0, 0, 0, 4, 0, 0, 0]);
    body[10] = 32;
    dataset(&SCALAR, &body[..length], &FOUR, 0)
}

/// A shared datatype, cut to `length`.
fn shared(version: u8, kind: u8, length: usize) -> Sheet {
    let mut body = [0u8; 16];
    body[..2].copy_from_slice(&[version, kind]);
    body[2..10].copy_from_slice(&COMMITTED.to_le_bytes());
    dataset(&SCALAR, &body[..length], &FOUR, 2)
}

pub fn datatypes() -> Vec<Special> {
    let mut all = Vec::new();
    for (class, length, number) in [
        (3, 8, 0),
        (5, 8, 0),
        (0, 16, 0),
        (1, 24, 0),
        (0, 8, 11),
        (4, 8, 11),
        (1, 8, 11),
        (1, 16, 11),
        (0, 0, 11),
        (3, 0, 11),
    ] {
        let name = format!("class {class} in {length}");
        all.push(special(name, own(class, length), number));
    }
    for (version, kind, length, number) in [
        (2, 9, 16, 0),
        (3, 2, 16, 0),
        (2, 0, 8, 11),
        (3, 2, 8, 11),
        (3, 1, 8, 3),
        (1, 0, 8, 3),
        (4, 2, 8, 3),
        (2, 0, 0, 11),
    ] {
        let name = format!("shared version {version}, type {kind} in {length}");
        all.push(special(name, shared(version, kind, length), number));
    }
    all
}

pub fn spaces_and_layouts() -> Vec<Special> {
    let layout = |bytes: &[u8]| dataset(&SCALAR, &STRING, bytes, 0);
    let space = |bytes: &[u8]| dataset(bytes, &STRING, &FOUR, 0);
    let mut contiguous = [255; 18];
    contiguous[..2].copy_from_slice(&[3, 1]);
    contiguous[10..].copy_from_slice(&4u64.to_le_bytes());
    let maxima = [1, 1, 1, 0, 0, 0, 0, 0, 1, 0, 0, 0, 0, 0, 0, 0];
    vec![
        special("layout in 0", layout(&[]), 11),
        special("contiguous in 8", layout(&contiguous[..8]), 11),
        special("contiguous in 16", layout(&contiguous[..16]), 11),
        special("contiguous in 24", layout(&contiguous), 0),
        special("compact beyond its body", layout(&[3, 0, 5]), 11),
        special("layout version 4 in 8", layout(&[4, 1]), 3),
        special("chunked in 8", layout(&[3, 2]), 3),
        special("layout class 3 in 8", layout(&[3, 3]), 3),
        special("dataspace in 0", space(&[]), 11),
        special("rank 1 in 8", space(&[1, 1]), 11),
        special("rank 33 with flags", space(&[1, 33, 2]), 11),
        special("rank 1 with flags in 8", space(&[1, 1, 2]), 3),
        special("rank 33 of version 2", space(&[2, 33]), 3),
        special("maxima in 16", space(&maxima), 11),
    ]
}
