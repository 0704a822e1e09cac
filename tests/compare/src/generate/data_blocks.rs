//! Datasets whose bytes lie at any address, from one byte up to several pages, so that two may share a single byte.

use super::dataset::{Dataset, Datatype, Layout};
use super::plan::{Content, Object, Plan, Target};
use super::random::Random;
use super::special::{link, root};
use super::write::write;

/// All other blocks lie below this address.
const DATA: u64 = 32_768;
const LENGTHS: [u64; 12] = [1, 2, 7, 63, 64, 65, 4095, 4096, 4097, 8191, 8192, 8193];

/// The datasets of a root group in any order of addresses. In every other file one of them has a byte more or is moved by one.
pub fn data_blocks(seed: u64) -> Vec<u8> {
    let mut random = Random::new(seed);
    let count = random.between(2, 60);
    let mut at = DATA + random.below(4096);
    let mut blocks = Vec::new();
    for _ in 0..count {
        let length = random.pick(&LENGTHS);
        blocks.push((at, length));
        at += length + random.pick(&[0, 0, 0, 1, 8]);
    }
    random.shuffle(&mut blocks);
    if seed % 2 == 1 {
        let number = random.below(count) as usize;
        let (start, length) = blocks[number];
        let changed = [
            (start - 1, length + 1),
            (start, length + 1),
            (start - 1, length),
            (start + 1, length),
        ];
        blocks[number] = random.pick(&changed);
    }
    let links =
        (1..=blocks.len()).map(|number| link(format!("{number:02}"), Target::Object(number)));
    let mut objects = vec![root(links.collect())];
    objects.extend(blocks.into_iter().map(dataset));
    let mut sheet = write(&Plan::new(objects), seed).sheet;
    sheet.reserve(at + 1 - sheet.bytes.len() as u64);
    sheet.with("superblock end of file", 0, at + 1).bytes
}

fn dataset((address, length): (u64, u64)) -> Object {
    Object::new(Content::Dataset(Dataset {
        sizes: vec![length],
        maxima: None,
        datatype: Datatype::integer(1),
        layout: Layout::At(address, length),
    }))
}
