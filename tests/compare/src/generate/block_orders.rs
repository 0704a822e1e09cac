//! Files whose blocks come in a chosen order of addresses: the root group's header goes on in a chain of continuations.

use super::header::{self, Message};
use super::random::Random;
use super::sheet::Sheet;
use super::small::{table, write_group, write_superblock, ROOT};

/// The root's tree, behind its header of two messages.
const TREE: u64 = ROOT + 16 + 24 + LINK;
/// The first continuation, behind tree, heap and segment of a group without names.
pub const FIRST: u64 = TREE + 664;
/// The superblock, the root's header, tree, heap and segment.
pub const OTHERS: usize = 5;
/// A message without a body, and one that names a continuation.
const EMPTY: u64 = 8;
pub const LINK: u64 = 24;

/// Where a continuation lies: its address, from that of the first, and its length.
#[derive(Clone, Copy, Debug)]
pub struct Part {
    pub at: u64,
    pub length: u64,
}

/// The messages of one part: a link to the next, if there is one, and messages without a body.
fn messages(length: u64, next: Option<usize>) -> Vec<Message> {
    let link = next.map(|next| Message::continuation(next as u64, 0));
    let count = (length - if next.is_some() { LINK } else { 0 }) / EMPTY;
    let empty = (0..count).map(|_| Message::step(0, 0, &[]));
    link.into_iter().chain(empty).collect()
}

/// The root group with these continuations, each named by the one before it.
pub fn file(parts: &[Part]) -> Sheet {
    let mut places = vec![ROOT];
    let mut blocks = vec![vec![table(TREE), Message::continuation(1, 0)]];
    for (number, part) in parts.iter().enumerate() {
        places.push(FIRST + part.at);
        let last = number + 1 == parts.len();
        blocks.push(messages(part.length, (!last).then_some(number + 2)));
    }
    let end = parts.iter().map(|part| part.at + part.length).max();
    let mut sheet = Sheet::default();
    sheet.reserve(FIRST + end.expect("a part"));
    let length = sheet.bytes.len() as u64;
    write_superblock(&mut sheet, length);
    write_group(&mut sheet, TREE, &[]);
    header::write(&mut sheet, &places, 1, &blocks);
    sheet
}

/// The numbers below `count` in an order.
pub type Order = fn(usize) -> Vec<usize>;

pub fn rising(count: usize) -> Vec<usize> {
    (0..count).collect()
}

pub fn falling(count: usize) -> Vec<usize> {
    (0..count).rev().collect()
}

/// The first, the last, the second, the last but one, and so on.
pub fn inward(count: usize) -> Vec<usize> {
    let number = |turn: usize| match turn % 2 {
        0 => turn / 2,
        _ => count - 1 - turn / 2,
    };
    (0..count).map(number).collect()
}

pub fn outward(count: usize) -> Vec<usize> {
    let mut numbers = inward(count);
    numbers.reverse();
    numbers
}

pub fn random(count: usize) -> Vec<usize> {
    let mut numbers = rising(count);
    Random::new(count as u64).shuffle(&mut numbers);
    numbers
}

pub const ORDERS: [(&str, Order); 5] = [
    ("rising", rising),
    ("falling", falling),
    ("inward", inward),
    ("outward", outward),
    ("random", random),
];

/// A file of so many blocks, whose continuations touch each other.
pub fn touching(order: Order, blocks: usize) -> Sheet {
    let part = |number| Part {
        at: LINK * number as u64,
        length: LINK,
    };
    let parts: Vec<Part> = order(blocks - OTHERS).into_iter().map(part).collect();
    file(&parts)
}

/// Some continuations with gaps between them in any order, and the bytes from the first up to the last one's end.
pub fn scattered(seed: u64, most: u64) -> (Vec<Part>, u64) {
    let mut random = Random::new(seed);
    let count = random.between(1, most) as usize;
    let mut at = 0;
    let mut parts = Vec::new();
    for _ in 0..count {
        at += EMPTY * random.below(3);
        let length = LINK + EMPTY * random.below(4);
        parts.push(Part { at, length });
        at += length;
    }
    let order = random.pick(&ORDERS).1;
    let ordered = order(count).into_iter().map(|number| parts[number]);
    (ordered.collect(), at)
}

/// The same with one continuation more at the end of the chain, which meets several of the others, one or none.
pub fn one_more(seed: u64, most: u64) -> Sheet {
    let (mut parts, end) = scattered(seed, most);
    let mut random = Random::new(!seed);
    let longest = random.pick(&[EMPTY, 4 * EMPTY, end]);
    let length = EMPTY * random.between(1, longest / EMPTY);
    let at = EMPTY * random.below(end / EMPTY + 1);
    // Written behind the others and then moved, so that it leaves their bytes as they are.
    parts.push(Part { at: end, length });
    let last = parts.len() - 1;
    file(&parts).with("continuation address", last, FIRST + at)
}
