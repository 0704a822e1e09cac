//! Files as large as the limits allow.

use super::dataset::{Dataset, Datatype, Layout};
use super::plan::{Content, Group, Object, Plan, Target};
use super::special::{link, root};
use super::write::write;
use crate::reader::{audit, BLOCK_WORDS, MOST_BLOCKS, MOST_BYTES, MOST_OBJECTS};

/// How `everything` is filled: so many groups, the K of symbol nodes, symbol nodes of a group, and bytes of a dataset.
const GROUPS: usize = 200;
const LEAF_K: usize = 8;
const NODES: usize = 28;
const DATA: u64 = 12_000;

/// As many bytes, blocks and objects as there may be, and many links: groups and datasets that all name each other.
pub fn everything() -> Vec<u8> {
    // Header, heap, segment, tree node and symbol nodes a group, two blocks a dataset.
    let mut objects = Vec::new();
    for number in 0..MOST_OBJECTS {
        let content = if number < GROUPS {
            Content::Group(group_of_everything(number))
        } else {
            Content::Dataset(dataset(1, DATA))
        };
        objects.push(Object::new(content));
    }
    let mut plan = Plan::new(objects);
    (plan.leaf_k, plan.internal_k) = (LEAF_K as u16, 16);
    exactly_filled(plan, MOST_BLOCKS as u64, MOST_BYTES)
}

/// Names of its own children, the next group, and many names more.
fn group_of_everything(number: usize) -> Group {
    let mut group = Group {
        full: true,
        ..Group::default()
    };
    for turn in 0..2 * LEAF_K * NODES {
        let target = match turn {
            0 => (number + 1) % GROUPS,
            _ => GROUPS + (number * 7 + turn) % (MOST_OBJECTS - GROUPS),
        };
        let name = format!("{turn:05}");
        group.links.push(link(name, Target::Object(target)));
    }
    group.settle();
    group
}

/// A root group of datasets of many dimensions.
pub fn datasets() -> Vec<u8> {
    let links = (1..MOST_OBJECTS)
        .map(|number| link(format!("dataset {number:04}"), Target::Object(number)))
        .collect();
    let mut objects = vec![root(links)];
    for number in 1..MOST_OBJECTS {
        let stored = dataset(number % 33, 15_000);
        objects.push(Object::new(Content::Dataset(stored)));
    }
    let mut plan = Plan::new(objects);
    plan.leaf_k = 16;
    exactly_filled(plan, MOST_BLOCKS as u64, MOST_BYTES)
}

/// One group of 12,000 names whose tree has a root of level 8, and nodes of up to four children.
pub fn deep() -> Vec<u8> {
    exactly_filled(deep_group(12_000), MOST_BLOCKS as u64, MOST_BYTES)
}

/// The same of few names, in a small file.
pub fn small_deep() -> Vec<u8> {
    write(&deep_group(4), 7).sheet.bytes
}

fn deep_group(names: usize) -> Plan {
    let links = (0..names)
        .map(|number| link(format!("{number:05}"), Target::Object(number % 2)))
        .collect();
    let mut root = root(links);
    if let Content::Group(group) = &mut root.content {
        group.level = 8;
    }
    let mut plan = Plan::new(vec![root, Object::new(Content::Committed)]);
    (plan.leaf_k, plan.internal_k) = (1, 2);
    plan
}

fn dataset(rank: usize, bytes: u64) -> Dataset {
    let mut sizes = vec![1; rank];
    if let Some(size) = sizes.first_mut() {
        *size = bytes;
    }
    let bytes: u64 = sizes.iter().product();
    Dataset {
        maxima: Some(sizes.clone()),
        sizes,
        datatype: Datatype::integer(1),
        layout: Layout::Stored(bytes),
    }
}

/// A root group with one dataset, "a", in so many blocks and so many bytes.
pub fn one_dataset(blocks: u64, bytes: usize) -> Vec<u8> {
    let objects = vec![
        root(vec![link("a".to_string(), Target::Object(1))]),
        Object::new(Content::Dataset(dataset(1, 4))),
    ];
    exactly_filled(Plan::new(objects), blocks, bytes)
}

/// The parents of so many continuations: each block names up to eight.
pub fn eight_each(count: usize) -> Vec<usize> {
    (0..count).map(|number| number / 8).collect()
}

/// Adds continuations to the last object until there are so many blocks, and bytes until there are so many.
fn exactly_filled(mut plan: Plan, blocks: u64, bytes: usize) -> Vec<u8> {
    let image = write(&plan, 7).sheet.bytes;
    let used = audit(&image, BLOCK_WORDS * MOST_BLOCKS).block_count;
    assert!(used > 0 && used <= blocks && image.len() <= bytes);
    let last = plan.objects.len() - 1;
    plan.objects[last].parents = eight_each((blocks - used) as usize);
    let mut image = write(&plan, 7).sheet.bytes;
    assert!(image.len() <= bytes);
    image.resize(bytes, 0);
    image
}

/// All of them, by name.
pub fn all() -> Vec<(&'static str, Vec<u8>)> {
    vec![
        ("all objects and blocks", everything()),
        ("as many datasets", datasets()),
        ("tree of level 8", deep()),
    ]
}
