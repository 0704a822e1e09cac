//! What a file is to hold, before it is written, and what an audit of it has to say.

use super::dataset::Dataset;
use super::header::{self, Message};
use super::write::planned_header;

#[derive(Clone, Debug)]
pub struct Plan {
    pub version: u8,
    pub leaf_k: u16,
    pub internal_k: u16,
    /// The root is the first.
    pub objects: Vec<Object>,
    /// Up to so many bytes lie unused between two blocks.
    pub gap: u64,
    /// So many bytes follow the end of the file.
    pub tail: u64,
}

#[derive(Clone, Debug)]
pub struct Object {
    pub content: Content,
    /// The stored count is the true one plus this.
    pub miscount: i64,
    /// Attributes, and messages that are stepped over.
    pub steps: Vec<Message>,
    /// For every continuation, the number of the block that names it: the header's is 0.
    pub parents: Vec<usize>,
}

#[derive(Clone, Debug)]
pub enum Content {
    Group(Group),
    Dataset(Dataset),
    Committed,
}

#[derive(Clone, Debug, Default)]
pub struct Group {
    /// By name, each once.
    pub links: Vec<Link>,
    /// The level of the tree's root, at least.
    pub level: u8,
    /// So many free blocks in the heap.
    pub free: u64,
    /// Nodes are filled up.
    pub full: bool,
    /// Keys are strings of their own, not names.
    pub own_keys: bool,
}

#[derive(Clone, PartialEq, Eq, Debug)]
pub struct Link {
    pub name: Vec<u8>,
    pub target: Target,
}

#[derive(Clone, PartialEq, Eq, Debug)]
pub enum Target {
    Object(usize),
    Address(u64),
    Soft(Vec<u8>),
}

impl Link {
    fn object(&self) -> Option<usize> {
        match self.target {
            Target::Object(number) => Some(number),
            _ => None,
        }
    }
}

impl Object {
    pub fn new(content: Content) -> Object {
        Object {
            content,
            miscount: 0,
            steps: Vec::new(),
            parents: Vec::new(),
        }
    }
}

impl Group {
    /// Sorts the links and drops those whose name stands already.
    pub fn settle(&mut self) {
        self.links.sort_by(|one, other| one.name.cmp(&other.name));
        self.links.dedup_by(|one, other| one.name == other.name);
    }
}

impl Plan {
    pub fn new(objects: Vec<Object>) -> Plan {
        Plan {
            version: 0,
            leaf_k: 4,
            internal_k: 16,
            objects,
            gap: 0,
            tail: 0,
        }
    }

    /// The objects of the walk in order of discovery, each with its true count: hard links and sharings.
    pub fn walk(&self) -> Vec<(usize, u32)> {
        let mut found = vec![(0, 1)];
        let mut turn = 0;
        while turn < found.len() {
            for number in references(&self.objects[found[turn].0]) {
                match found.iter_mut().find(|object| object.0 == number) {
                    Some(object) => object.1 += 1,
                    None => found.push((number, 1)),
                }
            }
            turn += 1;
        }
        found
    }
}

/// The objects that an object shares or links to, in the order in which an audit meets them.
fn references(object: &Object) -> Vec<usize> {
    let blocks = planned_header(object);
    let messages = header::in_order(&blocks);
    let mut references: Vec<usize> = messages
        .iter()
        .filter_map(|message| message.shares)
        .collect();
    match &object.content {
        Content::Group(group) => references.extend(group.links.iter().filter_map(Link::object)),
        Content::Dataset(dataset) => references.extend(dataset.datatype.object()),
        Content::Committed => {}
    }
    references
}
