//! Path lookup.

use super::blocks::Blocks;
use super::group::{self, Target};
use super::header::{self, Header, Kind};
use super::refusal::{ask, Located, Read, Refusal, Site, Stop, Walked, NOWHERE};
use super::superblock::{self, Superblock};
use super::text::Text;

#[derive(Clone, PartialEq, Eq, Debug, Default)]
pub struct LookupReply {
    pub number: u32,
    /// As in the audit.
    pub met: u64,
    pub kind: u32,
    pub address: u64,
    pub block_count: u64,
    pub list: Vec<u64>,
}

/// The last object of a path, with its header on a fresh list.
pub enum Found<'a> {
    Object {
        address: u64,
        header: Header<'a>,
        blocks: Blocks,
    },
    SymbolicLink,
}

impl Found<'_> {
    pub fn kind(&self) -> u32 {
        match self {
            Found::Object { header, .. } => header.kind.number(),
            Found::SymbolicLink => 4,
        }
    }

    /// "For a final symbolic link the address is 0 and no header is read."
    pub fn address(&self) -> u64 {
        match self {
            Found::Object { address, .. } => *address,
            Found::SymbolicLink => 0,
        }
    }
}

pub fn lookup(image: &[u8], path: &[u8], lent_words: usize) -> LookupReply {
    // "At lookup's end the list is all zeros and the block count 0."
    let mut reply = LookupReply {
        list: vec![0; lent_words],
        ..LookupReply::default()
    };
    match find(image, path, super::room(lent_words)) {
        Ok(found) => {
            reply.kind = found.kind();
            reply.address = found.address();
        }
        Err(stop) => (reply.number, reply.met) = (stop.number(), stop.met()),
    }
    reply
}

/// Where a lookup stops, if it does. A reply has its number alone, and with 6 the block met.
pub fn lookup_stop(image: &[u8], path: &[u8], lent_words: usize) -> Option<Stop> {
    find(image, path, super::room(lent_words)).err()
}

pub fn find<'a>(image: &'a [u8], path: &[u8], room: usize) -> Walked<Found<'a>> {
    let components = components(path).at(NOWHERE)?;
    let superblock = superblock::read(image).at(Site::block(0))?;
    let mut address = superblock.root;
    let count = components.len();
    for (number, component) in components.into_iter().enumerate() {
        match step(image, &superblock, room, address, component)? {
            Target::Hard(next) => address = next,
            // "symbolic link before the last component"
            Target::Symbolic => {
                ask(number + 1 == count, Refusal::SymbolicLink).at(NOWHERE)?;
                return Ok(Found::SymbolicLink);
            }
        }
    }
    // "the last object's header is then read on a fresh list"
    let mut blocks = Blocks::start(&superblock, room)?;
    let header = header::read(image, &mut blocks, address, stepped_over)?;
    Ok(Found::Object {
        address,
        header,
        blocks,
    })
}

/// "Only the audit reads attribute messages".
fn stepped_over(_attribute: &[u8]) -> Read<()> {
    Ok(())
}

/// "Each component starts a fresh block list (superblock first), and its whole group must be sound".
fn step(
    image: &[u8],
    superblock: &Superblock,
    room: usize,
    address: u64,
    component: &[u8],
) -> Walked<Target> {
    let mut blocks = Blocks::start(superblock, room)?;
    let header = header::read(image, &mut blocks, address, stepped_over)?;
    let Kind::Group { tree, heap } = header.kind else {
        return Err(Stop::Fault(Refusal::NoGroup, NOWHERE));
    };
    let mut found = None;
    let component = Text::new(component);
    group::walk(image, superblock, &mut blocks, (tree, heap), |link| {
        if link.name == component {
            found = Some(link.target);
        }
        Ok(())
    })?;
    found.ok_or(Refusal::NameAbsent).at(NOWHERE)
}

/// "a path is "/" or '/' before each component; any other form, a length outside 1 to 1,024, or a component that is
/// empty, ".", over 255 bytes or holds a NUL gives 14"
fn components(path: &[u8]) -> Read<Vec<&[u8]>> {
    let formed = (1..=1024).contains(&path.len()) && path[0] == b'/';
    ask(formed, Refusal::BadPath)?;
    if path.len() == 1 {
        return Ok(Vec::new());
    }
    let components: Vec<&[u8]> = path[1..].split(|byte| *byte == b'/').collect();
    let sound = components.iter().all(|component| {
        (1..=255).contains(&component.len()) && *component != b"." && !component.contains(&0)
    });
    ask(sound, Refusal::BadPath)?;
    Ok(components)
}
