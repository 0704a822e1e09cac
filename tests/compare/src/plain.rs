//! A walk that checks nothing, over images in which all is sound up to the first block that meets others: what it enters and
//! for which object, and which blocks that one meets. A map of the image's bytes tells who has them, so that neither lengths
//! nor addresses are compared.

use std::collections::HashSet;
use std::fmt::Display;

/// A block entered: address, length, kind and owner, as in the list.
pub type Four = [u64; 4];

/// The first block that shares bytes with others.
#[derive(Clone, PartialEq, Eq, Debug)]
pub struct Meeting {
    pub block: Four,
    /// The blocks that it meets, in the order in which they were entered.
    pub met: Vec<Four>,
}

impl Meeting {
    /// The address of the first block entered that is met.
    pub fn first(&self) -> u64 {
        self.met[0][0]
    }
}

/// What was met with 6, over many calls.
#[derive(Default)]
pub struct Meetings {
    times: u64,
    /// The addresses of the blocks met first.
    addresses: HashSet<u64>,
    /// So many met several blocks.
    several: u64,
    /// So many first met a block that isn't the lowest of them.
    higher: u64,
}

impl Meetings {
    /// A reply's number and the block that it names: with 6 the one that the plain walk meets first, with any other 0.
    pub fn check<T>(
        &mut self,
        title: &dyn Display,
        (number, met): (u32, u64),
        walk: impl FnOnce() -> Step<T>,
    ) {
        if number != 6 {
            assert_eq!(met, 0, "{title}");
            return;
        }
        let Err(meeting) = walk() else {
            panic!("{title}: no two blocks meet");
        };
        assert_eq!(met, meeting.first(), "{title}");
        self.times += 1;
        self.addresses.insert(met);
        self.several += u64::from(meeting.met.len() > 1);
        let lower = meeting.met.iter().any(|block| block[0] < met);
        self.higher += u64::from(lower);
    }

    /// Prints how many there are, and asks for at least so many: of all, of addresses, of those that met several blocks, and
    /// of those that first met another than the lowest.
    pub fn are_at_least(&self, title: &str, least: [u64; 4]) {
        let addresses = self.addresses.len() as u64;
        let found = [self.times, addresses, self.several, self.higher];
        println!("{title}: 6s, addresses met, met several, not the lowest first: {found:?}");
        for (found, least) in found.iter().zip(least) {
            assert!(*found >= least, "{title}: {found} is under {least}");
        }
    }
}

type Step<T> = Result<T, Meeting>;

/// An audit that came to its end.
pub struct Audited {
    pub entered: Vec<Four>,
    /// The address of each object, in order of discovery.
    pub objects: Vec<u64>,
    /// So many hard links and sharings.
    pub references: u64,
}

/// An object, by the messages of its header. Those that a lookup doesn't check are given by the places of their bodies.
struct Header {
    attributes: Vec<u64>,
    content: Content,
}

enum Content {
    Group {
        tree: u64,
        heap: u64,
    },
    Dataset {
        datatype: u64,
        is_shared: bool,
        layout: u64,
    },
    Committed,
}

/// A name and the address that it leads to, if it is no symbolic link.
type Link<'a> = (&'a [u8], Option<u64>);

struct Plain<'a> {
    image: &'a [u8],
    entered: Vec<Four>,
    /// For each byte the place in the list of the block that has it, counted from 1; 0 where none has.
    map: Vec<u16>,
    object: u64,
}

/// The audit of an image whose answer is 0 or 6.
pub fn audit(image: &[u8]) -> Step<Audited> {
    let mut plain = Plain::start(image)?;
    let mut objects = vec![plain.root()];
    let mut references = 0;
    let mut turn = 0;
    while turn < objects.len() {
        plain.object = turn as u64;
        let header = plain.header(objects[turn])?;
        let attributes = header.attributes.iter();
        let mut found: Vec<u64> = attributes
            .filter_map(|body| plain.shared_by(*body))
            .collect();
        match header.content {
            Content::Group { tree, heap } => {
                let links = plain.group(tree, heap)?;
                found.extend(links.iter().filter_map(|link| link.1));
            }
            Content::Dataset {
                datatype,
                is_shared,
                layout,
            } => {
                found.extend(is_shared.then(|| plain.number(datatype + 2, 8)));
                plain.data(layout)?;
            }
            Content::Committed => {}
        }
        references += found.len() as u64;
        for address in found {
            if !objects.contains(&address) {
                objects.push(address);
            }
        }
        turn += 1;
    }
    Ok(Audited {
        entered: plain.entered,
        objects,
        references,
    })
}

/// The blocks that the last walk of a lookup has entered, where the answer is 0 or 6; a description enters its data too. Those
/// of a symbolic link are the group's.
pub fn lookup(image: &[u8], path: &[u8], describes: bool) -> Step<Vec<Four>> {
    let mut address = Plain::start(image)?.root();
    let components = path.split(|byte| *byte == b'/');
    for component in components.filter(|component| !component.is_empty()) {
        let mut plain = Plain::start(image)?;
        let Content::Group { tree, heap } = plain.header(address)?.content else {
            panic!("no group before {}", component.escape_ascii());
        };
        let links = plain.group(tree, heap)?;
        let mut named = links.iter().filter(|link| link.0 == component);
        match named.next().expect("a link of that name").1 {
            Some(next) => address = next,
            None => return Ok(plain.entered),
        }
    }
    let mut plain = Plain::start(image)?;
    let content = plain.header(address)?.content;
    if let (true, Content::Dataset { layout, .. }) = (describes, content) {
        plain.data(layout)?;
    }
    Ok(plain.entered)
}

impl<'a> Plain<'a> {
    fn start(image: &'a [u8]) -> Step<Plain<'a>> {
        let mut plain = Plain {
            image,
            entered: Vec::new(),
            map: vec![0; image.len()],
            object: u64::MAX,
        };
        let length = 96 + plain.shift();
        plain.enter(1, 0, length)?;
        plain.object = 0;
        Ok(plain)
    }

    fn number(&self, at: u64, width: usize) -> u64 {
        let bytes = self.image[at as usize..][..width].iter().rev();
        bytes.fold(0, |number, byte| number << 8 | u64::from(*byte))
    }

    /// A superblock of version 1 has 4 bytes more.
    fn shift(&self) -> u64 {
        4 * u64::from(self.image[8])
    }

    fn root(&self) -> u64 {
        self.number(64 + self.shift(), 8)
    }

    fn enter(&mut self, kind: u64, address: u64, length: u64) -> Step<()> {
        let block = [address, length, kind, self.object];
        let bytes = &mut self.map[address as usize..][..length as usize];
        let mut met: Vec<u16> = bytes.iter().copied().filter(|place| *place > 0).collect();
        if !met.is_empty() {
            met.sort_unstable();
            met.dedup();
            let met = met.iter().map(|place| self.entered[*place as usize - 1]);
            return Err(Meeting {
                block,
                met: met.collect(),
            });
        }
        self.entered.push(block);
        bytes.fill(self.entered.len() as u16);
        Ok(())
    }

    fn header(&mut self, address: u64) -> Step<Header> {
        let length = 16 + self.number(address + 8, 4);
        self.enter(2, address, length)?;
        let mut parts = vec![(address + 16, length - 16)];
        let mut attributes = Vec::new();
        let (mut table, mut datatype, mut layout) = (None, None, None);
        let mut turn = 0;
        while turn < parts.len() {
            let (mut at, length) = parts[turn];
            if turn > 0 {
                self.enter(3, at, length)?;
            }
            let end = at + length;
            while at < end {
                let body = at + 8;
                match self.number(at, 2) {
                    0x03 => datatype = Some((body, self.number(at + 4, 1) & 2 != 0)),
                    0x08 => layout = Some(body),
                    0x0c => attributes.push(body),
                    0x10 => parts.push((self.number(body, 8), self.number(body + 8, 8))),
                    0x11 => table = Some((self.number(body, 8), self.number(body + 8, 8))),
                    _ => {}
                }
                at = body + self.number(at + 2, 2);
            }
            turn += 1;
        }
        let content = match (table, datatype, layout) {
            (Some((tree, heap)), ..) => Content::Group { tree, heap },
            (_, Some((datatype, is_shared)), Some(layout)) => Content::Dataset {
                datatype,
                is_shared,
                layout,
            },
            _ => Content::Committed,
        };
        Ok(Header {
            attributes,
            content,
        })
    }

    /// Version 1 of an attribute has no flags; version 3 has a byte more before the name.
    fn shared_by(&self, body: u64) -> Option<u64> {
        let version = self.number(body, 1);
        let shares = version > 1 && self.number(body + 1, 1) & 1 != 0;
        let name = if version == 3 { 9 } else { 8 };
        shares.then(|| self.number(body + name + self.number(body + 2, 2) + 2, 8))
    }

    /// The data that a layout names. Compact data is no block of its own.
    fn data(&mut self, layout: u64) -> Step<()> {
        if self.number(layout + 1, 1) == 0 {
            return Ok(());
        }
        let (address, length) = (self.number(layout + 2, 8), self.number(layout + 10, 8));
        if address != u64::MAX && length > 0 {
            self.enter(8, address, length)?;
        }
        Ok(())
    }

    fn group(&mut self, tree: u64, heap: u64) -> Step<Vec<Link<'a>>> {
        self.enter(4, heap, 32)?;
        let segment = self.number(heap + 24, 8);
        self.enter(5, segment, self.number(heap + 8, 8))?;
        let mut links = Vec::new();
        self.node(tree, segment, &mut links)?;
        Ok(links)
    }

    fn node(&mut self, node: u64, segment: u64, links: &mut Vec<Link<'a>>) -> Step<()> {
        self.enter(6, node, 32 + 32 * self.number(18, 2))?;
        let level = self.number(node + 5, 1);
        for child in 0..self.number(node + 6, 2) {
            let child = self.number(node + 32 + 16 * child, 8);
            if level > 0 {
                self.node(child, segment, links)?;
            } else {
                self.symbols(child, segment, links)?;
            }
        }
        Ok(())
    }

    fn symbols(&mut self, node: u64, segment: u64, links: &mut Vec<Link<'a>>) -> Step<()> {
        self.enter(7, node, 8 + 80 * self.number(16, 2))?;
        for entry in 0..self.number(node + 6, 2) {
            let entry = node + 8 + 40 * entry;
            let name = &self.image[(segment + self.number(entry, 8)) as usize..];
            let name = name.split(|byte| *byte == 0).next().unwrap_or(name);
            let hard = self.number(entry + 16, 4) < 2;
            links.push((name, hard.then(|| self.number(entry + 8, 8))));
        }
        Ok(())
    }
}
