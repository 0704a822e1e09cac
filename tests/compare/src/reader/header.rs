//! Object headers of version 1 with their continuations, and the kinds of objects.

use super::blocks::Blocks;
use super::bytes::{u16_at, u32_at, u64_at};
use super::refusal::{ask, Located, Part, Read, Refusal, Site, Walked};

/// A message body: "handed to its reader as a part of the image and no reader sees beyond it".
#[derive(Clone, Copy)]
pub struct Body<'a> {
    pub bytes: &'a [u8],
    /// Its first byte's place in the image.
    pub place: usize,
    /// The address of the header or continuation that its message stands in.
    pub block: u64,
    pub shared: bool,
}

impl Body<'_> {
    /// Where its message stands, which has 8 bytes before the body.
    pub fn message(&self) -> Site {
        Site {
            block: self.block,
            place: self.place as u64 - 8,
        }
    }
}

#[derive(Clone, Copy)]
pub enum Kind<'a> {
    Group {
        tree: u64,
        heap: u64,
    },
    Dataset {
        space: Body<'a>,
        datatype: Body<'a>,
        layout: Body<'a>,
    },
    Committed,
}

impl Kind<'_> {
    /// "kind (1 group, 2 dataset, 3 committed datatype, 4 symbolic link)"
    pub fn number(&self) -> u32 {
        match self {
            Kind::Group { .. } => 1,
            Kind::Dataset { .. } => 2,
            Kind::Committed => 3,
        }
    }
}

pub struct Header<'a> {
    pub stored: u32,
    pub kind: Kind<'a>,
}

/// How often a message was met and the last one's body.
#[derive(Clone, Copy, Default)]
struct Met<'a> {
    times: u32,
    body: Option<Body<'a>>,
}

impl<'a> Met<'a> {
    fn add(&mut self, body: Body<'a>) {
        self.times += 1;
        self.body = Some(body);
    }
}

#[derive(Default)]
struct Messages<'a> {
    total: u64,
    spaces: Met<'a>,
    datatypes: Met<'a>,
    layouts: Met<'a>,
    tables: Met<'a>,
    /// Continuations in the order met: a queue.
    continuations: Vec<(u64, u64)>,
}

/// "header block, then continuations in order met, each read whole before the next; kind". `each` is called with every
/// attribute message where it is met.
pub fn read<'a, F>(
    image: &'a [u8],
    blocks: &mut Blocks,
    address: u64,
    mut each: F,
) -> Walked<Header<'a>>
where
    F: FnMut(&'a [u8]) -> Read<()>,
{
    // 16 bytes inside, then the length, whatever the version.
    let place = blocks.prefix(Part::Header, address, 16)?;
    let length = 16 + u64::from(u32_at(image, place + 8));
    let block = blocks.enter(Part::Header, address, length)?;
    let whole = Site::block(address);
    ask(image[place] == 1, Refusal::NotRead).at(whole)?;
    let mut messages = Messages::default();
    messages.read_block(&image[block.clone()], block.start, 16, &mut each)?;
    let mut turn = 0;
    while let Some(&(address, length)) = messages.continuations.get(turn) {
        let block = blocks.enter(Part::Continuation, address, length)?;
        messages.read_block(&image[block.clone()], block.start, 0, &mut each)?;
        turn += 1;
    }
    // "their total over all blocks equals the message count, else 10"
    let count = u64::from(u16_at(image, place + 2));
    ask(messages.total == count, Refusal::BadHeader).at(whole)?;
    Ok(Header {
        stored: u32_at(image, place + 4),
        kind: messages.kind().at(whole)?,
    })
}

impl<'a> Messages<'a> {
    /// "Messages fill each block exactly": from `at` on to the block's end. The block lies at `place`.
    fn read_block<F>(
        &mut self,
        block: &'a [u8],
        place: usize,
        at: usize,
        each: &mut F,
    ) -> Walked<()>
    where
        F: FnMut(&'a [u8]) -> Read<()>,
    {
        let mut rest = &block[at..];
        while !rest.is_empty() {
            let at = block.len() - rest.len();
            let site = Site::inside(place as u64, at);
            rest = self.read_message(rest, site, each).at(site)?;
        }
        Ok(())
    }

    /// The first message of the rest of a block; gives what is behind it.
    fn read_message<F>(&mut self, rest: &'a [u8], site: Site, each: &mut F) -> Read<&'a [u8]>
    where
        F: FnMut(&'a [u8]) -> Read<()>,
    {
        let (head, rest) = rest.split_first_chunk().ok_or(Refusal::BadHeader)?;
        // One load: "type 2, size 2, flags 1, reserved 3".
        let head = u64::from_le_bytes(*head);
        let kind = head as u16;
        ask(read_here(kind), Refusal::NotRead)?;
        let size = (head >> 16) as u16;
        // "size a multiple of 8"
        ask(size.is_multiple_of(8), Refusal::BadHeader)?;
        let parts = rest.split_at_checked(usize::from(size));
        let (bytes, rest) = parts.ok_or(Refusal::BadHeader)?;
        // "The shared flag (bit 1) is allowed on 0x0003 only, else 3."
        let shared = head >> 32 & 2 != 0;
        ask(!shared || kind == 0x0003, Refusal::NotRead)?;
        match kind {
            0x000c => each(bytes)?,
            0x0001 | 0x0003 | 0x0008 | 0x0010 | 0x0011 => {
                let body = Body {
                    bytes,
                    place: site.place as usize + 8,
                    block: site.block,
                    shared,
                };
                self.take(kind, body)?;
            }
            _ => {}
        }
        self.total += 1;
        Ok(rest)
    }

    fn take(&mut self, kind: u16, body: Body<'a>) -> Read<()> {
        match kind {
            0x0001 => self.spaces.add(body),
            0x0003 => self.datatypes.add(body),
            0x0008 => self.layouts.add(body),
            0x0010 => {
                // "continuation (address, length of 8 or more)", "A 0x0010 or 0x0011 body too short gives 10"
                ask(body.bytes.len() >= 16, Refusal::BadHeader)?;
                let length = u64_at(body.bytes, 8);
                ask(length >= 8, Refusal::BadHeader)?;
                self.continuations.push((u64_at(body.bytes, 0), length));
            }
            0x0011 => {
                ask(body.bytes.len() >= 16, Refusal::BadHeader)?;
                self.tables.add(body);
            }
            _ => {}
        }
        Ok(())
    }

    /// "A group has one 0x0011 and none of 1, 3, 8; a dataset one each of 1, 3, 8 and no 0x0011; a committed datatype
    /// one 3 alone of these, its body not read. Anything else gives 10."
    fn kind(&self) -> Read<Kind<'a>> {
        let times = [
            self.tables.times,
            self.spaces.times,
            self.datatypes.times,
            self.layouts.times,
        ];
        let bodies = (self.spaces.body, self.datatypes.body, self.layouts.body);
        match (times, self.tables.body, bodies) {
            ([1, 0, 0, 0], Some(table), _) => Ok(Kind::Group {
                tree: u64_at(table.bytes, 0),
                heap: u64_at(table.bytes, 8),
            }),
            ([0, 1, 1, 1], _, (Some(space), Some(datatype), Some(layout))) => Ok(Kind::Dataset {
                space,
                datatype,
                layout,
            }),
            ([0, 0, 1, 0], _, (_, Some(datatype), _)) => {
                // "a shared flag on a committed datatype's own message" gives 10.
                ask(!datatype.shared, Refusal::BadHeader)?;
                Ok(Kind::Committed)
            }
            _ => Err(Refusal::BadHeader),
        }
    }
}

/// "0x0000, 0x0004, 0x0005, 0x000c, 0x000d, 0x000e, 0x0012 are stepped over; 0x0001 dataspace, 0x0003 datatype, 0x0008
/// layout, 0x0010 continuation, 0x0011 symbol table are read; all others give 3."
fn read_here(kind: u16) -> bool {
    matches!(
        kind,
        0x0000 | 0x0001 | 0x0003..=0x0005 | 0x0008 | 0x000c..=0x000e | 0x0010..=0x0012
    )
}
