//! Attribute messages of versions 1 to 3, as far as an audit reads them: which committed datatype one shares. "attributes
//! whose parts leave their body, or whose shared part is too short, give 10"

use super::bytes::{u16_at, u64_at};
use super::refusal::{ask, Read, Refusal};

/// The size of a shared part: version, type and address.
const SHARED_PART: usize = 10;

/// The address of the committed datatype whose part stands where a datatype would, if the flags say so. The name, the
/// character set, an unshared datatype, the dataspace and the data aren't read.
pub fn shared_address(body: &[u8]) -> Read<Option<u64>> {
    // A message's size is a multiple of 8: without these 8 there is no byte at all.
    ask(body.len() >= 8, Refusal::BadHeader)?;
    let version = body[0];
    ask((1..=3).contains(&version), Refusal::NotRead)?;
    // Version 1 has a reserved byte here.
    let flags = if version == 1 { 0 } else { body[1] };
    // Bit 0 is a shared datatype; bit 1, a shared dataspace, and the others aren't read.
    ask(flags <= 1, Refusal::NotRead)?;
    let parts = Parts::of(body);
    ask(parts.end() <= body.len(), Refusal::BadHeader)?;
    if flags == 0 {
        return Ok(None);
    }
    ask(parts.datatype >= SHARED_PART, Refusal::BadHeader)?;
    let part = &body[parts.start + parts.name..];
    // "version 2, or version 3 with type 2, address at byte 2; others give 3"
    let read_here = part[0] == 2 || part[0] == 3 && part[1] == 2;
    ask(read_here, Refusal::NotRead)?;
    Ok(Some(u64_at(part, 2)))
}

/// Where the parts of an attribute begin, and how many bytes each takes.
struct Parts {
    start: usize,
    name: usize,
    datatype: usize,
    space: usize,
}

impl Parts {
    fn of(body: &[u8]) -> Parts {
        let size = |at| usize::from(u16_at(body, at));
        let (name, datatype, space) = (size(2), size(4), size(6));
        match body[0] {
            // Each part is padded to a multiple of 8.
            1 => Parts {
                start: 8,
                name: name.next_multiple_of(8),
                datatype: datatype.next_multiple_of(8),
                space: space.next_multiple_of(8),
            },
            version => Parts {
                // Version 3 has a byte more, for the name's character set.
                start: if version == 3 { 9 } else { 8 },
                name,
                datatype,
                space,
            },
        }
    }

    fn end(&self) -> usize {
        self.start + self.name + self.datatype + self.space
    }
}
