//! The messages of a dataset: dataspace, datatype and layout.

use super::blocks::Blocks;
use super::bytes::{u16_at, u32_at, u64_at, UNDEFINED};
use super::header::Body;
use super::refusal::{ask, Located, Part, Read, Refusal, Walked};

/// "Dimensions 0 to 32, else 11."
pub const MOST_DIMENSIONS: usize = 32;

pub struct Space {
    pub rank: usize,
    pub sizes: [u64; MOST_DIMENSIONS],
    pub maxima: [u64; MOST_DIMENSIONS],
}

pub enum Datatype {
    Own {
        class: u8,
        version: u8,
        bits: u32,
        size: u32,
    },
    Shared {
        address: u64,
    },
}

pub struct Layout {
    pub class: u8,
    pub address: u64,
    pub size: u64,
}

pub struct Dataset {
    pub space: Space,
    pub datatype: Datatype,
    pub layout: Layout,
}

/// "for a dataset its dataspace, datatype, layout, then contiguous bytes if address is defined and length above 0".
/// `share` is called with the address of a shared datatype "where its message is read".
pub fn read<F>(
    blocks: &mut Blocks,
    [space, datatype, layout]: [Body<'_>; 3],
    share: F,
) -> Walked<Dataset>
where
    F: FnOnce(u64) -> Read<()>,
{
    let datatype_at = datatype.message();
    let space = read_space(space.bytes).at(space.message())?;
    let datatype = read_datatype(datatype).at(datatype_at)?;
    if let Datatype::Shared { address } = datatype {
        share(address).at(datatype_at)?;
    }
    let layout_at = layout.message();
    let dataset = Dataset {
        space,
        datatype,
        layout: read_layout(layout).at(layout_at)?,
    };
    ask(dataset.sizes_agree(), Refusal::BadDataset).at(layout_at)?;
    let Layout {
        class,
        address,
        size,
    } = dataset.layout;
    if class == 1 && address != UNDEFINED && size > 0 {
        blocks.enter(Part::Data, address, size)?;
    }
    Ok(dataset)
}

impl Dataset {
    /// "For an unshared datatype, elements times element size, as whole numbers, equals the stored size"
    fn sizes_agree(&self) -> bool {
        let Datatype::Own { size, .. } = self.datatype else {
            return true;
        };
        // Above 128 bits it equals no stored size, unless a later size is 0: then it is 0.
        let sizes = &self.space.sizes[..self.space.rank];
        let bytes = sizes.iter().fold(u128::from(size), |product, size| {
            product.saturating_mul(u128::from(*size))
        });
        bytes == u128::from(self.layout.size)
    }
}

/// The first `length` bytes are there: "one too short gives 11".
fn reaches(body: &[u8], length: usize) -> Read<()> {
    ask(body.len() >= length, Refusal::BadDataset)
}

/// "Dataspace version 1: version, rank, flags, 5 reserved, sizes, maxima if flag bit 0. Other flag bits give 3."
fn read_space(body: &[u8]) -> Read<Space> {
    reaches(body, 1)?;
    ask(body[0] == 1, Refusal::NotRead)?;
    reaches(body, 2)?;
    let rank = usize::from(body[1]);
    ask(rank <= MOST_DIMENSIONS, Refusal::BadDataset)?;
    reaches(body, 3)?;
    let flags = body[2];
    ask(flags <= 1, Refusal::NotRead)?;
    let mut space = Space {
        rank,
        sizes: [0; MOST_DIMENSIONS],
        maxima: [0; MOST_DIMENSIONS],
    };
    reaches(body, 8 + 8 * rank)?;
    for (number, size) in space.sizes[..rank].iter_mut().enumerate() {
        *size = u64_at(body, 8 + 8 * number);
    }
    // "maxima (the sizes where none are stored)"
    space.maxima = space.sizes;
    if flags == 1 {
        reaches(body, 8 + 16 * rank)?;
        for number in 0..rank {
            space.maxima[number] = u64_at(body, 8 + 8 * rank + 8 * number);
            // "A maximum is at least its size."
            let enough = space.maxima[number] >= space.sizes[number];
            ask(enough, Refusal::BadDataset)?;
        }
    }
    Ok(space)
}

fn read_datatype(body: Body<'_>) -> Read<Datatype> {
    if body.shared {
        read_shared(body.bytes)
    } else {
        read_own(body.bytes)
    }
}

/// "A shared datatype (version 2, or version 3 with type 2, address at byte 2; others give 3)"
fn read_shared(body: &[u8]) -> Read<Datatype> {
    reaches(body, 1)?;
    ask(matches!(body[0], 2 | 3), Refusal::NotRead)?;
    reaches(body, 2)?;
    ask(body[0] == 2 || body[1] == 2, Refusal::NotRead)?;
    reaches(body, 10)?;
    Ok(Datatype::Shared {
        address: u64_at(body, 2),
    })
}

/// "Datatype versions 1 to 3, classes 0, 1, 3, 4, 5. Header 8 bytes: class and version, bits 3, size 4 (1 or more)."
fn read_own(body: &[u8]) -> Read<Datatype> {
    reaches(body, 1)?;
    let class = body[0] & 15;
    let version = body[0] >> 4;
    let read_here = (1..=3).contains(&version) && matches!(class, 0 | 1 | 3 | 4 | 5);
    ask(read_here, Refusal::NotRead)?;
    reaches(body, 8)?;
    let size = u32_at(body, 4);
    ask(size >= 1, Refusal::BadDataset)?;
    // "After it classes 0 and 4 have 4 bytes and class 1 has 12, bit offset and precision (2 bytes each) first"
    let more = match class {
        0 | 4 => 4,
        1 => 12,
        _ => 0,
    };
    if more > 0 {
        reaches(body, 8 + more)?;
        let offset = u64::from(u16_at(body, 8));
        let precision = u64::from(u16_at(body, 10));
        // "precision is 1 or more and offset plus precision is at most 8 times size"
        let sound = precision >= 1 && offset + precision <= 8 * u64::from(size);
        ask(sound, Refusal::BadDataset)?;
    }
    Ok(Datatype::Own {
        class,
        version,
        bits: u32_at(body, 0) >> 8,
        size,
    })
}

/// "Layout version 3: compact (size 2, data) or contiguous (address, size). [..] Chunked gives 3."
fn read_layout(body: Body<'_>) -> Read<Layout> {
    let bytes = body.bytes;
    reaches(bytes, 1)?;
    ask(bytes[0] == 3, Refusal::NotRead)?;
    reaches(bytes, 2)?;
    ask(bytes[1] <= 1, Refusal::NotRead)?;
    if bytes[1] == 0 {
        reaches(bytes, 4)?;
        let size = u16_at(bytes, 2);
        reaches(bytes, 4 + usize::from(size))?;
        return Ok(Layout {
            class: 0,
            address: body.place as u64 + 4,
            size: u64::from(size),
        });
    }
    reaches(bytes, 18)?;
    Ok(Layout {
        class: 1,
        address: u64_at(bytes, 2),
        size: u64_at(bytes, 10),
    })
}
