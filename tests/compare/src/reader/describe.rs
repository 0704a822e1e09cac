//! Dataset description.

use super::blocks::Blocks;
use super::dataset::{self, Dataset, Datatype, MOST_DIMENSIONS};
use super::header::Kind;
use super::lookup::{find, Found};
use super::refusal::{Refusal, Stop, Walked, NOWHERE};

/// The fields of a description; "those not given are 0".
#[derive(Clone, PartialEq, Eq, Debug, Default)]
pub struct Description {
    pub rank: u64,
    pub sizes: [u64; MOST_DIMENSIONS],
    pub maxima: [u64; MOST_DIMENSIONS],
    pub class: u32,
    pub version: u32,
    pub class_bits: u32,
    pub element_size: u32,
    pub shared_address: u64,
    pub layout_class: u32,
    pub data_address: u64,
    pub data_size: u64,
}

#[derive(Clone, PartialEq, Eq, Debug, Default)]
pub struct DescribeReply {
    pub number: u32,
    /// As in the audit.
    pub met: u64,
    pub block_count: u64,
    pub description: Description,
    pub list: Vec<u64>,
}

/// What a finished description knows.
pub struct Described {
    pub blocks: Blocks,
    pub description: Description,
}

pub fn describe(image: &[u8], path: &[u8], lent_words: usize) -> DescribeReply {
    match run(image, path, super::room(lent_words)) {
        Ok(described) => DescribeReply {
            number: 0,
            met: 0,
            block_count: described.blocks.entered().len() as u64,
            list: described.blocks.list(lent_words),
            description: described.description,
        },
        Err(stop) => DescribeReply {
            number: stop.number(),
            met: stop.met(),
            list: vec![0; lent_words],
            ..DescribeReply::default()
        },
    }
}

const NO_DATASET: Stop = Stop::Fault(Refusal::NoDataset, NOWHERE);

/// "Description looks up (20 unless kind 2), then reads the dataset's messages on the header's list, enters its data
/// and leaves that list."
pub fn run(image: &[u8], path: &[u8], room: usize) -> Walked<Described> {
    let found = find(image, path, room)?;
    let Found::Object {
        header, mut blocks, ..
    } = found
    else {
        return Err(NO_DATASET);
    };
    let Kind::Dataset {
        space,
        datatype,
        layout,
    } = header.kind
    else {
        return Err(NO_DATASET);
    };
    // "reported by address and not followed"
    let dataset = dataset::read(&mut blocks, [space, datatype, layout], |_| Ok(()))?;
    Ok(Described {
        description: fields(&dataset),
        blocks,
    })
}

fn fields(dataset: &Dataset) -> Description {
    let mut description = Description {
        rank: dataset.space.rank as u64,
        sizes: dataset.space.sizes,
        maxima: dataset.space.maxima,
        layout_class: u32::from(dataset.layout.class),
        data_address: dataset.layout.address,
        data_size: dataset.layout.size,
        ..Description::default()
    };
    match dataset.datatype {
        Datatype::Own {
            class,
            version,
            bits,
            size,
        } => {
            description.class = u32::from(class);
            description.version = u32::from(version);
            description.class_bits = bits;
            description.element_size = size;
        }
        Datatype::Shared { address } => description.shared_address = address,
    }
    description
}
