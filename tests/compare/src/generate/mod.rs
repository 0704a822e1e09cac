//! Files to read: a builder in which each structure writes itself and records its fields, plans of random and special
//! files, and damage to single fields and bytes.

pub mod asked;
pub mod attribute;
pub mod block_orders;
mod bodies;
pub mod corpus;
pub mod damage;
pub mod data_blocks;
pub mod dataset;
mod edges;
mod faults;
pub mod files;
pub mod group;
pub mod header;
pub mod hostile;
pub mod limits;
pub mod many_objects;
pub mod moved;
mod orders;
pub mod paths;
pub mod plan;
pub mod random;
pub mod segments;
pub mod sharing;
pub mod sheet;
pub mod small;
pub mod special;
pub mod superblock;
pub mod write;

/// The undefined address.
pub const UNDEFINED: u64 = u64::MAX;
