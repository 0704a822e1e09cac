//! The separate reader. Comments in quotes are sentences of documents 01 and 02, in the damage report those of its request.

mod attribute;
mod audit;
mod blocks;
mod bytes;
mod dataset;
mod describe;
pub mod front;
mod gaps;
mod group;
mod header;
mod heap;
mod limits;
mod lookup;
mod mend;
mod object;
mod refusal;
mod report;
mod superblock;
mod table;
mod text;

pub use audit::{audit, audit_stop, AuditReply};
pub use blocks::{Block, BLOCK_WORDS, SUPERBLOCK_OWNER};
pub use describe::{describe, DescribeReply, Description};
pub use limits::{LEAST_BYTES, MOST_BLOCKS, MOST_BYTES, MOST_OBJECTS};
pub use lookup::{lookup, lookup_stop, LookupReply};
pub use mend::{mend, undo, MendReply, UndoReply};
pub use object::object_alone;
pub use refusal::{Part, Refusal, Site, Stop};
pub use report::{report, ReportReply};
pub use table::Object;

/// The lesser of the limit and the whole fours lent: "Room and document 01's pairs are counted in fours."
pub fn room(lent_words: usize) -> usize {
    (lent_words / BLOCK_WORDS).min(MOST_BLOCKS)
}
