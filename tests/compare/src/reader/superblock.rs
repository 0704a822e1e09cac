//! The superblock of versions 0 and 1.

use super::bytes::{u16_at, u32_at, u64_at, UNDEFINED};
use super::limits::{LEAST_BYTES, MOST_BYTES};
use super::refusal::{ask, Read, Refusal};

const SIGNATURE: [u8; 8] = [0x89, 0x48, 0x44, 0x46, 0x0d, 0x0a, 0x1a, 0x0a];

/// What the walks need of it.
#[derive(Clone, Copy)]
pub struct Superblock {
    pub length: u64,
    pub leaf_k: u64,
    pub internal_k: u64,
    pub end: u64,
    pub root: u64,
}

pub fn length_in_range(image: &[u8]) -> bool {
    (LEAST_BYTES..=MOST_BYTES).contains(&image.len())
}

/// "1, 2, 3, 4 for the superblock"
pub fn read(image: &[u8]) -> Read<Superblock> {
    ask(length_in_range(image), Refusal::ImageLength)?;
    ask(image[..8] == SIGNATURE, Refusal::NoSignature)?;
    let version = image[8];
    ask(version <= 1, Refusal::NotRead)?;
    // "4 more after byte 23"
    let shift = if version == 1 { 4 } else { 0 };
    read_what_is_not_read_here(image, shift)?;
    let superblock = Superblock {
        length: 96 + shift as u64,
        leaf_k: u64::from(u16_at(image, 16)),
        internal_k: u64::from(u16_at(image, 18)),
        end: u64_at(image, 40 + shift),
        root: u64_at(image, 64 + shift),
    };
    let root_type = u32_at(image, 72 + shift);
    let sound = image.len() as u64 >= superblock.length
        && superblock.leaf_k > 0
        && superblock.internal_k > 0
        && root_type <= 1
        && superblock.end <= image.len() as u64;
    ask(sound, Refusal::BadSuperblock)?;
    Ok(superblock)
}

/// All that gives 3 after the version: it lies in the first 96 bytes in both versions.
fn read_what_is_not_read_here(image: &[u8], shift: usize) -> Read<()> {
    // "Bytes 9, 10, 12 are 0; byte 13 and 14 are 8"
    let versions = image[9] == 0 && image[10] == 0 && image[12] == 0;
    let widths = image[13] == 8 && image[14] == 8;
    // "base address 0", "Free-space and driver must be undefined, else 3"
    let base = u64_at(image, 24 + shift) == 0;
    let free_space = u64_at(image, 32 + shift) == UNDEFINED;
    let driver = u64_at(image, 48 + shift) == UNDEFINED;
    ask(
        versions && widths && base && free_space && driver,
        Refusal::NotRead,
    )
}
