//! The superblock.

use super::sheet::Sheet;
use super::UNDEFINED;

pub struct Superblock {
    pub version: u8,
    pub leaf_k: u16,
    pub internal_k: u16,
    pub end: u64,
    pub root: u64,
}

pub fn length(version: u8) -> u64 {
    if version == 1 {
        100
    } else {
        96
    }
}

impl Superblock {
    pub fn write(&self, sheet: &mut Sheet) {
        sheet.text("superblock signature", 0, b"\x89HDF\r\n\x1a\n");
        sheet.number("superblock version", 8, 1, u64::from(self.version));
        sheet.number("superblock free space version", 9, 1, 0);
        sheet.number("superblock root version", 10, 1, 0);
        sheet.number("superblock reserved", 11, 1, 0);
        sheet.number("superblock shared version", 12, 1, 0);
        sheet.number("superblock size of offsets", 13, 1, 8);
        sheet.number("superblock size of lengths", 14, 1, 8);
        sheet.number("superblock reserved", 15, 1, 0);
        sheet.number("superblock leaf K", 16, 2, u64::from(self.leaf_k));
        sheet.number("superblock internal K", 18, 2, u64::from(self.internal_k));
        sheet.number("superblock flags", 20, 4, 0);
        let shift = length(self.version) - 96;
        if shift == 4 {
            sheet.number("superblock indexed K", 24, 2, 32);
        }
        self.write_addresses(sheet, 24 + shift);
    }

    fn write_addresses(&self, sheet: &mut Sheet, at: u64) {
        sheet.number("superblock base", at, 8, 0);
        sheet.number("superblock free space", at + 8, 8, UNDEFINED);
        sheet.number("superblock end of file", at + 16, 8, self.end);
        sheet.number("superblock driver", at + 24, 8, UNDEFINED);
        sheet.number("root name", at + 32, 8, 0);
        sheet.number("root address", at + 40, 8, self.root);
        sheet.number("root type", at + 48, 4, 0);
        sheet.number("root reserved", at + 52, 4, 0);
        sheet.number("root scratch", at + 56, 8, 0);
        sheet.number("root scratch", at + 64, 8, 0);
    }
}
