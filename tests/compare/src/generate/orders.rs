//! Case H with two faults: the first met decides.

use super::small;
use super::special::{special, Special};

/// A field's name and number, and its new value.
type Change = (&'static str, usize, u64);

const CASES: [(&[Change], u32); 25] = [
    (
        &[("superblock version", 0, 2), ("superblock leaf K", 0, 0)],
        3,
    ),
    (
        &[("superblock leaf K", 0, 0), ("superblock driver", 0, 0)],
        3,
    ),
    (
        &[("superblock end of file", 0, 90), ("root address", 0, 5000)],
        5,
    ),
    (&[("header version", 0, 2), ("header size", 0, 9000)], 5),
    (&[("root address", 0, 80), ("header version", 0, 2)], 6),
    (&[("header version", 0, 2), ("message type", 0, 2)], 3),
    (&[("message type", 0, 2), ("message size", 0, 4)], 3),
    (&[("message size", 0, 4), ("message flags", 0, 2)], 10),
    (&[("message size", 0, 24), ("message flags", 0, 2)], 10),
    (&[("message size", 0, 8), ("message flags", 0, 2)], 3),
    (&[("header messages", 0, 2), ("table heap", 0, 9000)], 10),
    (&[("heap version", 0, 1), ("heap segment size", 0, 0)], 7),
    (&[("heap segment size", 0, 4), ("heap segment", 0, 9000)], 9),
    (&[("heap segment", 0, 9000), ("heap free head", 0, 9000)], 5),
    (&[("heap free head", 0, 9000), ("table tree", 0, 9000)], 9),
    (&[("tree level", 0, 9), ("tree key", 0, 9000)], 8),
    (&[("tree key", 1, 9000), ("tree child", 0, 9000)], 9),
    (&[("symbols version", 0, 2), ("symbols count", 0, 9)], 7),
    (&[("entry name", 0, 16), ("entry type", 0, 3)], 8),
    (&[("entry name", 1, 90), ("entry type", 0, 3)], 8),
    (
        &[
            ("entry type", 0, 2),
            ("entry scratch", 0, 90),
            ("entry type", 1, 7),
        ],
        9,
    ),
    (
        &[
            ("entry name", 1, 8),
            ("entry type", 1, 2),
            ("entry scratch", 1, 90),
        ],
        8,
    ),
    (&[("dataspace version", 0, 2), ("datatype size", 0, 0)], 3),
    (&[("datatype size", 0, 0), ("layout version", 0, 4)], 11),
    (&[("layout size", 0, 5), ("layout address", 0, 9000)], 11),
];

pub fn orders() -> Vec<Special> {
    CASES
        .into_iter()
        .map(|(changes, number)| {
            let mut sheet = small::h();
            for (name, nth, value) in changes {
                sheet = sheet.with(name, *nth, *value);
            }
            special(format!("{changes:?}"), sheet, number)
        })
        .collect()
}
