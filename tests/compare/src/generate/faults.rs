//! A file with every kind of sharing, and its faults in the order in which an audit meets them.

use super::attribute::{Attribute, SHARED_ADDRESS};
use super::header::{self, Message};
use super::sheet::Sheet;
use super::small::{committed_message, sharing_dataset, table, write_group, write_superblock};
use super::special::{special, Special};

/// A field's name and number, and its new value.
type Change = (&'static str, usize, u64);

const ROOT: u64 = 96;
const CONTINUATION: u64 = 200;
const TREE: u64 = 312;
const DATASET: u64 = 1304;
const COMMITTED: u64 = 1488;
const UNNAMED: u64 = 1568;
const END: u64 = 1608;

/// A root group whose header has an attribute that shares "t" and whose continuation has one that shares a committed
/// datatype without a name, one of version 1 and a null message; a dataset "d" with an attribute of version 1, the three
/// messages and an attribute that shares "t", as its datatype does; "t" with an attribute of its own type.
///
/// An audit takes the root, "t", the unnamed datatype and "d" in this order.
pub fn everything() -> Sheet {
    let places = [ROOT, COMMITTED, UNNAMED, DATASET];
    let shared = |version, object| Attribute::shared(version, object).message().placed(&places);
    let own = || Attribute::own(1).message();
    let root = vec![
        vec![table(TREE), shared(2, 1), Message::continuation(1, 0)],
        vec![shared(3, 2), own(), Message::step(0, 0, &[0; 8])],
    ];
    let mut dataset = sharing_dataset(COMMITTED);
    dataset.insert(0, own());
    dataset.push(shared(2, 1));
    let committed = vec![committed_message(), shared(3, 1)];
    let mut sheet = Sheet::default();
    write_superblock(&mut sheet, END);
    header::write(&mut sheet, &[ROOT, CONTINUATION], 1, &root);
    write_group(&mut sheet, TREE, &[(b"d", DATASET), (b"t", COMMITTED)]);
    header::write(&mut sheet, &[DATASET], 1, &[dataset]);
    header::write(&mut sheet, &[COMMITTED], 1, &[committed]);
    header::write(&mut sheet, &[UNNAMED], 1, &[vec![committed_message()]]);
    assert_eq!(sheet.bytes.len() as u64, END);
    sheet
}

/// Faults of that file in the order in which an audit meets them, each with its answer and its place, or that of the block
/// that can't be entered. Fields are counted through the file: messages 0 to 2 are the root's, 3 to 5 the continuation's,
/// 6 to 10 those of "d", 11 and 12 those of "t", 13 the unnamed one's; attribute 0 is the root's, 1 and 2 are the
/// continuation's, 3 and 4 those of "d", 5 that of "t"; those that share are 0 to 3.
const FAULTS: [(&[Change], u32, u64); 65] = [
    (&[("header size", 0, 9000)], 5, 96),
    (&[("header version", 0, 2)], 3, 96),
    (&[("message type", 0, 2)], 3, 112),
    (&[("message size", 0, 12)], 10, 112),
    (&[("message flags", 0, 2)], 3, 112),
    (&[("message type", 1, 2)], 3, 136),
    (&[("message size", 1, 20)], 10, 136),
    (&[("message size", 1, 0x8000)], 10, 136),
    (&[("message flags", 1, 2)], 3, 136),
    // A body of no bytes.
    (&[("message size", 1, 0)], 10, 136),
    (&[("attribute version", 0, 4)], 3, 136),
    (&[("attribute flags", 0, 2)], 3, 136),
    (&[("attribute name size", 0, 999)], 10, 136),
    (&[("attribute dataspace size", 0, 99)], 10, 136),
    (&[("attribute datatype size", 0, 9)], 10, 136),
    (&[("attribute shared version", 0, 1)], 3, 136),
    (
        &[
            ("attribute shared version", 0, 3),
            ("attribute shared type", 0, 1),
        ],
        3,
        136,
    ),
    (&[("message type", 2, 2)], 3, 176),
    (&[("continuation length", 0, 7)], 10, 176),
    (&[("continuation address", 0, 9000)], 5, 9000),
    (&[("continuation address", 0, ROOT + 8)], 6, 104),
    (&[("message type", 3, 2)], 3, 200),
    (&[("attribute version", 1, 0)], 3, 200),
    (&[("attribute flags", 1, 3)], 3, 200),
    (&[("attribute dataspace size", 1, 12)], 10, 200),
    (&[("attribute datatype size", 1, 9)], 10, 200),
    (&[("attribute shared version", 1, 1)], 3, 200),
    (&[("attribute version", 2, 9)], 3, 240),
    (&[("attribute name size", 2, 17)], 10, 240),
    (&[("message type", 5, 2)], 3, 296),
    (&[("header messages", 0, 7)], 10, 96),
    (&[("message type", 0, 0)], 10, 96),
    (&[(SHARED_ADDRESS, 0, ROOT)], 10, 96),
    (&[("heap version", 0, 1)], 7, 856),
    (&[("tree level", 0, 9)], 8, 312),
    (&[("entry type", 0, 3)], 8, 984),
    (&[("entry name", 1, 90)], 9, 1024),
    (&[("header version", 2, 2)], 3, 1488),
    (&[("message type", 11, 2)], 3, 1504),
    (&[("attribute version", 5, 0)], 3, 1528),
    (&[("attribute flags", 3, 4)], 3, 1528),
    (&[("attribute dataspace size", 5, 99)], 10, 1528),
    (&[("attribute shared version", 3, 1)], 3, 1528),
    (&[(SHARED_ADDRESS, 3, ROOT)], 10, 1528),
    (&[("header messages", 2, 1)], 10, 1488),
    (&[("message flags", 11, 2)], 10, 1488),
    (&[("header version", 3, 0)], 3, 1568),
    (&[("message flags", 13, 2)], 10, 1568),
    (&[("header version", 1, 2)], 3, 1304),
    (&[("attribute version", 3, 7)], 3, 1320),
    (&[("attribute name size", 3, 999)], 10, 1320),
    (&[("message flags", 7, 2)], 3, 1376),
    (&[("attribute version", 4, 255)], 3, 1448),
    (&[("attribute flags", 2, 255)], 3, 1448),
    (&[("attribute datatype size", 4, 9)], 10, 1448),
    (&[("attribute shared version", 2, 4)], 3, 1448),
    (&[(SHARED_ADDRESS, 2, ROOT)], 10, 1448),
    (&[("header messages", 1, 6)], 10, 1304),
    (&[("message type", 7, 0)], 10, 1304),
    (&[(SHARED_ADDRESS, 2, DATASET)], 10, 1304),
    (&[("dataspace version", 0, 0)], 3, 1376),
    (&[("shared version", 0, 1)], 3, 1392),
    (&[("shared address", 0, DATASET)], 10, 1392),
    (&[("shared address", 0, ROOT)], 10, 1392),
    (&[("layout version", 0, 0)], 3, 1416),
];

/// Each of these faults alone, and any two of them in different fields: the first met decides.
pub fn pairs() -> Vec<Special> {
    let sound = everything();
    let mut all = Vec::new();
    for (turn, &(first, number, place)) in FAULTS.iter().enumerate() {
        let faulty = changed(&sound, first);
        let alone = special(format!("{first:?}"), faulty.clone(), number);
        all.push(alone.at(place));
        for &(second, ..) in &FAULTS[turn + 1..] {
            let apart = |change: &Change| {
                first
                    .iter()
                    .all(|other| change.1 != other.1 || change.0 != other.0)
            };
            if second.iter().all(apart) {
                let name = format!("{first:?}, then {second:?}");
                let both = special(name, changed(&faulty, second), number);
                all.push(both.at(place));
            }
        }
    }
    all
}

fn changed(sheet: &Sheet, changes: &[Change]) -> Sheet {
    changes
        .iter()
        .fold(sheet.clone(), |sheet, &(name, nth, value)| {
            sheet.with(name, nth, value)
        })
}
