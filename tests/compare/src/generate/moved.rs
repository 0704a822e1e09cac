//! Files in which one block is moved to every address in turn. Most then meet other blocks, one or several.

use super::header::{self, Message};
use super::sheet::{set, Sheet};
use super::small::{self, committed_message, sharing_dataset, table, write_group, ROOT};

/// The dataset "a" of `continued`, behind its continuation.
const DATASET: u64 = 1160;
const CONTINUATION: u64 = 1128;
const COMMITTED: u64 = 1240;
const END: u64 = 1280;

/// H in which the dataset "a" shares a committed datatype "t", so that its data may have any length, and has its layout in a
/// continuation, which lies before its header.
pub fn continued() -> Sheet {
    let mut first = sharing_dataset(COMMITTED);
    let layout = first.pop().expect("a layout");
    first.push(Message::continuation(1, 0));
    let mut sheet = Sheet::default();
    small::write_superblock(&mut sheet, END);
    header::write(&mut sheet, &[ROOT], 1, &[vec![table(ROOT + 40)]]);
    let links: [(&[u8], u64); 2] = [(b"a", DATASET), (b"t", COMMITTED)];
    write_group(&mut sheet, ROOT + 40, &links);
    let places = [DATASET, CONTINUATION];
    header::write(&mut sheet, &places, 1, &[first, vec![layout]]);
    header::write(&mut sheet, &[COMMITTED], 2, &[vec![committed_message()]]);
    assert_eq!(sheet.bytes.len() as u64, END);
    sheet
}

/// The addresses in H.
const ADDRESSES: [&str; 7] = [
    "root address",
    "table heap",
    "heap segment",
    "table tree",
    "tree child",
    "entry address",
    "layout address",
];

/// Lengths of data that meet a block, two neighbours or many.
const LENGTHS: [u64; 6] = [1, 2, 40, 120, 700, 1200];

/// Calls `visit` with the name of each file and its bytes. "/a" is the dataset in all of them.
pub fn each(mut visit: impl FnMut(&str, &[u8])) {
    let h = small::h();
    for field in ADDRESSES {
        at_every_address("H", &h, field, &mut visit);
    }
    let continued = continued();
    at_every_address("continued", &continued, "continuation address", &mut visit);
    for length in LENGTHS {
        let name = format!("continued, {length} bytes of data");
        let sheet = continued.with("layout size", 0, length);
        at_every_address(&name, &sheet, "layout address", &mut visit);
    }
}

fn at_every_address(of: &str, sheet: &Sheet, field: &str, visit: &mut impl FnMut(&str, &[u8])) {
    let mut image = sheet.bytes.clone();
    for address in 0..image.len() as u64 {
        set(&mut image, sheet.field(field, 0), address);
        visit(&format!("{of}, {field} is {address}"), &image);
    }
}
