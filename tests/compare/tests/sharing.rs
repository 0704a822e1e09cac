//! Sharings: a small file with a committed datatype that an attribute and a dataset share, its variants with the replies
//! that each has, and files with faults in attributes and shared parts.

use compare::generate::header::Message;
use compare::generate::sharing;
use compare::generate::small::{self, C_COMMITTED, C_DATASET, ROOT};
use compare::generate::write::write;
use compare::reader::{audit, audit_stop, describe, mend, undo, AuditReply, Object};
use compare::reader::{BLOCK_WORDS, MOST_BLOCKS};

/// The words of a list for every block that a walk may enter.
const FULL: usize = BLOCK_WORDS * MOST_BLOCKS;

/// "t" is found before "d", by the root's attribute.
const C_BLOCKS: [[u64; 4]; 8] = [
    [0, 96, 1, u64::MAX],
    [96, 80, 2, 0],
    [720, 32, 4, 0],
    [752, 88, 5, 0],
    [176, 544, 6, 0],
    [840, 328, 7, 0],
    [1256, 40, 2, 1],
    [1168, 88, 2, 2],
];

fn objects(of: &[(u64, u32, u32)]) -> Vec<Object> {
    let object = |&(address, stored, true_count)| Object {
        address,
        stored,
        true_count,
    };
    of.iter().map(object).collect()
}

fn list(blocks: &[[u64; 4]], words: usize) -> Vec<u64> {
    let mut list = blocks.concat();
    list.resize(words, 0);
    list
}

fn refused(number: u32, words: usize) -> AuditReply {
    AuditReply {
        number,
        list: vec![0; words],
        ..AuditReply::default()
    }
}

#[test]
fn c() {
    let image = small::c().bytes;
    assert_eq!(image.len(), 1296);
    let true_counts = [(ROOT, 1, 1), (C_COMMITTED, 1, 3), (C_DATASET, 1, 1)];
    for words in [32, 33, FULL] {
        let expected = AuditReply {
            number: 0,
            met: 0,
            block_count: 8,
            objects: objects(&true_counts),
            list: list(&C_BLOCKS, words),
        };
        assert_eq!(audit(&image, words), expected);
    }
    assert_eq!(audit(&image, 31), refused(13, 31));
}

#[test]
fn c_is_mended() {
    let before = small::c().bytes;
    let mut image = before.clone();
    assert_eq!(mend(&mut image, FULL, 1, 1).number, 18);
    let reply = mend(&mut image, FULL, 2, 1);
    assert_eq!((reply.number, reply.entries, reply.writes), (0, 1, 1));
    assert_eq!(reply.log, [1260, 4_294_967_299]);
    assert_eq!(reply.list, list(&C_BLOCKS, FULL));
    let mut mended = before.clone();
    mended[1260] = 3;
    assert_eq!(image, mended);
    assert_eq!(mend(&mut image, FULL, 0, 9).entries, 0);
    assert_eq!(undo(&mut image, &reply.log, 1, 1).writes, 1);
    assert_eq!(image, before);
}

/// Not shared by the attribute any more, the datatype is found by its name alone.
#[test]
fn c_with_flags_0() {
    let reply = audit(&small::c().with("attribute flags", 0, 0).bytes, FULL);
    let expected = [(ROOT, 1, 1), (C_DATASET, 1, 1), (C_COMMITTED, 1, 2)];
    assert_eq!(reply.number, 0);
    assert_eq!(reply.objects, objects(&expected));
}

/// Each with its answer and its place. The body of the root's attribute is at 144, its shared part at 154; the messages of
/// "d" are at 1184, 1200 and 1224.
#[test]
fn faults_in_c() {
    let c = small::c();
    let part = c.field("attribute shared version", 0);
    let body = c.field("attribute version", 0);
    assert_eq!((body.at, part.at), (144, 154));
    let d = c.with("shared address", 0, C_DATASET);
    for (sheet, number, place) in [
        (c.with("attribute flags", 0, 2), 3, 136),
        (c.with("attribute flags", 0, 3), 3, 136),
        (c.with("attribute version", 0, 4), 3, 136),
        // Padded parts take 40 bytes.
        (c.with("attribute version", 0, 1), 10, 136),
        (c.with("attribute datatype size", 0, 9), 10, 136),
        (c.with("attribute dataspace size", 0, 99), 10, 136),
        (c.with("attribute shared version", 0, 1), 3, 136),
        // A kind is known once the header was read.
        (c.with("attribute shared address", 0, ROOT), 10, ROOT),
        (
            c.with("attribute shared address", 0, C_DATASET),
            10,
            C_DATASET,
        ),
        (c.with("attribute shared address", 0, u64::MAX), 5, u64::MAX),
        (c.with("shared version", 0, 1), 3, 1200),
        (c.with("shared address", 0, ROOT), 10, 1200),
        (d.with("layout version", 0, 0), 10, 1200),
        (d.with("dataspace version", 0, 0), 3, 1184),
        (d, 10, 1200),
        (c.with("layout version", 0, 0), 3, 1224),
        (small::c_with_own_flag(), 10, C_COMMITTED),
    ] {
        assert_eq!(audit(&sheet.bytes, FULL), refused(number, FULL));
        let stop = audit_stop(&sheet.bytes, FULL).expect("a refusal");
        assert_eq!((stop.number(), stop.place()), (number, place));
    }
}

/// The kind of the object whose header is just being read isn't known: a fault of a later message comes first.
#[test]
fn the_root_shares_itself() {
    let bad = [Message::step(2, 0, &[])];
    for (sheet, number, place) in [
        (small::c(), 10, ROOT),
        (small::c_with(&[], &bad), 3, 176),
        (small::c_with(&bad, &[]), 3, 136),
    ] {
        let sheet = sheet.with("attribute shared address", 0, ROOT);
        let stop = audit_stop(&sheet.bytes, FULL).expect("a refusal");
        assert_eq!((stop.number(), stop.place()), (number, place));
    }
}

/// "reported by address and not followed", whatever is there.
#[test]
fn descriptions_give_the_shared_address() {
    for address in [C_COMMITTED, ROOT, C_DATASET, 7, u64::MAX] {
        let image = small::c().with("shared address", 0, address).bytes;
        let reply = describe(&image, b"/d", FULL);
        let fields = reply.description;
        assert_eq!((reply.number, reply.block_count), (0, 2));
        let described = [[0, 96, 1, u64::MAX], [1168, 88, 2, 0]];
        assert_eq!(reply.list, list(&described, FULL));
        assert_eq!((fields.class, fields.element_size), (0, 0));
        assert_eq!(fields.shared_address, address);
    }
}

#[test]
fn faults_have_their_answers() {
    let all = sharing::all();
    assert!(all.len() > 2000);
    for special in all {
        let image = &special.sheet.bytes;
        assert_eq!(
            audit(image, FULL).number,
            special.number,
            "{}",
            special.name
        );
        let stop = audit_stop(image, FULL);
        if let (Some(stop), Some(place)) = (stop, special.place) {
            assert_eq!(stop.place(), place, "{}: {stop:?}", special.name);
        }
    }
}

/// Every sharing counts, also several of one object, also its own.
#[test]
fn sharings_are_counted() {
    let counts = [
        vec![1, 20],
        vec![1, 300],
        vec![1; 40],
        vec![1, 1, 1, 6, 1, 1],
    ];
    let plans = sharing::sound();
    assert_eq!(plans.len(), counts.len());
    for ((name, plan), counts) in plans.into_iter().zip(counts) {
        let file = write(&plan, 3);
        let reply = audit(&file.sheet.bytes, FULL);
        let found: Vec<u32> = reply
            .objects
            .iter()
            .map(|object| object.true_count)
            .collect();
        assert_eq!(found, counts, "{name}");
        // In order of discovery.
        let places = plan
            .walk()
            .into_iter()
            .map(|(number, _)| file.places[number]);
        assert!(
            reply.objects.iter().map(|object| object.address).eq(places),
            "{name}"
        );
    }
}
