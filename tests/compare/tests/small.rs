//! The small files of document 01: the replies that its text gives.

use compare::generate::asked;
use compare::generate::paths::{malformed, well_formed};
use compare::generate::small::{self, A_BLOCKS, DATASET, E_BLOCKS, H_BLOCKS, ROOT};
use compare::generate::special;
use compare::reader::front::{describe_bytes, lookup_bytes};
use compare::reader::front::{BLOCK_BYTES, DESCRIBE_WORDS, LOOKUP_WORDS, REPLY_WORDS};
use compare::reader::{audit, describe, lookup, mend, undo, AuditReply, Object};
use compare::reader::{BLOCK_WORDS, MOST_BLOCKS};

/// The words of a list for every block that a walk may enter.
const FULL: usize = BLOCK_WORDS * MOST_BLOCKS;

fn object(address: u64, stored: u32, true_count: u32) -> Object {
    Object {
        address,
        stored,
        true_count,
    }
}

fn list(blocks: &[[u64; 4]], words: usize) -> Vec<u64> {
    let mut list = blocks.concat();
    list.resize(words, 0);
    list
}

fn refused(number: u32, words: usize) -> AuditReply {
    AuditReply {
        number,
        list: vec![0; words],
        ..AuditReply::default()
    }
}

/// "One record a line. First: answer, object count (8 digits each). Then per object: address (16), stored (8), true
/// (8)."
fn output(reply: &AuditReply) -> String {
    let mut text = format!("{:08x}{:08x}\n", reply.number, reply.objects.len());
    for object in &reply.objects {
        let Object {
            address,
            stored,
            true_count,
        } = object;
        text += &format!("{address:016x}{stored:08x}{true_count:08x}\n");
    }
    text
}

#[test]
fn e() {
    let image = small::e().bytes;
    assert_eq!(image.len(), 800);
    for words in [20, 21, 22, 23, 24, FULL, FULL + 7] {
        let expected = AuditReply {
            number: 0,
            met: 0,
            block_count: 5,
            objects: vec![object(ROOT, 1, 1)],
            list: list(&E_BLOCKS, words),
        };
        assert_eq!(audit(&image, words), expected);
    }
    for words in [0, 1, 3, 4, 16, 18, 19] {
        assert_eq!(audit(&image, words), refused(13, words));
    }
}

#[test]
fn end_of_file_of_e() {
    let changed = |end| small::e().with("superblock end of file", 0, end).bytes;
    assert_eq!(audit(&changed(799), FULL), refused(5, FULL));
    assert_eq!(audit(&changed(801), FULL), refused(4, FULL));
}

#[test]
fn h() {
    let image = small::h().bytes;
    assert_eq!(image.len(), 1228);
    let expected = AuditReply {
        number: 0,
        met: 0,
        block_count: 8,
        objects: vec![object(ROOT, 1, 1), object(DATASET, 2, 2)],
        list: list(&H_BLOCKS, FULL),
    };
    assert_eq!(audit(&image, FULL), expected);
    assert_eq!(audit(&image, 32).list, H_BLOCKS.concat());
    assert_eq!(audit(&image, 31), refused(13, 31));
}

#[test]
fn h_with_stored_1() {
    let sheet = small::h_with(&[(b"a", DATASET), (b"b", DATASET)], 1, 1);
    let expected = "0000000000000002\n\
                    00000000000000600000000100000001\n\
                    00000000000004680000000100000002\n";
    assert_eq!(output(&audit(&sheet.bytes, FULL)), expected);

    let mut image = sheet.bytes.clone();
    let reply = mend(&mut image, FULL, 5, 9);
    assert_eq!((reply.number, reply.entries, reply.writes), (0, 1, 1));
    assert_eq!(reply.log, [1132, 4294967298, 0, 0, 0]);
    assert_eq!(reply.list, list(&H_BLOCKS, FULL));
    assert_eq!(image, small::h().bytes);
    let reply = undo(&mut image, &reply.log, 1, 7);
    assert_eq!((reply.number, reply.writes), (0, 1));
    assert_eq!(image, sheet.bytes);
}

#[test]
fn mending_at_its_limits() {
    let sheet = small::h_with(&[(b"a", DATASET), (b"b", DATASET)], 5, 1);
    let mut image = sheet.bytes.clone();
    let reply = mend(&mut image, FULL, 3, 9);
    assert_eq!((reply.number, reply.log), (18, vec![0; 3]));
    assert_eq!(reply.list, vec![0; FULL]);
    assert_eq!(image, sheet.bytes);

    let reply = mend(&mut image, FULL, 4, 0);
    assert_eq!((reply.number, reply.entries, reply.writes), (0, 2, 0));
    assert_eq!(reply.log, [100, 5 << 32 | 1, 1132, 1 << 32 | 2]);
    assert_eq!(image, sheet.bytes);

    let reply = mend(&mut image, FULL, 4, 1);
    assert_eq!((reply.number, reply.entries, reply.writes), (0, 2, 1));
    assert_eq!(audit(&image, FULL).objects[0], object(ROOT, 1, 1));
    assert_eq!(audit(&image, FULL).objects[1], object(DATASET, 1, 2));
}

#[test]
fn undo_refuses() {
    let sheet = small::h();
    let mut image = sheet.bytes.clone();
    let log = [1132, 2 << 32 | 3, 100, 1 << 32 | 4];
    assert_eq!(undo(&mut image[..95], &log, 9, 9).number, 1);
    assert_eq!(undo(&mut image, &log, 3, 9).number, 18);
    assert_eq!(undo(&mut image, &log, u64::MAX, 9).number, 18);
    assert_eq!(undo(&mut image, &[1225, 0], 1, 0).number, 19);
    assert_eq!(undo(&mut image, &[u64::MAX - 3, 0], 1, 0).number, 19);
    assert_eq!(undo(&mut image, &[1132, 3 << 32 | 4], 1, 0).number, 19);
    assert_eq!(image, sheet.bytes);
    assert_eq!(undo(&mut image, &log, 2, 1).writes, 1);
    assert_eq!(undo(&mut image, &log, 2, 3).writes, 2);
    assert_eq!(image, sheet.bytes);
}

#[test]
fn lookups_in_h() {
    let image = small::h().bytes;
    let found = |path: &[u8]| {
        let reply = lookup(&image, path, FULL);
        assert_eq!((reply.block_count, reply.list), (0, vec![0; FULL]));
        (reply.number, reply.kind, reply.address)
    };
    assert_eq!(found(b"/a"), (0, 2, 1128));
    assert_eq!(found(b"/b"), (0, 2, 1128));
    assert_eq!(found(b"/"), (0, 1, 96));
    assert_eq!(found(b"/c"), (15, 0, 0));
    assert_eq!(found(b"/a/b"), (17, 0, 0));
    for path in [
        b"/a/".as_slice(),
        b"",
        b"a",
        b"//",
        b"/.",
        b"/a\0",
        b"/a//b",
    ] {
        assert_eq!(found(path), (14, 0, 0));
    }
    assert_eq!(found(&[b'/'; 1025]), (14, 0, 0));
    assert_eq!(lookup(&image, b"/", 8).number, 0);
    assert_eq!(lookup(&image, b"/", 7).number, 13);
    assert_eq!(lookup(&image, b"/a", 24).number, 0);
    assert_eq!(lookup(&image, b"/a", 23).number, 13);
}

#[test]
fn description_in_h() {
    let image = small::h().bytes;
    // Six blocks of the group decide the room, and then there are three.
    assert_eq!(describe(&image, b"/a", 23).number, 13);
    let reply = describe(&image, b"/a", 27);
    assert_eq!((reply.number, reply.block_count), (0, 3));
    assert_eq!(reply.list, list(&A_BLOCKS, 27));
    let fields = reply.description;
    assert_eq!((fields.rank, fields.sizes[0], fields.maxima[0]), (1, 4, 4));
    assert_eq!((fields.class, fields.version), (0, 1));
    assert_eq!((fields.class_bits, fields.element_size), (8, 1));
    assert_eq!((fields.layout_class, fields.shared_address), (1, 0));
    assert_eq!((fields.data_address, fields.data_size), (1224, 4));
    assert_eq!(describe(&image, b"/", 27).number, 20);
}

/// What lay in the slices before a call.
const BEFORE: u8 = 0xa5;

/// Words, then so many bytes that are zero.
fn bytes(words: &[u64], length: usize) -> Vec<u8> {
    let mut bytes: Vec<u8> = words.iter().flat_map(|word| word.to_le_bytes()).collect();
    bytes.resize(length, 0);
    bytes
}

#[test]
fn lookups_in_bytes() {
    let image = small::h().bytes;
    let cases: [(&[u8], u32, &[u64]); 6] = [
        (b"/", 0, &[0, 1, 96]),
        (b"/a", 0, &[0, 2, 1128]),
        (b"/b", 0, &[0, 2, 1128]),
        (b"/c", 15, &[]),
        (b"/a/b", 17, &[]),
        (b"/a/", 14, &[]),
    ];
    for (path, expected, words) in cases {
        for length in [0, 23, 24, 25, 31, 32, 100] {
            let mut blocks = vec![BEFORE; 32 * 6 + 5];
            let mut reply = vec![BEFORE; length];
            let number = lookup_bytes(&image, path, &mut blocks, &mut reply);
            let (expected, words) = if length / 8 < LOOKUP_WORDS {
                (13, [].as_slice())
            } else {
                (expected, words)
            };
            assert_eq!(number, expected);
            assert_eq!(reply, bytes(words, length));
            assert_eq!(blocks, bytes(&[], 32 * 6 + 5));
        }
    }
}

#[test]
fn descriptions_in_bytes() {
    let image = small::h().bytes;
    let mut words = [0; DESCRIBE_WORDS];
    (words[0], words[1], words[2], words[34]) = (3, 1, 4, 4);
    words[66..].copy_from_slice(&[0, 1, 8, 1, 0, 1, 1224, 4]);
    for length in [0, 24, 591, 592, 593, 599, 600, 8 * REPLY_WORDS] {
        let mut blocks = vec![BEFORE; 32 * 6 + 5];
        let mut reply = vec![BEFORE; length];
        let number = describe_bytes(&image, b"/a", &mut blocks, &mut reply);
        let (expected, list, words) = if length / 8 < DESCRIBE_WORDS {
            (13, [].as_slice(), [].as_slice())
        } else {
            (0, A_BLOCKS.as_flattened(), words.as_slice())
        };
        assert_eq!(number, expected);
        assert_eq!(reply, bytes(words, length));
        assert_eq!(blocks, bytes(list, 32 * 6 + 5));
    }
}

#[test]
fn lookups_by_name_have_their_answers() {
    for asked in asked::all() {
        let title = format!("{}, {}", asked.name, asked.path.escape_ascii());
        let lent = BLOCK_BYTES * asked.lent + asked.lent % BLOCK_BYTES;
        let mut blocks = vec![BEFORE; lent];
        let mut reply = vec![BEFORE; 8 * LOOKUP_WORDS];
        let number = lookup_bytes(&asked.image, &asked.path, &mut blocks, &mut reply);
        assert_eq!(number, asked.lookup.0, "{title}, {lent} bytes");
        let met = if number == 6 { asked.met } else { 0 };
        let words = [met, u64::from(asked.lookup.1), asked.lookup.2];
        assert_eq!(reply, bytes(&words, 24), "{title}");
        assert!(blocks.iter().all(|byte| *byte == 0), "{title}");
        let mut reply = vec![BEFORE; 8 * DESCRIBE_WORDS];
        let number = describe_bytes(&asked.image, &asked.path, &mut blocks, &mut reply);
        assert_eq!(number, asked.description, "{title}, {lent} bytes");
        if number == 6 {
            assert_eq!(reply, bytes(&[asked.met], 592), "{title}");
        }
    }
}

/// The form of a path decides over everything else.
#[test]
fn malformed_paths_give_14() {
    let images = [small::h().bytes, vec![0; 95], Vec::new()];
    for (number, image) in images.iter().enumerate() {
        for path in malformed() {
            let title = path.escape_ascii().to_string();
            for lent in [0, 24, FULL] {
                assert_eq!(lookup(image, &path, lent).number, 14, "{title}");
                assert_eq!(describe(image, &path, lent).number, 14, "{title}");
            }
        }
        for path in well_formed() {
            let answer = lookup(image, &path, FULL).number;
            assert!(answer != 14 && (number == 0 || answer == 1));
        }
    }
}

#[test]
fn names_in_the_wrong_order() {
    let sheet = small::h_with(&[(b"b", DATASET), (b"a", DATASET)], 1, 2);
    assert_eq!(audit(&sheet.bytes, FULL), refused(8, FULL));
}

#[test]
fn a_loop() {
    let links: [(&[u8], u64); 3] = [(b"a", DATASET), (b"b", DATASET), (b"loop", ROOT)];
    let sheet = small::h_with(&links, 1, 2);
    let reply = audit(&sheet.bytes, FULL);
    assert_eq!(reply.objects[0], object(ROOT, 1, 2));
    assert_eq!(reply.objects[1], object(DATASET, 2, 2));
    assert_eq!(reply.list, list(&H_BLOCKS, FULL));
}

#[test]
fn special_files() {
    for special in special::all() {
        for words in [FULL, FULL + 1, FULL + 1000] {
            let reply = audit(&special.sheet.bytes, words);
            assert_eq!(reply.number, special.number, "{}", special.name);
        }
    }
}
