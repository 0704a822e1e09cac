//! Lookups and descriptions by name, each with the answers that document 01 gives.

use super::dataset::{Dataset, Datatype, Layout};
use super::limits::eight_each;
use super::paths::Answer;
use super::plan::{Content, Link, Object, Plan, Target};
use super::sheet::Sheet;
use super::small::{self, C_COMMITTED, C_DATASET, DATASET, ROOT};
use super::special::{self, link, root};
use super::write::{write, File};
use super::UNDEFINED;
use crate::reader::{MOST_BLOCKS, MOST_OBJECTS};

pub struct Asked {
    pub name: String,
    pub image: Vec<u8>,
    pub path: Vec<u8>,
    /// Words for so many blocks are lent.
    pub lent: usize,
    pub lookup: Answer,
    /// The number of the description.
    pub description: u32,
    /// With 6 the address of the block met.
    pub met: u64,
}

impl Asked {
    fn meeting(self, met: u64) -> Asked {
        Asked { met, ..self }
    }
}

/// Room for every block that a walk may enter.
const FULL: usize = MOST_BLOCKS;

fn asked(
    name: &str,
    image: &[u8],
    path: &[u8],
    lent: usize,
    lookup: Answer,
    description: u32,
) -> Asked {
    Asked {
        name: name.to_string(),
        image: image.to_vec(),
        path: path.to_vec(),
        lent,
        lookup,
        description,
        met: 0,
    }
}

/// The same refusal of both.
fn refused(name: &str, image: &[u8], path: &[u8], lent: usize, number: u32) -> Asked {
    asked(name, image, path, lent, (number, 0, 0), number)
}

pub fn all() -> Vec<Asked> {
    let mut all = endings();
    all.extend(faults_on_the_way());
    all.extend(faults_in_h());
    all.extend(data_in_h());
    all.extend(symbolic_links_in_h());
    all.extend(other_addresses_in_h());
    all.extend(rooms_in_h());
    all.extend(rooms_of_the_last_header());
    all.extend(first_answers());
    all.extend(limits());
    all.extend(attributes_in_c());
    all.extend(own_flag_in_c());
    all
}

/// A root group with a group "g", a dataset "d", a committed datatype "c", a symbolic link "s" and itself as "loop"; in
/// "g" the same and an empty group "e".
fn nested() -> (Plan, File) {
    let links = |more: Vec<Link>| {
        let mut links = vec![
            link("c", Target::Object(3)),
            link("d", Target::Object(2)),
            link("loop", Target::Object(0)),
            link("s", Target::Soft(b"/d".to_vec())),
        ];
        links.extend(more);
        root(links)
    };
    let dataset = Dataset {
        sizes: vec![2, 3],
        maxima: Some(vec![2, UNDEFINED]),
        datatype: Datatype::integer(2),
        layout: Layout::Stored(12),
    };
    let plan = Plan::new(vec![
        links(vec![link("g", Target::Object(1))]),
        links(vec![link("e", Target::Object(4))]),
        Object::new(Content::Dataset(dataset)),
        Object::new(Content::Committed),
        root(Vec::new()),
    ]);
    let file = write(&plan, 8);
    (plan, file)
}

fn endings() -> Vec<Asked> {
    let (_, file) = nested();
    let [root, g, d, c, e] = file.places[..] else {
        unreachable!("five objects");
    };
    let found: [(&[u8], Answer, u32); 27] = [
        (b"/", (0, 1, root), 20),
        (b"/c", (0, 3, c), 20),
        (b"/d", (0, 2, d), 0),
        (b"/g", (0, 1, g), 20),
        (b"/loop", (0, 1, root), 20),
        (b"/s", (0, 4, 0), 20),
        (b"/g/c", (0, 3, c), 20),
        (b"/g/d", (0, 2, d), 0),
        (b"/g/e", (0, 1, e), 20),
        (b"/g/s", (0, 4, 0), 20),
        (b"/g/loop/g/loop/loop/g/d", (0, 2, d), 0),
        (b"/e", (15, 0, 0), 15),
        (b"/g/g", (15, 0, 0), 15),
        (b"/g/e/d", (15, 0, 0), 15),
        (b"/x/d", (15, 0, 0), 15),
        (b"/lo", (15, 0, 0), 15),
        (b"/loops", (15, 0, 0), 15),
        (b"/D", (15, 0, 0), 15),
        (b"/s/d", (16, 0, 0), 16),
        (b"/s/s", (16, 0, 0), 16),
        (b"/g/s/x", (16, 0, 0), 16),
        (b"/d/x", (17, 0, 0), 17),
        (b"/d/d", (17, 0, 0), 17),
        (b"/c/x", (17, 0, 0), 17),
        (b"/g/d/s/x", (17, 0, 0), 17),
        (b"/s/d/x", (16, 0, 0), 16),
        (b"/s/", (14, 0, 0), 14),
    ];
    found
        .into_iter()
        .map(|(path, lookup, description)| {
            let image = &file.sheet.bytes;
            asked("nested", image, path, FULL, lookup, description)
        })
        .collect()
}

/// Only the headers and groups on the way are read, in their order.
fn faults_on_the_way() -> Vec<Asked> {
    let (_, file) = nested();
    let [root, g, d, ..] = file.places[..] else {
        unreachable!("five objects");
    };
    // An object header of version 2 gives 3.
    let with_fault = |at: u64| {
        let mut image = file.sheet.bytes.clone();
        image[at as usize] = 2;
        image
    };
    let mut all = Vec::new();
    for path in [b"/".as_slice(), b"/d", b"/x", b"/d/x", b"/s/x"] {
        all.push(refused("fault in /", &with_fault(root), path, FULL, 3));
    }
    let image = with_fault(g);
    for path in [b"/g".as_slice(), b"/g/d", b"/g/x", b"/g/s/x"] {
        all.push(refused("fault in /g", &image, path, FULL, 3));
    }
    all.push(asked("fault in /g", &image, b"/d", FULL, (0, 2, d), 0));
    all.push(refused("fault in /g", &image, b"/x", FULL, 15));
    all.push(refused("fault in /g", &image, b"/s/d", FULL, 16));
    all.push(refused("fault in /g", &image, b"/d/x", FULL, 17));
    let image = with_fault(d);
    for path in [b"/d".as_slice(), b"/g/d", b"/d/x"] {
        all.push(refused("fault in /d", &image, path, FULL, 3));
    }
    all.push(asked("fault in /d", &image, b"/g", FULL, (0, 1, g), 20));
    all.push(refused("fault in /d", &image, b"/g/d/", FULL, 14));
    all
}

/// A field of H, its number, its new value, and the answer to every path of one component.
const GROUP_FAULTS: [(&str, usize, u64, u32); 12] = [
    ("heap version", 0, 1, 7),
    ("heap segment size", 0, 7, 9),
    ("heap free head", 0, 9000, 9),
    ("tree level", 0, 9, 8),
    ("tree level", 0, 1, 5),
    ("tree key", 0, 9000, 9),
    ("tree key", 1, 9000, 9),
    ("tree child", 0, 9000, 5),
    ("symbols count", 0, 9, 8),
    ("entry name", 0, 87, 9),
    ("entry type", 0, 3, 8),
    ("entry type", 1, 3, 8),
];

/// "its whole group must be sound", also behind the entry that is looked for. For "/" the header alone is read.
fn faults_in_h() -> Vec<Asked> {
    let mut all = Vec::new();
    for (field, nth, value, number) in GROUP_FAULTS {
        let image = small::h().with(field, nth, value).bytes;
        let name = format!("H, {field} {nth} is {value}");
        for path in [b"/a".as_slice(), b"/b", b"/c", b"/a/b"] {
            all.push(refused(&name, &image, path, FULL, number));
        }
        all.push(asked(&name, &image, b"/", FULL, (0, 1, ROOT), 20));
        all.push(refused(&name, &image, b"/a/", FULL, 14));
    }
    all
}

/// A lookup reads no dataset's messages; a description has the superblock and the header in its list, nothing of the
/// group.
fn data_in_h() -> Vec<Asked> {
    let cases = [
        ("dataspace version", 2, 3),
        ("dataspace rank", 33, 11),
        ("datatype size", 0, 11),
        ("layout version", 4, 3),
        ("layout size", 5, 11),
        ("layout address", 1225, 5),
        ("layout address", 92, 6),
        ("layout address", 93, 6),
        ("layout address", 96, 0),
        ("layout address", 136, 0),
        ("layout address", 712, 0),
        ("layout address", 1124, 0),
        ("layout address", 1125, 6),
        ("layout address", 1223, 6),
        ("layout address", UNDEFINED, 0),
    ];
    let mut all = Vec::new();
    for (field, value, number) in cases {
        let image = small::h().with(field, 0, value).bytes;
        let name = format!("H, {field} is {value}");
        let found = (0, 2, DATASET);
        // Below the header only the superblock is in the list.
        let met = if number == 6 && value > ROOT {
            DATASET
        } else {
            0
        };
        let described = asked(&name, &image, b"/b", FULL, found, number);
        all.push(described.meeting(met));
        all.push(refused(&name, &image, b"/a/b", FULL, 17));
        all.push(refused(&name, &image, b"/c", FULL, 15));
    }
    all
}

/// H with "a" as a symbolic link: its header address isn't read, its value is.
fn symbolic_links_in_h() -> Vec<Asked> {
    let link = small::h().with("entry type", 0, 2);
    let mut all = Vec::new();
    for address in [0, ROOT, DATASET, 5000, UNDEFINED] {
        let sound = link.with("entry address", 0, address);
        let name = format!("H, a symbolic link with address {address}");
        let image = &sound.bytes;
        all.push(asked(&name, image, b"/a", FULL, (0, 4, 0), 20));
        // The group has six blocks; the header of a symbolic link would be none.
        all.push(asked(&name, image, b"/a", 6, (0, 4, 0), 20));
        all.push(refused(&name, image, b"/a", 5, 13));
        all.push(refused(&name, image, b"/a/b", FULL, 16));
        all.push(asked(&name, image, b"/b", FULL, (0, 2, DATASET), 0));
        let image = sound.with("entry scratch", 0, 88).bytes;
        for path in [b"/a".as_slice(), b"/b", b"/a/b", b"/c"] {
            all.push(refused(&name, &image, path, FULL, 9));
        }
    }
    all
}

/// Only the address of the last component is read.
fn other_addresses_in_h() -> Vec<Asked> {
    let mut all = Vec::new();
    for (address, number) in [(1213, 5), (9000, 5), (UNDEFINED, 5), (0, 6), (80, 6)] {
        let image = small::h().with("entry address", 0, address).bytes;
        let name = format!("H, a is at {address}");
        all.push(refused(&name, &image, b"/a", FULL, number));
        all.push(refused(&name, &image, b"/a/b", FULL, number));
        all.push(asked(&name, &image, b"/b", FULL, (0, 2, DATASET), 0));
        all.push(refused(&name, &image, b"/c", FULL, 15));
    }
    let image = small::h().with("entry type", 0, 1).bytes;
    all.push(asked("H, type 1", &image, b"/a", FULL, (0, 2, DATASET), 0));
    all
}

/// Six blocks for the root group of H, two for the last header, three with its data.
fn rooms_in_h() -> Vec<Asked> {
    let image = &small::h().bytes;
    let mut all = Vec::new();
    for lent in (0..=12).chain([FULL - 1, FULL, FULL + 1, 3 * FULL]) {
        let mut ask = |path: &[u8], needed: usize, lookup: Answer, description: u32| {
            all.push(if lent < needed {
                refused("H", image, path, lent, 13)
            } else {
                asked("H", image, path, lent, lookup, description)
            });
        };
        ask(b"/", 2, (0, 1, ROOT), 20);
        ask(b"/a", 6, (0, 2, DATASET), 0);
        ask(b"/b", 6, (0, 2, DATASET), 0);
        ask(b"/c", 6, (15, 0, 0), 15);
        ask(b"/a/b", 6, (17, 0, 0), 17);
        ask(b"/a/", 0, (14, 0, 0), 14);
    }
    all
}

/// A dataset "d" whose header has so many continuations.
fn continued(count: usize, layout: Layout) -> File {
    let dataset = Dataset {
        sizes: vec![4],
        maxima: None,
        datatype: Datatype::integer(1),
        layout,
    };
    let mut object = Object::new(Content::Dataset(dataset));
    object.parents = eight_each(count);
    let links = vec![link("d", Target::Object(1))];
    write(&Plan::new(vec![root(links), object]), 9)
}

/// Headers that need more blocks than the group: the superblock, the header and its continuations, then the data.
fn rooms_of_the_last_header() -> Vec<Asked> {
    let mut all = Vec::new();
    for count in [4, 5, 6, 9, FULL - 3, FULL - 2, FULL - 1] {
        for (layout, data) in [
            (Layout::Stored(4), 1),
            (Layout::At(UNDEFINED, 4), 0),
            (Layout::Compact(vec![0; 4]), 0),
        ] {
            let file = continued(count, layout);
            let image = &file.sheet.bytes;
            let header = 2 + count;
            for lent in header - 1..=header + 2 {
                let room = lent.min(FULL);
                let name = format!("{count} continuations");
                let found = (0, 2, file.places[1]);
                all.push(if room < header.max(6) {
                    refused(&name, image, b"/d", lent, 13)
                } else {
                    let number = if room < header + data { 13 } else { 0 };
                    asked(&name, image, b"/d", lent, found, number)
                });
            }
        }
    }
    all
}

/// "Order: 14, then 1, 2, 3, 4 for the superblock, then the walk", which begins with the superblock's block.
fn first_answers() -> Vec<Asked> {
    let h = small::h();
    let cases: [(&str, Sheet, u32); 6] = [
        ("signature", h.with("superblock signature", 0, 0), 2),
        ("version", h.with("superblock version", 0, 2), 3),
        ("leaf K", h.with("superblock leaf K", 0, 0), 4),
        ("end above", h.with("superblock end of file", 0, 1229), 4),
        ("end at 95", h.with("superblock end of file", 0, 95), 5),
        ("sound", h, 13),
    ];
    let mut all = Vec::new();
    for (name, sheet, number) in cases {
        for path in [b"/".as_slice(), b"/a", b"/c", b"/a/b"] {
            all.push(refused(name, &sheet.bytes, path, 0, number));
            let short = &sheet.bytes[..95];
            all.push(refused("95 bytes", short, path, 0, 1));
        }
        all.push(refused(name, &sheet.bytes, b"a", 0, 14));
        all.push(refused("95 bytes", &sheet.bytes[..95], b"/a/", 0, 14));
    }
    all.push(refused("no bytes", &[], b"", 0, 14));
    all.push(refused("no bytes", &[], b"/", FULL, 1));
    all
}

/// Long paths and names; more objects and blocks than an audit passes.
fn limits() -> Vec<Asked> {
    let links: [(&[u8], u64); 2] = [(b"a", DATASET), (b"l", ROOT)];
    let looped = small::h_with(&links, 2, 1).bytes;
    let found = (0, 2, DATASET);
    let loops = |count: usize, end: &[u8]| [b"/l".repeat(count).as_slice(), end].concat();
    let name = "long paths";
    let mut all = vec![
        asked(name, &looped, &loops(511, b"/a"), FULL, found, 0),
        asked(name, &looped, &loops(511, b"/a"), 6, found, 0),
        refused(name, &looped, &loops(511, b"/a"), 5, 13),
        asked(name, &looped, &loops(512, b""), 6, (0, 1, ROOT), 20),
        refused(name, &looped, &loops(511, b"/b"), FULL, 15),
        refused(name, &looped, &loops(510, b"/a/a"), FULL, 17),
        refused(name, &looped, &loops(511, b"/aa"), FULL, 14),
        refused(name, &looped, &loops(512, b"/"), FULL, 14),
        refused(name, &looped, &loops(512, b"/a"), FULL, 14),
    ];
    let files = special::all();
    let named = |name: &str| {
        let special = files.iter().find(|file| file.name == name);
        &special.expect("a special file of that name").sheet.bytes
    };
    all.extend(long_names(named("name of 255")));
    let (name, many) = ("1,025 objects", named("1,025 objects"));
    all.push(refused(name, many, b"/1025", FULL, 15));
    all.push(refused(name, many, b"/1024/x", FULL, 17));
    let many = small::objects(MOST_OBJECTS as u64 + 1).bytes;
    let last = many.len() as u64 - 40;
    all.push(asked(name, &many, b"/1024", FULL, (0, 3, last), 20));
    let (name, many) = ("8,193 blocks", named("8,193 blocks"));
    all.push(refused(name, many, b"/x", FULL, 13));
    all
}

/// "Only the audit reads attribute messages", and a description doesn't follow a shared datatype.
fn attributes_in_c() -> Vec<Asked> {
    let mut all = Vec::new();
    for (field, value) in [
        ("attribute flags", 0),
        ("attribute flags", 2),
        ("attribute version", 1),
        ("attribute version", 4),
        ("attribute datatype size", 9),
        ("attribute dataspace size", 99),
        ("attribute shared version", 1),
        ("attribute shared address", ROOT),
        ("attribute shared address", UNDEFINED),
        ("shared address", ROOT),
        ("shared address", C_DATASET),
        ("shared address", UNDEFINED),
    ] {
        let image = small::c().with(field, 0, value).bytes;
        let name = format!("C, {field} is {value}");
        all.push(asked(&name, &image, b"/", FULL, (0, 1, ROOT), 20));
        all.push(asked(&name, &image, b"/d", FULL, (0, 2, C_DATASET), 0));
        let found = (0, 3, C_COMMITTED);
        all.push(asked(&name, &image, b"/t", FULL, found, 20));
        all.push(refused(&name, &image, b"/t/x", FULL, 17));
        all.push(refused(&name, &image, b"/x", FULL, 15));
    }
    all
}

/// "a shared flag on a committed datatype's own message" makes its header unsound.
fn own_flag_in_c() -> Vec<Asked> {
    let name = "C, own flag";
    let image = small::c_with_own_flag().bytes;
    vec![
        asked(name, &image, b"/", FULL, (0, 1, ROOT), 20),
        asked(name, &image, b"/d", FULL, (0, 2, C_DATASET), 0),
        refused(name, &image, b"/d/x", FULL, 17),
        refused(name, &image, b"/t", FULL, 10),
        refused(name, &image, b"/t/x", FULL, 10),
        refused(name, &image, b"/t/", FULL, 14),
    ]
}

/// A root group that is its own member under a name of 255 bytes.
fn long_names(image: &[u8]) -> Vec<Asked> {
    let root = image[64..72].try_into().expect("8 bytes");
    let found = (0, 1, u64::from_le_bytes(root));
    let name = "a name of 255 bytes";
    let with = |length: usize| [b"/".as_slice(), &vec![b'n'; length]].concat();
    vec![
        asked(name, image, &with(255), FULL, found, 20),
        asked(name, image, &with(255).repeat(4), FULL, found, 20),
        refused(name, image, &with(254), FULL, 15),
        refused(name, image, &with(256), FULL, 14),
        refused(
            name,
            image,
            &[with(255).repeat(3), with(254)].concat(),
            FULL,
            15,
        ),
        refused(
            name,
            image,
            &[with(255).repeat(4), with(1)].concat(),
            FULL,
            14,
        ),
    ]
}
