//! Files at the edges of what is read, each with the audit's answer at full room.

use super::dataset::{Dataset, Datatype, Layout};
use super::header::{self, Message};
use super::plan::{Content, Group, Link, Object, Plan, Target};
use super::sheet::Sheet;
use super::write::write;
use super::{bodies, edges, orders, sharing, small, UNDEFINED};
use crate::reader::{MOST_BLOCKS, MOST_BYTES, MOST_OBJECTS};

pub struct Special {
    pub name: String,
    pub sheet: Sheet,
    pub number: u32,
    /// The place of the fault, or of the block that can't be entered, where it is told.
    pub place: Option<u64>,
}

impl Special {
    pub fn at(self, place: u64) -> Special {
        Special {
            place: Some(place),
            ..self
        }
    }
}

pub fn special(name: impl Into<String>, sheet: Sheet, number: u32) -> Special {
    Special {
        name: name.into(),
        sheet,
        number,
        place: None,
    }
}

pub fn all() -> Vec<Special> {
    let mut all = small();
    all.extend(objects_and_blocks());
    all.extend(levels());
    all.extend(names());
    all.extend(ranks());
    all.extend(products());
    all.extend(sums());
    all.extend(far_ends());
    all.extend(heaps());
    all.extend(edges::heap_edges());
    all.extend(edges::key_edges());
    all.extend(bodies::datatypes());
    all.extend(bodies::spaces_and_layouts());
    all.extend(orders::orders());
    all.extend(sharing::passed());
    all.extend(superblocks());
    all.extend(lengths());
    all.extend(lengths_near_the_top());
    all.extend(sums_of_bits());
    all
}

fn small() -> Vec<Special> {
    let numbers = [0, 5, 4, 0, 0, 8, 0, 0];
    small::all()
        .into_iter()
        .zip(numbers)
        .map(|((name, sheet), number)| special(name, sheet, number))
        .collect()
}

pub fn link(name: impl Into<Vec<u8>>, target: Target) -> Link {
    Link {
        name: name.into(),
        target,
    }
}

/// A root group with these links.
pub fn root(links: Vec<Link>) -> Object {
    let mut group = Group {
        links,
        full: true,
        ..Group::default()
    };
    group.settle();
    Object::new(Content::Group(group))
}

/// A root group with so many objects below it.
fn with_objects(count: usize) -> Plan {
    let links = (1..=count)
        .map(|number| link(format!("{number:04}"), Target::Object(number)))
        .collect();
    let mut objects = vec![root(links)];
    objects.resize(count + 1, Object::new(Content::Committed));
    Plan::new(objects)
}

/// A root group without names in so many blocks: the superblock, header, tree, heap and segment, and continuations that the
/// header names all.
fn with_blocks(count: usize) -> Sheet {
    let continuations = count - 5;
    let mut header = vec![small::table(0)];
    header.extend((1..=continuations).map(|number| Message::continuation(number as u64, 0)));
    let tree = small::ROOT + 16 + header::length(&header);
    header[0] = small::table(tree);
    let mut blocks = vec![header];
    blocks.resize(continuations + 1, vec![Message::step(0, 0, &[])]);
    let mut places = vec![small::ROOT];
    places.extend((tree + 664..).step_by(8).take(continuations));
    let mut sheet = Sheet::default();
    let end = tree + 664 + 8 * continuations as u64;
    sheet.reserve(end);
    small::write_superblock(&mut sheet, end);
    small::write_group(&mut sheet, tree, &[]);
    header::write(&mut sheet, &places, 1, &blocks);
    sheet
}

fn objects_and_blocks() -> Vec<Special> {
    let mut later_fault = with_objects(MOST_OBJECTS);
    if let Content::Group(group) = &mut later_fault.objects[0].content {
        group.links.push(link("9/", Target::Object(1)));
    }
    vec![
        special(
            "1,024 objects",
            write(&with_objects(MOST_OBJECTS - 1), 1).sheet,
            0,
        ),
        special(
            "1,025 objects",
            write(&with_objects(MOST_OBJECTS), 1).sheet,
            12,
        ),
        special("1,025 objects, then 9", write(&later_fault, 1).sheet, 12),
        special("1,025 addresses", small::addresses(MOST_OBJECTS), 12),
        special("8,192 blocks", with_blocks(MOST_BLOCKS), 0),
        special("8,193 blocks", with_blocks(MOST_BLOCKS + 1), 13),
    ]
}

/// Trees with a root of level 0 to 9.
fn levels() -> Vec<Special> {
    (0..=9)
        .map(|level| {
            let links = [b"a", b"b", b"c"].map(|name| link(*name, Target::Object(0)));
            let mut root = root(links.to_vec());
            if let Content::Group(group) = &mut root.content {
                group.level = level;
            }
            let mut plan = Plan::new(vec![root]);
            (plan.leaf_k, plan.internal_k) = (1, 1);
            let number = if level > 8 { 8 } else { 0 };
            special(format!("level {level}"), write(&plan, 2).sheet, number)
        })
        .collect()
}

fn names() -> Vec<Special> {
    let with = |name: Vec<u8>| {
        let links = vec![link(name, Target::Object(0))];
        write(&Plan::new(vec![root(links)]), 3).sheet
    };
    let soft = |value: Vec<u8>| {
        let links = vec![link("soft", Target::Soft(value))];
        write(&Plan::new(vec![root(links)]), 3).sheet
    };
    vec![
        special("name of 255", with(vec![b'n'; 255]), 0),
        special("name of 256", with(vec![b'n'; 256]), 9),
        special("name .", with(b".".to_vec()), 9),
        special("name ..", with(b"..".to_vec()), 0),
        special("name a/b", with(b"a/b".to_vec()), 9),
        special("empty name", with(Vec::new()), 9),
        special("empty link value", soft(Vec::new()), 0),
        special("link value of 300", soft(vec![b'/'; 300]), 0),
    ]
}

/// A dataset "d", and a committed datatype without a name that it may share.
fn with_dataset(sizes: Vec<u64>, datatype: Datatype, layout: Layout) -> Sheet {
    let dataset = Dataset {
        sizes,
        maxima: None,
        datatype,
        layout,
    };
    let links = vec![link("d", Target::Object(1))];
    let objects = vec![
        root(links),
        Object::new(Content::Dataset(dataset)),
        Object::new(Content::Committed),
    ];
    write(&Plan::new(objects), 4).sheet
}

fn ranks() -> Vec<Special> {
    [(0, 0), (1, 0), (32, 0), (33, 11), (255, 11)]
        .into_iter()
        .map(|(rank, number)| {
            let sheet = with_dataset(vec![1; rank], Datatype::integer(4), Layout::Stored(4));
            special(format!("rank {rank}"), sheet, number)
        })
        .collect()
}

/// Products of sizes that pass 64 and 128 bits.
fn products() -> Vec<Special> {
    let half = 1 << 32;
    let top = 1 << 63;
    let cases: [(Vec<u64>, u32, u64, u32); 9] = [
        (vec![top, 0, top], 4, 0, 0),
        (vec![top, top, top, 0], 1, 0, 0),
        (vec![half, half], 1, 0, 11),
        (vec![half, half], 4, 0, 11),
        (vec![top], 2, 0, 11),
        (vec![top; 32], 2, 0, 11),
        (vec![1 << 62, 1 << 62, 16], 1, 0, 11),
        (vec![UNDEFINED], 1, UNDEFINED, 0),
        (vec![half + 1, half - 1], 1, UNDEFINED, 0),
    ];
    cases
        .into_iter()
        .map(|(sizes, element, size, number)| {
            let name = format!("sizes {sizes:?} of {element} in {size}");
            let layout = Layout::At(UNDEFINED, size);
            special(
                name,
                with_dataset(sizes, Datatype::integer(element), layout),
                number,
            )
        })
        .collect()
}

/// Addresses whose sum with the length is 2^64 or near it.
fn sums() -> Vec<Special> {
    let mut all = Vec::new();
    for (field, nth, length) in [
        ("root address", 0, 16),
        ("root address", 0, 40),
        ("entry address", 0, 16),
        ("entry address", 1, 96),
        ("table heap", 0, 32),
        ("heap segment", 0, 88),
        ("table tree", 0, 544),
        ("tree child", 0, 328),
        ("layout address", 0, 4),
    ] {
        for more in [0u64, 1, 2] {
            let address = 0u64.wrapping_sub(length).wrapping_sub(1).wrapping_add(more);
            // Data at the undefined address isn't entered.
            let undefined = field == "layout address" && address == UNDEFINED;
            let number = if undefined { 0 } else { 5 };
            let name = format!("{field} {address:x}");
            all.push(special(name, small::h().with(field, nth, address), number));
        }
    }
    all
}

/// Lengths and addresses of data and continuations that pass 2^64.
fn far_ends() -> Vec<Special> {
    let mut all = Vec::new();
    let far = Layout::At(8, UNDEFINED);
    let shared = Datatype::Shared {
        version: 2,
        object: 2,
    };
    all.push(special(
        "data to 2^64",
        with_dataset(Vec::new(), shared, far),
        5,
    ));
    let mut continued = root(Vec::new());
    continued.parents = vec![0];
    let sheet = write(&Plan::new(vec![continued]), 5).sheet;
    for (field, value, number) in [
        ("continuation address", 0u64.wrapping_sub(8), 5),
        ("continuation address", UNDEFINED, 5),
        ("continuation length", UNDEFINED, 5),
        ("continuation length", 7, 10),
        ("header size", 0xffff_ffff, 5),
    ] {
        let name = format!("{field} {value:x}");
        all.push(special(name, sheet.with(field, 0, value), number));
    }
    all
}

/// Lengths that are read, whose sum with the address is 2^64 or near it, or is 96 if what passes 2^64 is lost.
fn lengths_near_the_top() -> Vec<Special> {
    let mut continued = root(Vec::new());
    continued.parents = vec![0];
    let continued = write(&Plan::new(vec![continued]), 5).sheet;
    let mut all = Vec::new();
    for (sheet, address, length) in [
        (small::h(), "heap segment", "heap segment size"),
        (continued, "continuation address", "continuation length"),
        (shared_data(), "layout address", "layout size"),
    ] {
        let from = sheet.value(sheet.field(address, 0));
        for over in [UNDEFINED, 0, 1, 96] {
            let value = 0u64.wrapping_sub(from).wrapping_add(over);
            let name = format!("{length} {value:x}");
            all.push(special(name, sheet.with(length, 0, value), 5));
        }
        for over in [0, 1, 96] {
            let halves = sheet
                .with(address, 0, 1 << 63)
                .with(length, 0, (1 << 63) + over);
            all.push(special(format!("{length} from 2^63, {over}"), halves, 5));
        }
    }
    // 16 plus the size passes 2^32.
    for size in [0xffff_ffef, 0xffff_fff0, 0xffff_fff8, 0xffff_ffff] {
        let sheet = small::h().with("header size", 0, size);
        all.push(special(format!("header size {size:x}"), sheet, 5));
    }
    all
}

/// Data whose size is compared with nothing, since the datatype is shared.
fn shared_data() -> Sheet {
    let shared = Datatype::Shared {
        version: 2,
        object: 2,
    };
    with_dataset(Vec::new(), shared, Layout::Stored(16))
}

/// Offset plus precision passes 2^16, and 8 times the size passes 2^32.
fn sums_of_bits() -> Vec<Special> {
    let cases = [
        (1, 65_535, 1, 11),
        (8191, 65_535, 1, 11),
        (8192, 65_535, 1, 0),
        (8192, 65_535, 2, 11),
        (16_383, 65_535, 65_535, 11),
        (16_384, 65_535, 65_535, 0),
        (0x2000_0000, 65_535, 65_535, 0),
        (0x2000_0001, 8, 1, 0),
        (0xffff_ffff, 65_535, 65_535, 0),
    ];
    cases
        .into_iter()
        .map(|(size, offset, precision, number)| {
            let datatype = Datatype::Own {
                class: 0,
                version: 1,
                bits: 0,
                size,
                offset,
                precision,
            };
            let layout = Layout::At(UNDEFINED, u64::from(size));
            let name = format!("{precision} bits at {offset} of {size} bytes");
            special(name, with_dataset(vec![1], datatype, layout), number)
        })
        .collect()
}

fn heaps() -> Vec<Special> {
    let cases = [
        ("heap free head", 0u64.wrapping_sub(16), 9),
        ("heap free head", 0u64.wrapping_sub(8), 9),
        ("heap free head", 0, 9),
        ("heap free head", 73, 9),
        ("heap free head", UNDEFINED, 0),
        ("heap free head", 1, 0),
        ("free next", 24, 9),
        ("free next", UNDEFINED, 9),
        ("free size", UNDEFINED, 9),
        ("free size", 0u64.wrapping_sub(8), 9),
        ("free size", 15, 9),
        ("free size", 65, 9),
        ("free size", 16, 0),
        ("heap segment size", 7, 9),
        ("heap segment size", 0, 9),
        ("heap segment size", UNDEFINED, 5),
        ("tree key", UNDEFINED, 9),
        ("tree key", 87, 0),
        ("tree key", 88, 9),
        ("tree key", 8, 8),
        ("entry name", UNDEFINED, 9),
        ("entry name", 87, 9),
    ];
    cases
        .into_iter()
        .map(|(field, value, number)| {
            let name = format!("{field} {value:x}");
            special(name, small::h().with(field, 0, value), number)
        })
        .collect()
}

fn superblocks() -> Vec<Special> {
    let mut all = Vec::new();
    for (field, value, number) in [
        ("superblock end of file", 95, 5),
        ("superblock end of file", 0, 5),
        ("superblock end of file", 1228, 0),
        ("superblock base", 1, 3),
        ("superblock leaf K", 0, 4),
        ("superblock internal K", 0, 4),
        ("root type", 1, 0),
        ("root type", 2, 4),
        ("root address", 0, 6),
        ("root address", small::DATASET, 0),
    ] {
        let name = format!("{field} {value:x}");
        all.push(special(name, small::h().with(field, 0, value), number));
    }
    all
}

/// Both versions at the shortest lengths, and the longest image.
fn lengths() -> Vec<Special> {
    let mut all = Vec::new();
    let mut plan = Plan::new(vec![Object::new(Content::Committed)]);
    all.push(special(
        "a committed datatype alone",
        write(&plan, 6).sheet,
        0,
    ));
    plan.version = 1;
    all.push(special("the same in version 1", write(&plan, 6).sheet, 0));
    for (length, number) in [(95, 1), (96, 4), (99, 4), (100, 4)] {
        let mut sheet = write(&plan, 6).sheet;
        sheet.bytes.truncate(length);
        sheet
            .fields
            .retain(|field| field.at + field.width <= length);
        all.push(special(format!("version 1 in {length}"), sheet, number));
    }
    let mut sheet = write(&plan, 6).sheet.with("superblock end of file", 0, 96);
    sheet.bytes.truncate(99);
    sheet.fields.retain(|field| field.at + field.width <= 99);
    all.push(special("version 1 in 99, end 96", sheet, 4));
    for (length, number) in [(MOST_BYTES, 0), (MOST_BYTES + 1, 1)] {
        let mut sheet = small::h();
        sheet.bytes.resize(length, 0);
        all.push(special(format!("{length} bytes"), sheet, number));
    }
    all
}
