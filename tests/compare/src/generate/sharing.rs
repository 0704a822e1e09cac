//! Files with sharings: attributes and datasets whose datatype is a committed one, or should be.

use super::attribute::{Attribute, Datatype, SHARED_ADDRESS};
use super::dataset::{self, Dataset, Layout};
use super::faults;
use super::header::Message;
use super::plan::{Content, Object, Plan, Target};
use super::sheet::Sheet;
use super::special::{link, root, special, Special};
use super::write::write;
use super::UNDEFINED;
use crate::reader::MOST_OBJECTS;

/// Files with two faults, one or none.
pub fn all() -> Vec<Special> {
    let mut all = versions();
    all.extend(sizes());
    all.extend(shared_parts());
    all.extend(addresses());
    all.extend(attributes_of_every_kind());
    all.extend(datasets_that_share());
    all.extend(kinds_known_later());
    all.extend(own_messages());
    all.extend(limits());
    all.extend(faults::pairs());
    all
}

/// Files that an audit passes, to be damaged.
pub fn passed() -> Vec<Special> {
    let mut all = vec![special("everything that shares", faults::everything(), 0)];
    for (name, plan) in sound() {
        all.push(special(name, write(&plan, 3).sheet, 0));
    }
    all
}

fn committed() -> Object {
    Object::new(Content::Committed)
}

/// A dataset of one element without data.
fn dataset(datatype: dataset::Datatype) -> Object {
    Object::new(Content::Dataset(Dataset {
        sizes: Vec::new(),
        maxima: None,
        layout: Layout::At(UNDEFINED, datatype.size()),
        datatype,
    }))
}

fn sharing(object: usize) -> dataset::Datatype {
    dataset::Datatype::Shared { version: 2, object }
}

fn with_steps(mut object: Object, steps: Vec<Message>) -> Object {
    object.steps = steps;
    object
}

/// A root group alone with these messages, and a committed datatype without a name.
fn root_with(steps: Vec<Message>) -> Sheet {
    let root = with_steps(root(Vec::new()), steps);
    write(&Plan::new(vec![root, committed()]), 2).sheet
}

fn root_with_attribute(attribute: &Attribute) -> Sheet {
    root_with(vec![attribute.message()])
}

/// Versions, flags, and bytes that are ignored.
fn versions() -> Vec<Special> {
    let mut all = Vec::new();
    for version in 1..=3 {
        for ignored in [0, 1, 2, 3, 255] {
            let mut own = Attribute::own(version);
            own.ignored = ignored;
            let name = format!("attribute version {version}, ignored byte {ignored}");
            all.push(special(name, root_with_attribute(&own), 0));
        }
        let sheet = root_with_attribute(&Attribute::own(version));
        for wrong in [0, 4, 5, 255] {
            let name = format!("attribute version {wrong} for {version}");
            let sheet = sheet.with("attribute version", 0, wrong);
            all.push(special(name, sheet, 3));
        }
        let name = format!("attribute version {version} with the shared flag");
        all.push(special(name, sheet.with("message flags", 1, 2), 3));
    }
    for version in 2..=3 {
        let shared = root_with_attribute(&Attribute::shared(version, 1));
        let own = root_with_attribute(&Attribute::own(version));
        for (flags, number) in [(0, 0), (1, 0), (2, 3), (3, 3), (4, 3), (0x80, 3), (0xff, 3)] {
            let name = format!("attribute version {version}, flags {flags}");
            let sheet = shared.with("attribute flags", 0, flags);
            all.push(special(name, sheet, number));
        }
        // A datatype of its own stands where the shared part should.
        let name = format!("attribute version {version}, shared by its flags alone");
        all.push(special(name, own.with("attribute flags", 0, 1), 3));
    }
    let empty = Message::step(0x0c, 0, &[]);
    all.push(special("attribute in 0", root_with(vec![empty]), 10));
    let zeros = Message::step(0x0c, 0, &[0; 8]);
    all.push(special(
        "attribute of zeros in 8",
        root_with(vec![zeros]),
        3,
    ));
    for (version, number) in [(1, 0), (2, 0), (3, 10)] {
        let message = Message::step(0x0c, 0, &[version]);
        let name = format!("attribute version {version} in 8");
        all.push(special(name, root_with(vec![message]), number));
    }
    all
}

const SIZES: [&str; 3] = [
    "attribute name size",
    "attribute datatype size",
    "attribute dataspace size",
];

/// "attributes whose parts leave their body", by a byte and by far; and sums that pass 2^16.
fn sizes() -> Vec<Special> {
    let mut all = Vec::new();
    for (version, most) in [(1, [16, 24, 16]), (2, [12, 22, 18]), (3, [11, 21, 17])] {
        let sheet = root_with_attribute(&Attribute::own(version));
        for (field, most) in SIZES.into_iter().zip(most) {
            let wrong = [most + 1, 99, 0xfff0, 0xfff8, 0xfff9, 0xffff];
            let cases = wrong.map(|size| (size, 10));
            for (size, number) in cases.into_iter().chain([(most, 0), (0, 0)]) {
                let name = format!("{field} {size} in version {version}");
                all.push(special(name, sheet.with(field, 0, size), number));
            }
        }
        let wide = SIZES
            .iter()
            .fold(sheet, |sheet, field| sheet.with(field, 0, 0x5555));
        let name = format!("sizes that sum to 2^16 - 1 in version {version}");
        all.push(special(name, wide, 10));
    }
    all
}

/// "version 2, or version 3 with type 2", and the sizes of the part.
fn shared_parts() -> Vec<Special> {
    let mut all = Vec::new();
    for attribute in 2..=3 {
        for (version, kind, number) in [
            (2, 0, 0),
            (2, 1, 0),
            (2, 2, 0),
            (2, 255, 0),
            (3, 2, 0),
            (3, 0, 3),
            (3, 1, 3),
            (3, 3, 3),
            (0, 2, 3),
            (1, 2, 3),
            (1, 0, 3),
            (4, 2, 3),
            (255, 2, 3),
        ] {
            for size in [10, 11, 16, 200] {
                let shared = Attribute {
                    datatype: Datatype::Shared {
                        version,
                        kind,
                        size,
                        object: 1,
                    },
                    ..Attribute::shared(attribute, 1)
                };
                let name = format!("attribute {attribute} shares {version}, {kind} in {size}");
                all.push(special(name, root_with_attribute(&shared), number));
            }
        }
        let sheet = root_with_attribute(&Attribute::shared(attribute, 1));
        for size in [0, 1, 8, 9] {
            let name = format!("attribute {attribute} shares in {size}");
            let sheet = sheet.with("attribute datatype size", 0, size);
            // The size stands before the part.
            let version = sheet.with("attribute shared version", 0, 1);
            all.push(special(format!("{name}, of version 1"), version, 10));
            all.push(special(name, sheet, 10));
        }
    }
    all
}

/// No address is special: it is an object that can't be walked.
fn addresses() -> Vec<Special> {
    let attribute = root_with_attribute(&Attribute::shared(2, 1));
    let links = vec![link("d", Target::Object(1))];
    let objects = vec![root(links), dataset(sharing(2)), committed()];
    let datatype = write(&Plan::new(objects), 2).sheet;
    let mut all = Vec::new();
    for (sheet, field) in [(attribute, SHARED_ADDRESS), (datatype, "shared address")] {
        let end = sheet.bytes.len() as u64;
        for (address, number) in [
            (UNDEFINED, 5),
            (UNDEFINED - 15, 5),
            (end, 5),
            (end - 15, 5),
            (1 << 32, 5),
            (1 << 63, 5),
            (0, 6),
        ] {
            let name = format!("{field} {address:x}");
            all.push(special(name, sheet.with(field, 0, address), number));
        }
    }
    all
}

/// A root group, a group and a dataset with names, a committed datatype with a name and one without.
fn one_of_each() -> Vec<Object> {
    let links = vec![
        link("d", Target::Object(2)),
        link("g", Target::Object(1)),
        link("t", Target::Object(3)),
    ];
    vec![
        root(links),
        root(Vec::new()),
        dataset(dataset::Datatype::integer(4)),
        committed(),
        committed(),
    ]
}

/// An attribute on each object that shares each, itself too.
fn attributes_of_every_kind() -> Vec<Special> {
    let mut all = Vec::new();
    for holder in 0..4 {
        for object in 0..5 {
            for version in 2..=3 {
                let mut objects = one_of_each();
                let attribute = Attribute::shared(version, object);
                objects[holder].steps = vec![attribute.message()];
                let name = format!("attribute {version} of {holder} shares {object}");
                let number = if object < 3 { 10 } else { 0 };
                let sheet = write(&Plan::new(objects), 5).sheet;
                all.push(special(name, sheet, number));
            }
        }
    }
    all
}

/// A dataset that shares each, itself too, with a fault before and behind its datatype.
fn datasets_that_share() -> Vec<Special> {
    let mut all = Vec::new();
    for object in 0..5 {
        let mut objects = one_of_each();
        objects[2] = dataset(sharing(object));
        let sheet = write(&Plan::new(objects), 6).sheet;
        let number = if object < 3 { 10 } else { 0 };
        let name = format!("dataset shares {object}");
        let space = sheet.with("dataspace version", 0, 0);
        all.push(special(format!("{name}, bad dataspace"), space, 3));
        let layout = sheet.with("layout version", 0, 0);
        // The group's header isn't read yet.
        let later = if matches!(object, 0 | 2) { 10 } else { 3 };
        all.push(special(format!("{name}, bad layout"), layout, later));
        all.push(special(name, sheet, number));
    }
    all
}

/// "answer 10 once both are known": the root shares an object that only later turns out to be of another kind.
fn kinds_known_later() -> Vec<Special> {
    let mut all = Vec::new();
    for (kind, other) in [
        ("group", root(Vec::new())),
        ("dataset", dataset(dataset::Datatype::integer(4))),
    ] {
        let links = vec![link("x", Target::Object(1))];
        let attribute = Attribute::shared(2, 1).message();
        let root = with_steps(root(links), vec![attribute]);
        let file = write(&Plan::new(vec![root, other]), 7);
        let [root, shared] = file.places[..] else {
            unreachable!("two objects");
        };
        let heap = |group| heap_of(&file.sheet, group);
        // What the shared object's contents begin with: the version of its heap or its dataspace.
        let contents = match kind {
            "group" => heap(shared) + 4,
            _ => shared + 24,
        };
        for (fault, at, value, number, place) in [
            ("sound", shared, 1, 10, shared),
            ("the root's heap version", heap(root) + 4, 1, 7, heap(root)),
            ("its version", shared, 2, 3, shared),
            ("its first message's type", shared + 16, 2, 3, shared + 16),
            ("its total of messages", shared + 2, 9, 10, shared),
            ("its contents", contents, 9, 10, shared),
        ] {
            let mut sheet = file.sheet.clone();
            sheet.raw(at, &[value]);
            let name = format!("{kind} shared by the root, {fault}");
            all.push(special(name, sheet, number).at(place));
        }
    }
    all
}

/// The heap of a group whose first message is the symbol table.
fn heap_of(sheet: &Sheet, group: u64) -> u64 {
    let at = group as usize + 32;
    u64::from_le_bytes(sheet.bytes[at..at + 8].try_into().expect("8 bytes"))
}

/// "a shared flag on a committed datatype's own message", which comes with the kind.
fn own_messages() -> Vec<Special> {
    let with = |name: &str, steps: Vec<Message>, version: u8, number: u32| {
        let links = vec![link("t", Target::Object(1))];
        let objects = vec![root(links), with_steps(committed(), steps)];
        let file = write(&Plan::new(objects), 8);
        let (mut sheet, place) = (file.sheet, file.places[1]);
        sheet.raw(place, &[version]);
        // The flags of the first message: one step stands behind it.
        sheet.raw(place + 20, &[2]);
        (special(name, sheet, number), place)
    };
    let attribute = Attribute::shared(2, 1).message();
    let bad = Message::step(2, 0, &[]);
    let (alone, place) = with("own flag", Vec::new(), 1, 10);
    let (shared, shared_place) = with("own flag and attribute", vec![attribute], 1, 10);
    vec![
        alone.at(place),
        shared.at(shared_place),
        with("own flag, version 2", Vec::new(), 2, 3).0,
        with("own flag, then type 2", vec![bad], 1, 3).0,
    ]
}

/// A root group with so many committed datatypes below it, the last with these messages, and one more without a name.
fn named(count: usize, last: Object) -> Sheet {
    let links = (1..=count)
        .map(|number| link(format!("{number:04}"), Target::Object(number)))
        .collect();
    let mut objects = vec![root(links)];
    objects.resize(count, committed());
    objects.push(last);
    objects.push(committed());
    write(&Plan::new(objects), 9).sheet
}

/// A root group without links whose attributes share so many committed datatypes without names, then one more object.
fn unnamed(count: usize, more: usize) -> Sheet {
    let mut attributes: Vec<Message> = (1..=count)
        .map(|object| Attribute::shared(2 + object as u8 % 2, object).message())
        .collect();
    // All stand in one block, in an order of its own.
    attributes.insert(0, Attribute::shared(2, more).message());
    let mut objects = vec![with_steps(root(Vec::new()), attributes)];
    objects.resize(count + 2, committed());
    write(&Plan::new(objects), 10).sheet
}

/// The place of the last message whose body begins with such a field.
fn last_message(sheet: &Sheet, field: &str) -> u64 {
    let fields = sheet.fields.iter().filter(|other| other.name == field);
    let last = fields.map(|field| field.at).max();
    last.expect("a field of that name") as u64 - 8
}

/// How many objects there may be besides the root.
const MOST: usize = MOST_OBJECTS - 1;

/// As many objects as there may be, some of them found by sharings, and one more.
fn limits() -> Vec<Special> {
    let mut all = Vec::new();
    let shared = |object| Attribute::shared(2, object).message();
    let bad = || Message::step(2, 0, &[]);
    // A later step of an object with one message stands before an earlier one.
    for (name, count, steps, number) in [
        ("last by attribute", MOST - 1, vec![shared(MOST)], 0),
        ("one more by attribute", MOST, vec![shared(MOST + 1)], 12),
        (
            "one more by attribute, then 3",
            MOST,
            vec![bad(), shared(MOST + 1)],
            12,
        ),
        ("most objects, one shared", MOST, vec![shared(7)], 0),
        ("most objects, the root shared", MOST, vec![shared(0)], 10),
    ] {
        let sheet = named(count, with_steps(committed(), steps));
        let place = last_message(&sheet, "attribute version");
        all.push(special(name, sheet, number).at(place));
    }
    let last = with_steps(committed(), vec![shared(MOST + 1), bad()]);
    let name = "3, then one more by attribute";
    all.push(special(name, named(MOST, last), 3));
    for (name, count, object, number) in [
        ("last by dataset", MOST - 1, MOST, 0),
        ("one more by dataset", MOST, MOST + 1, 12),
        ("most objects, a dataset shares one", MOST, 7, 0),
        ("most objects, a dataset shares the root", MOST, 0, 10),
    ] {
        let sheet = named(count, dataset(sharing(object)));
        let space = sheet.with("dataspace version", 0, 0);
        all.push(special(format!("{name}, bad dataspace"), space, 3));
        let later = if number == 0 { 3 } else { number };
        let layout = sheet.with("layout version", 0, 0);
        all.push(special(format!("{name}, bad layout"), layout, later));
        let place = last_message(&sheet, "shared version");
        all.push(special(name, sheet, number).at(place));
    }
    let sheet = unnamed(MOST, MOST + 1);
    let place = last_message(&sheet, "attribute version");
    all.push(special("one more by attributes", sheet, 12).at(place));
    let sheet = unnamed(MOST, 0);
    let root = sheet.value(sheet.field("root address", 0));
    all.push(special("most by attributes, the root too", sheet, 10).at(root));
    all.push(special("one less by attributes", unnamed(MOST - 1, 1), 0));
    all.push(special("most by attributes", unnamed(MOST - 1, MOST), 0));
    all.push(special(
        "most by attributes, one again",
        unnamed(MOST, MOST),
        0,
    ));
    all
}

/// Plans that an audit passes, by name: whoever shares, and what.
pub fn sound() -> Vec<(&'static str, Plan)> {
    let many = |count: usize, object: usize| -> Vec<Message> {
        (0..count)
            .map(|turn| Attribute::shared(2 + turn as u8 % 2, object).message())
            .collect()
    };
    let shared = |version, object| Attribute::shared(version, object).message();
    let mut plans = Vec::new();
    for (name, count) in [("20 attributes", 20), ("300 attributes", 300)] {
        let root = with_steps(root(Vec::new()), many(count, 1));
        plans.push((name, vec![root, committed()]));
    }
    // In one header and over continuations: a queue.
    let mut root_1 = with_steps(root(Vec::new()), (1..40).map(|to| shared(3, to)).collect());
    root_1.parents = vec![0, 0, 1, 2, 1];
    let mut objects = vec![root_1];
    objects.resize(40, committed());
    plans.push(("attributes over continuations", objects));
    let links = vec![link("d", Target::Object(1)), link("e", Target::Object(2))];
    let objects = vec![
        root(links),
        dataset(sharing(3)),
        with_steps(dataset(sharing(3)), vec![shared(2, 3), shared(3, 4)]),
        with_steps(committed(), vec![shared(2, 3), shared(3, 3)]),
        with_steps(committed(), vec![shared(3, 5)]),
        with_steps(committed(), vec![shared(2, 3)]),
    ];
    plans.push(("a chain of unnamed datatypes", objects));
    let plan = |(name, objects)| (name, Plan::new(objects));
    plans.into_iter().map(plan).collect()
}
