//! Plans of random files that an audit passes.

use super::attribute::{self, Attribute};
use super::dataset::{Dataset, Datatype, Layout};
use super::header::Message;
use super::plan::{Content, Group, Link, Object, Plan, Target};
use super::random::Random;
use super::UNDEFINED;

pub fn plan(seed: u64) -> Plan {
    let mut random = Random::new(seed);
    let most = random.pick(&[1, 3, 5, 8, 8, 12, 24]);
    let count = random.between(1, most) as usize;
    let contents: Vec<Content> = (0..count)
        .map(|number| content(&mut random, number))
        .collect();
    // Only these may be shared.
    let committed: Vec<usize> = (0..count)
        .filter(|number| matches!(contents[*number], Content::Committed))
        .collect();
    let mut objects: Vec<Object> = contents
        .into_iter()
        .map(|content| object(&mut random, content, &committed))
        .collect();
    link_all(&mut random, &mut objects);
    Plan {
        version: random.below(2) as u8,
        leaf_k: random.pick(&[1, 1, 2, 2, 3, 4, 4, 7, 40]),
        internal_k: random.pick(&[1, 1, 2, 2, 3, 5, 16, 40]),
        objects,
        gap: random.pick(&[0, 0, 8, 23]),
        tail: random.pick(&[0, 0, 0, 1, 30]),
    }
}

fn content(random: &mut Random, number: usize) -> Content {
    let root_is_group = number == 0 && !random.once_in(24);
    match random.below(6) {
        _ if root_is_group => Content::Group(group(random)),
        0 | 1 => Content::Group(group(random)),
        2 => Content::Committed,
        _ => Content::Dataset(dataset(random)),
    }
}

fn group(random: &mut Random) -> Group {
    Group {
        level: random.pick(&[0, 0, 0, 0, 1, 1, 2, 3, 5, 8]),
        free: random.pick(&[0, 0, 1, 2, 4]),
        full: random.once_in(2),
        own_keys: random.once_in(3),
        ..Group::default()
    }
}

fn object(random: &mut Random, mut content: Content, committed: &[usize]) -> Object {
    if let Content::Dataset(dataset) = &mut content {
        if !committed.is_empty() && random.once_in(3) {
            dataset.datatype = Datatype::Shared {
                version: random.between(2, 3) as u8,
                object: random.pick(committed),
            };
        }
    }
    let mut object = Object::new(content);
    if random.once_in(3) {
        object.miscount = random.pick(&[-1, 1, 2, 7, 0xffff_fff0]);
    }
    for _ in 0..random.pick(&[0, 0, 1, 3]) {
        let kind = random.pick(&[0x00, 0x04, 0x05, 0x0d, 0x0e, 0x12]);
        let length = random.between(0, 24);
        let bytes = random.bytes(length);
        object
            .steps
            .push(Message::step(kind, flags(random), &bytes));
    }
    for _ in 0..random.pick(&[0, 0, 0, 1, 1, 2, 3, 9]) {
        let mut message = attribute(random, committed).message();
        message.flags = flags(random);
        object.steps.push(message);
    }
    random.shuffle(&mut object.steps);
    for block in 0..random.pick(&[0, 0, 0, 1, 2, 4]) {
        object.parents.push(random.between(0, block) as usize);
    }
    object
}

/// A message's flags without the shared one.
fn flags(random: &mut Random) -> u8 {
    random.pick(&[0, 0, 1, 4, 0x40, 0xfd])
}

/// A sound attribute. What isn't read of it is any bytes.
fn attribute(random: &mut Random, committed: &[usize]) -> Attribute {
    let version = random.between(1, 3) as u8;
    let datatype = if version > 1 && !committed.is_empty() && random.below(3) > 0 {
        let (version, kind) = random.pick(&[(2, 2), (2, 0), (2, 255), (3, 2)]);
        attribute::Datatype::Shared {
            version,
            kind,
            size: random.pick(&[10, 10, 10, 11, 16, 40]),
            object: random.pick(committed),
        }
    } else {
        attribute::Datatype::Own(some_bytes(random))
    };
    Attribute {
        version,
        name: some_bytes(random),
        datatype,
        space: some_bytes(random),
        data: some_bytes(random),
        ignored: random.pick(&[0, 1, 2, 3, 255]),
    }
}

fn some_bytes(random: &mut Random) -> Vec<u8> {
    let length = random.pick(&[0, 1, 2, 7, 8, 9, 16, 23]);
    random.bytes(length)
}

pub fn name(random: &mut Random) -> Vec<u8> {
    let length = match random.below(20) {
        0 => random.between(200, 255),
        1..=3 => random.between(9, 30),
        _ => random.between(1, 8),
    };
    let letters: &[u8] = random.pick(&[b"ab".as_slice(), b"abcxyz", b"a.-\x01\x7f\xff~"]);
    let mut name: Vec<u8> = (0..length).map(|_| random.pick(letters)).collect();
    if name == b"." {
        name.push(b'.');
    }
    name
}

/// Every object but a few gets a name in an earlier group, of committed datatypes two in three; then further names, loops
/// and symbolic links.
fn link_all(random: &mut Random, objects: &mut [Object]) {
    let groups: Vec<usize> = (0..objects.len())
        .filter(|number| matches!(objects[*number].content, Content::Group(_)))
        .collect();
    if groups.is_empty() {
        return;
    }
    let mut links: Vec<(usize, Target)> = Vec::new();
    for (number, object) in objects.iter().enumerate().skip(1) {
        let earlier = groups.partition_point(|group| *group < number);
        let unnamed = match object.content {
            Content::Committed => 3,
            _ => 24,
        };
        if earlier > 0 && !random.once_in(unnamed) {
            links.push((random.pick(&groups[..earlier]), Target::Object(number)));
        }
    }
    for _ in 0..random.pick(&[0, 1, 3, 6, 20]) {
        let number = random.below(objects.len() as u64) as usize;
        links.push((random.pick(&groups), Target::Object(number)));
    }
    for _ in 0..random.pick(&[0, 0, 1, 3]) {
        let length = random.pick(&[0, 1, 5, 40]);
        let value = vec![b'/'; length];
        links.push((random.pick(&groups), Target::Soft(value)));
    }
    for (number, target) in links {
        if let Content::Group(group) = &mut objects[number].content {
            let name = name(random);
            group.links.push(Link { name, target });
        }
    }
    for object in objects {
        if let Content::Group(group) = &mut object.content {
            group.settle();
        }
    }
}

pub fn datatype(random: &mut Random) -> Datatype {
    let class = random.pick(&[0, 0, 1, 3, 4, 5]);
    let size = random.pick(&[1, 2, 4, 8, 3]);
    let bits = 8 * u64::from(size);
    let offset = random.below(bits.min(8)) as u16;
    Datatype::Own {
        class,
        version: random.between(1, 3) as u8,
        bits: random.pick(&[0, 8, 0x1f20, 0xff_ffff]),
        size,
        offset,
        precision: random.between(1, bits - u64::from(offset)) as u16,
    }
}

fn dataset(random: &mut Random) -> Dataset {
    let rank = random.pick(&[0, 1, 1, 2, 3, 5]);
    let sizes: Vec<u64> = (0..rank)
        .map(|_| random.pick(&[1, 1, 2, 3, 4, 0]))
        .collect();
    let maxima = random.once_in(2).then(|| {
        let more = |size: &u64| random.pick(&[*size, size + 1, UNDEFINED]);
        sizes.iter().map(more).collect()
    });
    let datatype = datatype(random);
    let bytes = sizes.iter().product::<u64>() * datatype.size();
    let layout = match random.below(4) {
        0 => Layout::Compact(random.bytes(bytes)),
        1 => Layout::At(UNDEFINED, bytes),
        _ => Layout::Stored(bytes),
    };
    Dataset {
        sizes,
        maxima,
        datatype,
        layout,
    }
}
