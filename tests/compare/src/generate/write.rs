//! A plan turned into a file.

use super::group::Writer;
use super::header::{self, Message};
use super::plan::{Content, Object, Plan};
use super::random::Random;
use super::sheet::Sheet;
use super::superblock::{self, Superblock};

pub struct File {
    pub sheet: Sheet,
    /// Every object's place.
    pub places: Vec<u64>,
    /// Every object's stored count.
    pub stored: Vec<u32>,
}

pub fn write(plan: &Plan, seed: u64) -> File {
    let mut random = Random::new(seed);
    let mut sheet = Sheet::default();
    sheet.reserve(superblock::length(plan.version));
    let mut order: Vec<usize> = (0..plan.objects.len()).collect();
    random.shuffle(&mut order);
    let mut blocks = vec![Vec::new(); order.len()];
    for &number in &order {
        blocks[number] = reserve_header(&mut sheet, &mut random, plan, &plan.objects[number]);
    }
    let places: Vec<u64> = blocks.iter().map(|block| block[0]).collect();
    let stored = stored_counts(plan);
    for &number in &order {
        let object = &plan.objects[number];
        let messages = write_content(&mut sheet, &mut random, plan, object, &places);
        let dealt = header::deal(messages, &object.parents);
        header::write(&mut sheet, &blocks[number], stored[number], &dealt);
    }
    let end = sheet.reserve(0);
    let head = Superblock {
        version: plan.version,
        leaf_k: plan.leaf_k,
        internal_k: plan.internal_k,
        end,
        root: places[0],
    };
    head.write(&mut sheet);
    sheet.reserve(plan.tail);
    File {
        sheet,
        places,
        stored,
    }
}

fn reserve_header(
    sheet: &mut Sheet,
    random: &mut Random,
    plan: &Plan,
    object: &Object,
) -> Vec<u64> {
    let blocks = planned_header(object);
    let mut places = Vec::new();
    for (number, block) in blocks.iter().enumerate() {
        sheet.reserve(random.between(0, plan.gap));
        let prefix = if number == 0 { 16 } else { 0 };
        places.push(sheet.reserve(prefix + header::length(block)));
    }
    places
}

/// The messages of an object by block, without places.
pub fn planned_header(object: &Object) -> Vec<Vec<Message>> {
    header::deal(messages(object, (0, 0), &[]), &object.parents)
}

/// All messages of an object; `pair` is tree and heap, or data and shared object.
fn messages(object: &Object, pair: (u64, u64), places: &[u64]) -> Vec<Message> {
    let mut messages = match &object.content {
        Content::Group(_) => vec![Message::symbol_table(pair.0, pair.1)],
        Content::Dataset(dataset) => dataset.messages(pair.0, pair.1),
        Content::Committed => {
            let bytes = [0x10, 8, 0, 0, 4, 0, 0, 0, 0, 0, 32, 0, 0, 0, 0, 0];
            vec![Message::step(3, 0, &bytes)]
        }
    };
    for (number, step) in object.steps.iter().enumerate() {
        let turn = (number * 5 + 1) % (messages.len() + 1);
        messages.insert(turn, step.placed(places));
    }
    messages
}

fn write_content(
    sheet: &mut Sheet,
    random: &mut Random,
    plan: &Plan,
    object: &Object,
    places: &[u64],
) -> Vec<Message> {
    let mut writer = Writer {
        sheet,
        random,
        leaf_k: u64::from(plan.leaf_k),
        internal_k: u64::from(plan.internal_k),
        gap: plan.gap,
        places,
    };
    let pair = match &object.content {
        Content::Group(group) => writer.group(group),
        Content::Dataset(dataset) => {
            let data = writer.reserve(dataset.layout.stored());
            let bytes = writer.random.bytes(dataset.layout.stored());
            writer.sheet.raw(data, &bytes);
            let shared = dataset.datatype.object().map_or(0, |object| places[object]);
            (data, shared)
        }
        Content::Committed => (0, 0),
    };
    messages(object, pair, places)
}

fn stored_counts(plan: &Plan) -> Vec<u32> {
    let mut stored = vec![0; plan.objects.len()];
    for (number, count) in plan.walk() {
        stored[number] = (i64::from(count) + plan.objects[number].miscount) as u32;
    }
    stored
}
