//! A committed datatype whose count was lowered to its number of names is freed with the first dataset that is deleted,
//! and the other datasets lose their type. Files are mended, and then objects are deleted by the rules of the HDF5
//! library: nothing that is left may lose what it needs.

use compare::generate::attribute::Attribute;
use compare::generate::dataset::{Dataset, Datatype, Layout};
use compare::generate::header::Message;
use compare::generate::plan::{Content, Object, Plan, Target};
use compare::generate::sheet::value;
use compare::generate::special::{link, root};
use compare::generate::write::{write, File};
use compare::generate::UNDEFINED;
use compare::reader::{audit, describe, lookup, mend, BLOCK_WORDS, MOST_BLOCKS, MOST_OBJECTS};

/// The words of a list for every block that a walk may enter.
const FULL: usize = BLOCK_WORDS * MOST_BLOCKS;

/// The words of a log for every object that an audit may find.
const LOG: usize = 2 * MOST_OBJECTS;

/// The committed datatype's number in every plan.
const COMMITTED: usize = 3;

fn dataset(attributes: Vec<Message>) -> Object {
    let dataset = Dataset {
        sizes: Vec::new(),
        maxima: None,
        datatype: Datatype::Shared {
            version: 2,
            object: COMMITTED,
        },
        layout: Layout::At(UNDEFINED, 0),
    };
    let mut object = Object::new(Content::Dataset(dataset));
    object.steps = attributes;
    object
}

fn attribute(version: u8) -> Message {
    Attribute::shared(version, COMMITTED).message()
}

/// Two datasets "a" and "b" of one committed datatype, which has the name "t" or none; the same where each object but the
/// root has two attributes of that type, the datatype too.
fn plans() -> Vec<Plan> {
    let mut plans = Vec::new();
    for named in [true, false] {
        for attributes in [Vec::new(), vec![attribute(2), attribute(3)]] {
            let mut links = vec![link("a", Target::Object(1)), link("b", Target::Object(2))];
            if named {
                links.push(link("t", Target::Object(COMMITTED)));
            }
            let mut committed = Object::new(Content::Committed);
            committed.steps = attributes.clone();
            plans.push(Plan::new(vec![
                root(links),
                dataset(attributes.clone()),
                dataset(attributes),
                committed,
            ]));
        }
    }
    plans
}

fn number(image: &[u8], at: usize, width: usize) -> usize {
    let bytes = image[at..at + width].iter().rev();
    bytes.fold(0, |number, byte| number << 8 | usize::from(*byte))
}

fn count(image: &[u8], object: usize) -> u32 {
    number(image, object + 4, 4) as u32
}

fn set_count(image: &mut [u8], object: usize, count: u32) {
    image[object + 4..object + 8].copy_from_slice(&count.to_le_bytes());
}

/// Who shares what, read off the messages of a header without continuations: datatypes with the shared flag, and
/// attributes of versions 2 and 3 with theirs.
fn sharings(image: &[u8], object: usize) -> Vec<usize> {
    let mut sharings = Vec::new();
    let end = object + 16 + number(image, object + 8, 4);
    let mut at = object + 16;
    while at < end {
        let body = at + 8;
        match image[at] {
            0x03 if image[at + 4] & 2 != 0 => sharings.push(number(image, body + 2, 8)),
            0x0c if image[body + 1] & 1 != 0 => {
                let name = number(image, body + 2, 2);
                let start = if image[body] == 3 { 9 } else { 8 };
                sharings.push(number(image, body + start + name + 2, 8));
            }
            _ => {}
        }
        at = body + number(image, at + 2, 2);
    }
    sharings
}

/// What the library does when a link to an object or a sharing of it goes: its count falls, and at 0 its own sharings go
/// and its header's bytes are given to something else.
fn release(image: &mut [u8], object: usize) {
    let left = count(image, object).saturating_sub(1);
    set_count(image, object, left);
    if left > 0 {
        return;
    }
    // Its attributes may share the object itself: nothing is released twice.
    let others = sharings(image, object)
        .into_iter()
        .filter(|other| *other != object);
    let others: Vec<usize> = others.collect();
    let end = object + 16 + number(image, object + 8, 4);
    image[object..end].fill(0xee);
    for other in others {
        release(image, other);
    }
}

/// Deletes the name of an object: its entry becomes a symbolic link with an empty value.
fn delete(image: &mut [u8], file: &File, name: usize) {
    let sheet = &file.sheet;
    let object = value(image, sheet.field("entry address", name)) as usize;
    image[sheet.field("entry type", name).at] = 2;
    image[sheet.field("entry scratch", name).at..][..4].fill(0);
    release(image, object);
}

/// The stored count of each object of a plan.
fn stored(image: &[u8], file: &File) -> Vec<u32> {
    file.places
        .iter()
        .map(|place| count(image, *place as usize))
        .collect()
}

/// "a" is deleted: whether "b" and its datatype are as before.
fn survives(mut image: Vec<u8>, file: &File) -> bool {
    let before = describe(&image, b"/b", FULL);
    assert_eq!(before.number, 0);
    let committed = file.places[COMMITTED];
    assert_eq!(before.description.shared_address, committed);
    let named = lookup(&image, b"/t", FULL);
    delete(&mut image, file, 0);
    let whole = audit(&image, FULL);
    let found = whole
        .objects
        .iter()
        .find(|object| object.address == committed);
    let right = found.is_some_and(|object| object.stored == object.true_count);
    whole.number == 0
        && right
        && describe(&image, b"/b", FULL) == before
        && lookup(&image, b"/t", FULL) == named
}

/// A mended file, whatever its counts were, holds for each object its links and its sharings, and loses nothing when an
/// object goes.
fn nothing_is_lost(mut mended: impl FnMut(&[u8]) -> Vec<u8>) {
    for plan in plans() {
        let file = write(&plan, 11);
        // The library's counts are what the plan says: links and sharings.
        let library = &file.sheet.bytes;
        assert_eq!(stored(library, &file), file.stored);
        assert!(survives(library.clone(), &file));
        for wrong in [0, 1, 2, 7, u32::MAX] {
            let mut image = library.clone();
            for place in &file.places {
                set_count(&mut image, *place as usize, wrong);
            }
            let mended = mended(&image);
            assert_eq!(stored(&mended, &file), file.stored);
            assert!(&mended == library);
            assert!(survives(mended, &file));
        }
    }
}

#[test]
fn counts_of_a_plan_are_links_and_sharings() {
    let counts: Vec<Vec<u32>> = plans().iter().map(|plan| write(plan, 11).stored).collect();
    let expected = [[1, 1, 1, 3], [1, 1, 1, 9], [1, 1, 1, 2], [1, 1, 1, 8]];
    assert_eq!(counts, expected);
}

/// The accident itself: a count of links alone.
#[test]
fn a_lowered_count_loses_the_datatype() {
    let file = write(&plans()[0], 11);
    let mut image = file.sheet.bytes.clone();
    assert_eq!(count(&image, file.places[COMMITTED] as usize), 3);
    set_count(&mut image, file.places[COMMITTED] as usize, 1);
    assert!(!survives(image, &file));
}

#[test]
fn mended_files_lose_nothing() {
    nothing_is_lost(|image| {
        let mut mended = image.to_vec();
        assert_eq!(mend(&mut mended, FULL, LOG, u64::MAX).number, 0);
        mended
    });
}

#[cfg(feature = "proved")]
#[test]
fn files_mended_by_the_proved_library_lose_nothing() {
    use compare::agree::Pair;
    use compare::reader::front::MEND_WORDS;
    let mut pair = Pair::default();
    nothing_is_lost(|image| {
        let lent = (8 * FULL, 8 * LOG, 8 * MEND_WORDS);
        assert_eq!(pair.mends_agree("accident", image, lent, u64::MAX), 0);
        pair.left().image.clone()
    });
}
