//! Damage to single fields and single bytes.

use super::random::Random;
use super::sheet::{set, value, Field, Sheet};

/// Changes one thing in an image of a sheet; a shortened image is left as it is.
pub fn damage(image: &mut Vec<u8>, sheet: &Sheet, random: &mut Random) {
    if image.len() < sheet.bytes.len() {
        return;
    }
    match random.below(12) {
        0 => {
            let at = random.below(image.len() as u64) as usize;
            image[at] = random.word() as u8;
        }
        1 => {
            let at = random.below(image.len() as u64) as usize;
            image[at] ^= 1 << random.below(8);
        }
        2 if random.once_in(4) => cut(image, sheet, random),
        _ => change_field(image, sheet, random),
    }
}

/// Another length, with or without an end of file that fits.
fn cut(image: &mut Vec<u8>, sheet: &Sheet, random: &mut Random) {
    let length = match random.below(3) {
        0 => random.below(130),
        1 => random.below(image.len() as u64),
        _ => image.len() as u64 - 1,
    };
    let fits = length >= 100 && random.once_in(2);
    if fits {
        set(image, sheet.field("superblock end of file", 0), length);
    }
    image.truncate(length as usize);
}

fn change_field(image: &mut [u8], sheet: &Sheet, random: &mut Random) {
    let field = choose(sheet, random);
    let old = value(image, field);
    let mask = u64::MAX >> (64 - 8 * field.width);
    let new = match random.below(13) {
        0 => 0,
        1 => mask,
        2 | 3 => old.wrapping_add(1),
        4 | 5 => old.wrapping_sub(1),
        6 => old ^ 1 << random.below(8 * field.width as u64),
        7 => random.word(),
        8 => random.below(64),
        9 => random.below(image.len() as u64),
        10 => swap(image, sheet, field, random),
        11 => header(sheet, random),
        _ => near_the_top(sheet, random),
    };
    set(image, field, new & mask);
}

/// A field: half the time each name has the same chance, else each field. Most of the time it isn't one of the
/// superblock, whose faults hide all others.
fn choose(sheet: &Sheet, random: &mut Random) -> Field {
    let deep = !random.once_in(6);
    let mut fields: Vec<Field> = sheet
        .fields
        .iter()
        .copied()
        .filter(|field| field.width > 0 && (field.at >= 96 || !deep))
        .collect();
    if fields.is_empty() {
        return sheet.fields[0];
    }
    if random.once_in(2) {
        let mut names: Vec<&str> = fields.iter().map(|field| field.name).collect();
        names.sort_unstable();
        names.dedup();
        let name = random.pick(&names);
        fields.retain(|field| field.name == name);
    }
    random.pick(&fields)
}

/// Puts the field's value into another field of its width and gives that one's.
fn swap(image: &mut [u8], sheet: &Sheet, field: Field, random: &mut Random) -> u64 {
    let old = value(image, field);
    let alike: Vec<Field> = sheet
        .fields
        .iter()
        .copied()
        .filter(|other| other.width == field.width)
        .collect();
    let same_name: Vec<Field> = alike
        .iter()
        .copied()
        .filter(|other| other.name == field.name)
        .collect();
    let from = if random.once_in(2) { alike } else { same_name };
    let other = random.pick(&from);
    let new = value(image, other);
    if random.once_in(2) {
        set(image, other, old);
    }
    new
}

/// The place of an object's header, where a link or a sharing then leads to, or 0 in a file that is too short for one.
fn header(sheet: &Sheet, random: &mut Random) -> u64 {
    let mut headers: Vec<u64> = sheet
        .fields
        .iter()
        .filter(|field| field.name == "header version")
        .map(|field| field.at as u64)
        .collect();
    if headers.is_empty() {
        headers.push(0);
    }
    random.pick(&headers)
}

/// A value whose sum with a small length passes 2^64, or comes near it.
fn near_the_top(sheet: &Sheet, random: &mut Random) -> u64 {
    let lengths = [1, 4, 8, 16, 24, 32, 40, sheet.bytes.len() as u64];
    let length = random.pick(&lengths);
    let off = random.below(3);
    0u64.wrapping_sub(length).wrapping_add(off).wrapping_sub(1)
}
