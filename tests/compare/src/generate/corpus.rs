//! The images that the tests read, from fixed seeds.

use super::damage::damage;
use super::paths;
use super::plan::Plan;
use super::random::Random;
use super::sheet::Sheet;
use super::write::write;
use super::{files, special};
use crate::reader::MOST_BLOCKS;

/// So many images come from one file: the file itself and damaged copies.
const COPIES: u64 = 25;

/// Longer files take too long for so many calls. Other tests read all special files.
const LONGEST: usize = 1 << 20;

/// The rooms that most images are read with, besides one that is enough.
pub const SMALL_ROOMS: std::ops::RangeInclusive<usize> = 0..=12;

/// Room for all blocks of an image, or for as many as a walk may enter. A block has 8 bytes or more, or it is data, whose
/// header has twice as many. Short lists keep the many calls on small images quick.
pub fn full_room(image: &[u8]) -> usize {
    (image.len() / 8).clamp(SMALL_ROOMS.end() + 1, MOST_BLOCKS)
}

pub struct Case<'a> {
    /// The file that the image comes from.
    pub file: &'a str,
    pub sheet: &'a Sheet,
    /// The file's plan, if it has one.
    pub plan: Option<&'a Plan>,
    /// 0 is the file itself, others are damaged copies.
    pub copy: u64,
    pub image: &'a [u8],
}

impl Case<'_> {
    /// Some paths worth looking up: strings of the file's heaps, one or two of them.
    pub fn paths(&self, random: &mut Random) -> Vec<Vec<u8>> {
        let names = self.sheet.strings();
        let mut paths = vec![b"/".to_vec()];
        if names.is_empty() {
            return paths;
        }
        for _ in 0..4 {
            let (first, second) = (random.pick(&names), random.pick(&names));
            let one = [b"/", first].concat();
            paths.push([&one, b"/".as_slice(), second].concat());
            paths.push(one);
        }
        paths
    }

    /// Some paths of the file's plan, and some beside them; without a plan, some of its heaps' strings.
    pub fn planned_paths(&self, random: &mut Random) -> Vec<Vec<u8>> {
        let Some(plan) = self.plan else {
            return self.paths(random);
        };
        let planned = paths::planned(plan, 2);
        let mut some = Vec::new();
        for turn in 0..6 {
            let path = &planned[random.below(planned.len() as u64) as usize];
            if turn % 3 == 0 {
                let beside = paths::beside(path);
                some.push(beside[random.below(beside.len() as u64) as usize].clone());
            }
            some.push(path.clone());
        }
        some
    }
}

/// Calls `visit` with images, `cases` times or a few more.
pub fn each(cases: u64, mut visit: impl FnMut(&Case)) {
    let mut done = 0;
    let mut specials = special::all();
    specials.retain(|special| special.sheet.bytes.len() <= LONGEST);
    for (number, special) in specials.iter().enumerate() {
        let large = special.sheet.bytes.len() > 60_000;
        let copies = if large { 2 } else { COPIES };
        done += copies;
        let file = (special.name.as_str(), &special.sheet, None);
        copy(file, number as u64, copies, &mut visit);
    }
    let mut seed = 1000;
    while done < cases {
        let plan = files::plan(seed);
        let file = write(&plan, seed);
        let name = format!("file {seed}");
        let file = (name.as_str(), &file.sheet, Some(&plan));
        copy(file, seed, COPIES, &mut visit);
        seed += 1;
        done += COPIES;
    }
}

fn copy(
    (file, sheet, plan): (&str, &Sheet, Option<&Plan>),
    seed: u64,
    copies: u64,
    visit: &mut impl FnMut(&Case),
) {
    let mut random = Random::new(seed);
    for copy in 0..copies {
        let mut damaged = sheet.bytes.clone();
        if copy > 0 {
            damage(&mut damaged, sheet, &mut random);
        }
        // One copy in three has two or three faults: the first met decides.
        for _ in 0..(copy % 3) / 2 * random.between(1, 2) {
            damage(&mut damaged, sheet, &mut random);
        }
        visit(&Case {
            file,
            sheet,
            plan,
            copy,
            image: &damaged,
        });
    }
}

/// The number of images to read: the environment variable EBIKWOTULA_CASES, or `usual`.
pub fn cases(usual: u64) -> u64 {
    match std::env::var("EBIKWOTULA_CASES") {
        Ok(text) => text.parse().expect("EBIKWOTULA_CASES is a number"),
        Err(_) => usual,
    }
}
