//! Mending and undo of the proved library against the separate reader: the number and every byte lent, those of the
//! image too. What each has to do is also told from the library's audit.

use compare::agree::{lent_bytes, room_number, words, Call, Pair};
use compare::generate::corpus::{cases, each, full_room};
use compare::generate::paths;
use compare::generate::random::Random;
use compare::generate::sheet::{set, Sheet};
use compare::generate::small::{self, DATASET, ROOT};
use compare::generate::write::write;
use compare::generate::{files, limits};
use compare::reader::front::{BLOCK_BYTES, DESCRIBE_WORDS, LOOKUP_WORDS};
use compare::reader::front::{MEND_WORDS, REPLY_WORDS, UNDO_WORDS};
use compare::reader::{MOST_BLOCKS, MOST_BYTES, MOST_OBJECTS};
use std::collections::hash_map::DefaultHasher;
use std::collections::{BTreeMap, HashSet};
use std::hash::{Hash, Hasher};

/// The bytes of a list for every block of an image.
fn full(image: &[u8]) -> usize {
    BLOCK_BYTES * full_room(image)
}

/// The words of a log for every object that an audit may find, and its bytes.
const LOG_WORDS: usize = 2 * MOST_OBJECTS;
const LOG: usize = 8 * LOG_WORDS;

/// How often each answer was given.
type Times = [u64; 21];

/// A wrong count: the field's address, what is stored and what is true.
#[derive(Clone, Copy, PartialEq, Eq, Debug)]
struct Wrong {
    field: u64,
    old: u32,
    new: u32,
}

impl Wrong {
    fn words(&self) -> [u64; 2] {
        [
            self.field,
            u64::from(self.old) * (1 << 32) + u64::from(self.new),
        ]
    }
}

/// An audit's answer and the list that it leaves.
struct Audit {
    number: u32,
    /// With 6 the address of the block met.
    met: u64,
    block_count: u64,
    blocks: Vec<u8>,
    /// Address and true count of each object.
    objects: Vec<(u64, u32)>,
    wrong: Vec<Wrong>,
}

#[derive(Default)]
struct Comparison {
    pair: Pair,
    turn: usize,
    /// Mends by the number of the room.
    mends: BTreeMap<usize, Times>,
    undos: Times,
    /// Images with wrong counts, and those counts.
    wrong: [u64; 2],
    /// Paths looked up and described in two images each.
    paths: u64,
}

impl Comparison {
    fn audit(&mut self, name: &str, image: &[u8], blocks: usize) -> Audit {
        let number = self.pair.agree(name, image, blocks, 8 * REPLY_WORDS);
        let left = self.pair.left();
        let first = left.word(0);
        let objects = left.objects();
        Audit {
            number,
            met: if number == 6 { first } else { 0 },
            block_count: if number == 0 { first } else { 0 },
            blocks: left.blocks.clone(),
            wrong: objects
                .iter()
                .map(|object| Wrong {
                    field: object.address + 4,
                    old: object.stored,
                    new: object.true_count,
                })
                .filter(|wrong| wrong.old != wrong.new)
                .collect(),
            objects: objects
                .iter()
                .map(|object| (object.address, object.true_count))
                .collect(),
        }
    }

    /// Both mends of an image with as many bytes for blocks as an audit of it was lent. The reply has up to 16 bytes
    /// more than it needs.
    fn mend(&mut self, name: &str, image: &[u8], audit: &Audit, log: usize, limit: u64) -> u32 {
        self.turn += 1;
        let blocks = audit.blocks.len();
        let lent = (blocks, log, 8 * MEND_WORDS + self.turn % 17);
        let number = self.pair.mends_agree(name, image, lent, limit);
        self.mends.entry(room_number(blocks)).or_default()[number as usize] += 1;
        let entries = audit.wrong.len();
        let too_short = audit.number == 0 && log / 8 < 2 * entries;
        let expected = if too_short { 18 } else { audit.number };
        assert_eq!(number, expected, "{name}, limit {limit}, log {log}");
        let left = self.pair.left();
        if number != 0 {
            assert!(left.is_refused(number) && left.image == image, "{name}");
            assert!(left.reply == bytes(&[audit.met], lent.2), "{name}, met");
            return number;
        }
        let writes = limit.min(entries as u64);
        let reply = [audit.block_count, entries as u64, writes];
        assert!(left.reply == bytes(&reply, lent.2), "{name}, reply");
        assert!(left.blocks == audit.blocks, "{name}, list");
        assert!(left.log == log_bytes(&audit.wrong, log), "{name}, log");
        let first = &audit.wrong[..writes as usize];
        let mended = with_counts(image, first, |wrong| wrong.new);
        assert!(left.image == mended, "{name}, image, limit {limit}");
        number
    }

    fn undo(&mut self, name: &str, image: &[u8], log: &[u8], call: (u64, u64)) -> u32 {
        self.turn += 1;
        let reply = 8 * UNDO_WORDS + self.turn % 17;
        let number = self.pair.undos_agree(name, image, log, reply, call);
        self.undos[number as usize] += 1;
        let left = self.pair.left();
        if number == 0 {
            let writes = call.0.min(call.1);
            assert!(left.reply == bytes(&[writes], reply), "{name}, reply");
        } else {
            assert!(left.is_refused(number) && left.image == image, "{name}");
        }
        number
    }

    /// The undo of a log that a mend left with these entries.
    fn undo_mended(
        &mut self,
        name: &str,
        image: &mut Vec<u8>,
        log: &[u8],
        wrong: &[Wrong],
        (entries, limit): (u64, u64),
    ) {
        let number = self.undo(name, image, log, (entries, limit));
        // Behind the entries are zeros, and no image begins with zeros.
        let expected = match entries {
            _ if entries > log.len() as u64 / 16 => 18,
            _ if entries > wrong.len() as u64 => 19,
            _ => 0,
        };
        assert_eq!(number, expected, "{name}, {entries} entries");
        if number == 0 {
            let writes = limit.min(entries) as usize;
            let last = &wrong[entries as usize - writes..entries as usize];
            *image = with_counts(image, last, |wrong| wrong.old);
            assert!(self.pair.left().image == *image, "{name}, image");
        }
    }

    /// The audit of an image in which some counts are mended: the same blocks and objects, and those counts are right.
    fn audit_as_before(&mut self, name: &str, audit: &Audit, image: &[u8]) {
        let after = self.audit(name, image, audit.blocks.len());
        let still = audit.wrong.iter().filter(|wrong| {
            let at = wrong.field as usize;
            image[at..at + 4] == wrong.old.to_le_bytes()
        });
        assert_eq!(after.number, 0, "{name}");
        assert_eq!(after.block_count, audit.block_count, "{name}");
        assert!(after.blocks == audit.blocks, "{name}, list");
        assert_eq!(after.objects, audit.objects, "{name}");
        assert!(after.wrong.iter().eq(still), "{name}, counts");
    }

    /// The same number, fields and final list.
    fn paths_as_before<'a>(
        &mut self,
        name: &str,
        [before, after]: [&[u8]; 2],
        paths: impl IntoIterator<Item = &'a Vec<u8>>,
        blocks: usize,
    ) {
        for path in paths {
            self.paths += 1;
            let [found, again] = [before, after].map(|image| {
                let reply = 8 * LOOKUP_WORDS;
                let number = self.pair.lookups_agree(name, image, path, blocks, reply);
                (number, self.pair.left().clone())
            });
            assert!(found == again, "{name}, \"{}\"", path.escape_ascii());
            let [described, again] = [before, after].map(|image| {
                let (pair, reply) = (&mut self.pair, 8 * DESCRIBE_WORDS);
                let number = pair.descriptions_agree(name, image, path, blocks, reply);
                (number, pair.left().clone())
            });
            assert!(described == again, "{name}, \"{}\"", path.escape_ascii());
        }
    }

    /// All limits, all logs and all rooms.
    fn mend_in_all_ways(&mut self, name: &str, image: &[u8], random: &mut Random) -> Audit {
        let audit = self.audit(name, image, full(image) + self.turn % 16);
        let entries = audit.wrong.len();
        self.wrong[0] += u64::from(entries > 0);
        self.wrong[1] += entries as u64;
        let limits = limits_of(entries as u64);
        let logs = logs_of(entries, self.turn);
        for limit in &limits {
            let number = self.mend(name, image, &audit, LOG, *limit);
            if number == 0 {
                let mended = self.pair.left().image.clone();
                self.audit_as_before(name, &audit, &mended);
            }
        }
        for log in &logs {
            self.mend(name, image, &audit, *log, random.pick(&limits));
        }
        for blocks in lent_bytes(image, self.turn) {
            let at_room = self.audit(name, image, blocks);
            let (log, limit) = (random.pick(&logs), random.pick(&limits));
            self.mend(name, image, &at_room, log, limit);
        }
        audit
    }

    /// A second mend, after one with a limit: both together are a mend without one.
    fn mend_the_rest(&mut self, name: &str, image: &[u8], audit: &Audit, now: &[u8]) {
        let rest = self.audit(name, now, audit.blocks.len());
        let log = 16 * rest.wrong.len();
        assert_eq!(self.mend(name, now, &rest, log, u64::MAX), 0, "{name}");
        let mended = with_counts(image, &audit.wrong, |wrong| wrong.new);
        assert!(self.pair.left().image == mended, "{name}");
    }

    /// A mend and a list of undo calls, some of which are refused; then one undoes all.
    fn undo_at_random(
        &mut self,
        name: &str,
        image: &[u8],
        audit: &Audit,
        paths: &[Vec<u8>],
        random: &mut Random,
    ) {
        let entries = audit.wrong.len() as u64;
        let limits = limits_of(entries);
        let bytes = 16 * entries + random.below(60);
        self.mend(name, image, audit, bytes as usize, random.pick(&limits));
        let log = self.pair.left().log.clone();
        let mut now = self.pair.left().image.clone();
        self.audit_as_before(name, audit, &now);
        self.paths_as_before(name, [image, &now], paths, full(image));
        self.mend_the_rest(name, image, audit, &now);
        for _ in 0..random.between(2, 7) {
            let taken = match random.below(8) {
                0 => random.between(entries, bytes / 16 + 1),
                1 => entries + random.pick(&[1 << 32, 1 << 60, 1 << 61, 1 << 63]),
                2 => random.pick(&[1 << 63, u64::MAX - 1, u64::MAX]),
                _ => random.between(0, entries),
            };
            let limit = match random.below(3) {
                0 => random.pick(&limits),
                _ => random.between(0, entries + 1),
            };
            self.undo_mended(name, &mut now, &log, &audit.wrong, (taken, limit));
            self.audit_as_before(name, audit, &now);
            let path = random.below(paths.len() as u64) as usize;
            let blocks = BLOCK_BYTES * random.between(4, 20) as usize;
            self.paths_as_before(name, [image, &now], [&paths[path]], blocks);
        }
        let limit = random.pick(&[entries, entries + 1, 1 << 32, u64::MAX]);
        self.undo_mended(name, &mut now, &log, &audit.wrong, (entries, limit));
        assert!(now == image, "{name}");
    }

    /// Each entry of a log in turn changed in ways that fit the image and in ways that don't.
    fn undo_damaged_logs(
        &mut self,
        name: &str,
        image: &[u8],
        wrong: &[Wrong],
        random: &mut Random,
    ) {
        let length = image.len() as u64;
        let entries = wrong.len() as u64;
        for (number, good) in wrong.iter().enumerate() {
            let held = count_at(image, good.field);
            let mut try_entry = |field: u64, old: u32, new: u32, limit: u64| {
                let mut damaged = wrong.to_vec();
                damaged[number] = Wrong { field, old, new };
                let log = log_bytes(&damaged, 16 * wrong.len() + number % 16);
                // The entries before the damaged one fit.
                let before = self.undo(name, image, &log, (number as u64, 0));
                assert_eq!(before, 0, "{name}");
                let answer = self.undo(name, image, &log, (entries, limit));
                if answer == 0 {
                    let last = entries.saturating_sub(limit) as usize;
                    let mut undone = image.to_vec();
                    for entry in damaged[last..].iter().rev() {
                        undone = with_counts(&undone, &[*entry], |entry| entry.old);
                    }
                    assert!(self.pair.left().image == undone, "{name}");
                }
                answer
            };
            let outside = [
                length - 3,
                length - 2,
                length - 1,
                length,
                good.field + length,
                good.field + (1 << 32),
                good.field + (1 << 63),
                u64::MAX - 4,
                u64::MAX - 3,
                u64::MAX,
            ];
            for (turn, field) in outside.into_iter().enumerate() {
                // Of zeros too, as behind an image's last byte.
                for (old, new) in [(good.old, good.new), (0, 0)] {
                    let limit = [0, 1, u64::MAX][turn % 3];
                    assert_eq!(try_entry(field, old, new, limit), 19, "{name}, {field}");
                }
            }
            for (old, new) in [
                (held ^ 1, held ^ 1),
                (held ^ 1 << 31, held.wrapping_add(1)),
                (held.wrapping_sub(1), held ^ 0x100),
                (held ^ 0x1_0000, held.swap_bytes() ^ 1 << random.below(32)),
            ] {
                let neither = old != held && new != held;
                for limit in [0, 1, entries, u64::MAX] {
                    let answer = try_entry(good.field, old, new, limit);
                    assert_eq!(answer, if neither { 19 } else { 0 }, "{name}");
                }
            }
            let other = random.word() as u32;
            let place = random.below(length - 3);
            for field in [good.field, 0, length - 4, place] {
                let held = count_at(image, field);
                for (old, new) in [(held, other), (other, held), (held, held)] {
                    let limit = random.pick(&[0, 1, entries, u64::MAX]);
                    assert_eq!(try_entry(field, old, new, limit), 0, "{name}, {field}");
                }
            }
        }
    }

    fn times(&self, answer: usize) -> [u64; 2] {
        let mends = self.mends.values().map(|times| times[answer]).sum();
        [mends, self.undos[answer]]
    }

    fn print(&self) {
        println!("answer     mends     undos");
        for answer in 0..21 {
            let [mends, undos] = self.times(answer);
            if mends + undos > 0 {
                println!("{answer:6}  {mends:8}  {undos:8}");
            }
        }
        let [images, counts] = self.wrong;
        println!("{images} images with {counts} wrong counts");
        println!("{} paths in two images", self.paths);
    }

    fn answers_are(&self, mends: &[usize], undos: &[usize]) {
        for answer in 0..21 {
            let reached = self.times(answer).map(|times| times > 0);
            assert_eq!(reached[0], mends.contains(&answer), "mend, {answer}");
            assert_eq!(reached[1], undos.contains(&answer), "undo, {answer}");
        }
    }

    fn every_room_is_lent(&self) {
        let rooms: Vec<usize> = self.mends.keys().copied().collect();
        assert_eq!(rooms, Vec::from_iter(0..=13));
    }
}

/// So many bytes, these words first and then zeros.
fn bytes(words: &[u64], length: usize) -> Vec<u8> {
    let mut bytes: Vec<u8> = words.iter().flat_map(|word| word.to_le_bytes()).collect();
    assert!(bytes.len() <= length);
    bytes.resize(length, 0);
    bytes
}

fn log_bytes(wrong: &[Wrong], length: usize) -> Vec<u8> {
    let words: Vec<u64> = wrong.iter().flat_map(Wrong::words).collect();
    bytes(&words, length)
}

fn count_at(image: &[u8], field: u64) -> u32 {
    let at = field as usize;
    u32::from_le_bytes(image[at..at + 4].try_into().expect("4 bytes"))
}

fn with_counts(image: &[u8], wrong: &[Wrong], count: impl Fn(&Wrong) -> u32) -> Vec<u8> {
    let mut changed = image.to_vec();
    for wrong in wrong {
        let at = wrong.field as usize;
        changed[at..at + 4].copy_from_slice(&count(wrong).to_le_bytes());
    }
    changed
}

fn limits_of(entries: u64) -> [u64; 8] {
    let less = entries.saturating_sub(1);
    [0, 1, 2, less, entries, entries + 1, 1 << 32, u64::MAX]
}

/// Whole words with 0 to 7 bytes more, and the least number of bytes that suffices, one more and one less.
fn logs_of(entries: usize, turn: usize) -> Vec<usize> {
    let least = 2 * entries;
    let counts = [0, 1, least.saturating_sub(1), least, least + 1, LOG_WORDS];
    let mut logs: Vec<usize> = (0..)
        .zip(counts)
        .map(|(number, words)| 8 * words + (turn + number) % 8)
        .collect();
    logs.extend([(8 * least).saturating_sub(1), 8 * least, 8 * least + 1, LOG]);
    logs
}

/// Other counts in half of an image's headers.
fn miscount(image: &mut [u8], sheet: &Sheet, random: &mut Random) {
    for field in &sheet.fields {
        let inside = field.at + field.width <= image.len();
        if field.name == "header count" && inside && random.once_in(2) {
            let any = random.word() & 0xffff_ffff;
            let count = random.pick(&[0, 1, 2, 3, 1 << 31, 0xffff_ffff, any]);
            set(image, *field, count);
        }
    }
}

/// All counts of an image wrong.
fn miscount_all(image: &mut [u8], audit: &Audit) {
    for (number, (address, true_count)) in (1..).zip(&audit.objects) {
        let at = *address as usize + 4;
        let count = true_count.wrapping_sub(number);
        image[at..at + 4].copy_from_slice(&count.to_le_bytes());
    }
}

fn sum(image: &[u8]) -> u64 {
    let mut hasher = DefaultHasher::new();
    image.hash(&mut hasher);
    hasher.finish()
}

/// "Stored 1 gives the log 1132, 4294967298".
#[test]
fn h_with_stored_1() {
    let mut comparison = Comparison::default();
    let image = small::h_with(&[(b"a", DATASET), (b"b", DATASET)], 1, 1).bytes;
    let mended = small::h().bytes;
    let audit = comparison.audit("H", &image, BLOCK_BYTES * 8);
    assert_eq!(comparison.mend("H", &image, &audit, 16, 1), 0);
    let left = comparison.pair.left().clone();
    assert_eq!(words(&left.log), [1132, 4_294_967_298]);
    assert_eq!(words(&left.reply)[..3], [8, 1, 1]);
    assert!(left.image == mended);
    for (limit, expected) in [(0, &mended), (1, &image), (u64::MAX, &image)] {
        assert_eq!(comparison.undo("H", &mended, &left.log, (1, limit)), 0);
        assert!(comparison.pair.left().image == **expected);
    }
    assert_eq!(comparison.mend("H", &image, &audit, 15, 1), 18);
    assert_eq!(comparison.mend("H", &image, &audit, 16, 0), 0);
    assert!(comparison.pair.left().image == image);
    let audit = comparison.audit("H", &image, BLOCK_BYTES * 7);
    assert_eq!(comparison.mend("H", &image, &audit, 0, 1), 13);
}

/// Room for one entry: the committed datatype has a name, a dataset and an attribute.
#[test]
fn c_with_stored_1() {
    let mut comparison = Comparison::default();
    let image = small::c().bytes;
    let audit = comparison.audit("C", &image, BLOCK_BYTES * 8);
    assert_eq!(comparison.mend("C", &image, &audit, 16, 1), 0);
    let left = comparison.pair.left().clone();
    assert_eq!(words(&left.log), [1260, 4_294_967_299]);
    assert_eq!(words(&left.reply)[..3], [8, 1, 1]);
    let mut mended = image.clone();
    mended[1260] = 3;
    assert!(left.image == mended);
    assert_eq!(comparison.mend("C", &image, &audit, 15, 1), 18);
    assert_eq!(comparison.undo("C", &mended, &left.log, (1, 1)), 0);
    assert!(comparison.pair.left().image == image);
}

/// Every limit with every log at every room, and all paths before and after.
#[test]
fn planned_files_are_mended() {
    let mut comparison = Comparison::default();
    let mut random = Random::new(21);
    for seed in 1000..1200 {
        let plan = files::plan(seed);
        let file = write(&plan, seed);
        let (name, image) = (format!("file {seed}"), &file.sheet.bytes);
        let audit = comparison.mend_in_all_ways(&name, image, &mut random);
        let walk = plan.walk().into_iter();
        let planned: Vec<Wrong> = walk
            .map(|(number, count)| Wrong {
                field: file.places[number] + 4,
                old: file.stored[number],
                new: count,
            })
            .filter(|wrong| wrong.old != wrong.new)
            .collect();
        assert_eq!(audit.wrong, planned, "{name}");
        for blocks in lent_bytes(image, seed as usize) {
            let at_room = comparison.audit(&name, image, blocks);
            for limit in limits_of(planned.len() as u64) {
                for log in logs_of(planned.len(), comparison.turn) {
                    comparison.mend(&name, image, &at_room, log, limit);
                }
            }
        }
        let mut paths = paths::planned(&plan, 2);
        paths.extend(paths::beside(&paths[paths.len() - 1]));
        let mended = with_counts(image, &planned, |wrong| wrong.new);
        for blocks in lent_bytes(image, seed as usize).skip(2).step_by(3) {
            comparison.paths_as_before(&name, [image, &mended], &paths, blocks);
        }
        for _ in 0..4 {
            comparison.undo_at_random(&name, image, &audit, &paths, &mut random);
        }
    }
    comparison.print();
    comparison.every_room_is_lent();
    comparison.answers_are(&[0, 13, 18], &[0, 18, 19]);
}

/// Files that an audit passes, with other counts.
#[test]
fn miscounted_files_are_mended() {
    let mut comparison = Comparison::default();
    let mut different = HashSet::new();
    let mut random = Random::new(25);
    for seed in 3000..3800 {
        let plan = files::plan(seed);
        let file = write(&plan, seed);
        let planned = paths::planned(&plan, 2);
        for copy in 0..20 {
            let name = format!("file {seed}, counts {copy}");
            let mut image = file.sheet.bytes.clone();
            miscount(&mut image, &file.sheet, &mut random);
            let audit = comparison.mend_in_all_ways(&name, &image, &mut random);
            assert_eq!(audit.number, 0, "{name}");
            if !audit.wrong.is_empty() {
                different.insert(sum(&image));
            }
            let from = random.below(planned.len() as u64) as usize;
            let some: Vec<Vec<u8>> = planned.iter().skip(from).take(5).cloned().collect();
            comparison.undo_at_random(&name, &image, &audit, &some, &mut random);
        }
    }
    println!("{} different images with wrong counts", different.len());
    comparison.print();
    assert!(different.len() >= 10_000);
    comparison.every_room_is_lent();
    comparison.answers_are(&[0, 13, 18], &[0, 18, 19]);
}

#[test]
fn damaged_images_agree() {
    let mut comparison = Comparison::default();
    let mut different = HashSet::new();
    let mut random = Random::new(22);
    let wanted = cases(12_000);
    let mut images = 0;
    each(wanted, |case| {
        let name = format!("{}, copy {}", case.file, case.copy);
        let mut image = case.image.to_vec();
        if images % 3 > 0 {
            miscount(&mut image, case.sheet, &mut random);
        }
        let audit = comparison.mend_in_all_ways(&name, &image, &mut random);
        if audit.number == 0 {
            let paths = case.planned_paths(&mut random);
            comparison.undo_at_random(&name, &image, &audit, &paths, &mut random);
        } else {
            let expected = if audit.number == 1 { 1 } else { 0 };
            let undone = comparison.undo(&name, &image, &[0; 31], (0, 9));
            assert_eq!(undone, expected, "{name}");
            let expected = if audit.number == 1 { 1 } else { 18 };
            let undone = comparison.undo(&name, &image, &[0; 31], (2, 9));
            assert_eq!(undone, expected, "{name}");
        }
        different.insert(sum(&image));
        images += 1;
    });
    println!("{images} images, {} of them different", different.len());
    comparison.print();
    // Some damage leaves a file as it was.
    assert!(images as u64 >= wanted && different.len() as u64 >= wanted / 10 * 9);
    assert!(comparison.wrong[0] > wanted / 10);
    comparison.every_room_is_lent();
    let mends: Vec<usize> = (0..14).chain([18]).collect();
    comparison.answers_are(&mends, &[0, 1, 18, 19]);
    let meetings = comparison.pair.meetings(Call::Mend);
    meetings.are_at_least("mends", [10_000, 100, 2000, 200]);
}

/// Logs with each entry damaged, over images with none, some and all of the counts mended.
#[test]
fn damaged_logs_agree() {
    let mut comparison = Comparison::default();
    let mut random = Random::new(23);
    for seed in 1000..1300 {
        let file = write(&files::plan(seed), seed);
        let (name, image) = (format!("file {seed}"), file.sheet.bytes);
        let audit = comparison.audit(&name, &image, full(&image));
        let entries = audit.wrong.len() as u64;
        let limit = random.pick(&[0, entries / 2, entries, entries]);
        comparison.mend(&name, &image, &audit, LOG, limit);
        let mended = comparison.pair.left().image.clone();
        comparison.undo_damaged_logs(&name, &mended, &audit.wrong, &mut random);
        // Another file's log, and this one's over random bytes.
        let other = small::h().bytes;
        let log = log_bytes(&audit.wrong, LOG);
        let random_bytes = random.bytes(mended.len() as u64);
        for image in [&other, &random_bytes] {
            for taken in 0..=entries {
                comparison.undo(&name, image, &log, (taken, random.between(0, taken + 1)));
            }
        }
        // Too few words, whatever they say.
        for taken in [
            1,
            2,
            entries + 1,
            MOST_OBJECTS as u64,
            MOST_OBJECTS as u64 + 1,
            1 << 32,
            1 << 59,
            1 << 60,
            1 << 61,
            1 << 63,
        ] {
            for bytes in [0, 15, 16 * taken.min(1100) as usize - 1] {
                let log = vec![0xff; bytes];
                let answer = comparison.undo(&name, &mended, &log, (taken, 1));
                assert_eq!(answer, 18, "{name}, {taken} entries");
            }
        }
        for taken in [(1 << 63) - 1, (1 << 63) + entries, u64::MAX - 1, u64::MAX] {
            let answer = comparison.undo(&name, &mended, &log, (taken, taken));
            assert_eq!(answer, 18, "{name}, {taken} entries");
        }
    }
    comparison.print();
    comparison.answers_are(&[0], &[0, 18, 19]);
}

/// "last first": the first of two entries for the same bytes has the last word.
#[test]
fn the_last_entry_is_undone_first() {
    let mut comparison = Comparison::default();
    let image = small::h().bytes;
    for apart in 0..5 {
        let entries: Vec<Wrong> = [0x1122_3344, 0x5566_7788, 0x99aa_bbcc]
            .iter()
            .zip(0..)
            .map(|(old, number)| {
                let field = ROOT + 4 + number * apart;
                let new = count_at(&image, field);
                Wrong {
                    field,
                    old: *old,
                    new,
                }
            })
            .collect();
        let log = log_bytes(&entries, 48);
        for taken in 0..=3 {
            for limit in 0..=4 {
                assert_eq!(comparison.undo("H", &image, &log, (taken, limit)), 0);
                let first = taken.saturating_sub(limit) as usize;
                let mut written = entries[first..taken as usize].to_vec();
                written.reverse();
                let undone = with_counts(&image, &written, |entry| entry.old);
                assert!(comparison.pair.left().image == undone);
            }
        }
    }
}

/// 13 is given before the image and the log are read.
#[test]
fn short_replies_give_13_first() {
    let mut comparison = Comparison::default();
    let pair = &mut comparison.pair;
    let wrong = small::h_with(&[(b"a", DATASET), (b"b", DATASET)], 7, 1).bytes;
    let short = vec![0; 95];
    let unsound = vec![0; 96];
    let meeting = small::h().with("heap segment", 0, 130).bytes;
    let entry = Wrong {
        field: DATASET + 4,
        old: 1,
        new: 2,
    };
    let log = log_bytes(&[entry], 24);
    for reply in (0..40).chain([8 * REPLY_WORDS]) {
        for (image, bytes, number) in [
            (&wrong, 32, 0),
            (&wrong, 39, 0),
            (&wrong, 31, 18),
            (&short, 32, 1),
            (&short, 0, 1),
            (&unsound, 9, 2),
            (&meeting, 9, 6),
        ] {
            for (blocks, full) in [
                (BLOCK_BYTES * 7, false),
                (BLOCK_BYTES * 8 + 3, true),
                (full(image), true),
            ] {
                for limit in [0, 1, u64::MAX] {
                    let lent = (blocks, bytes, reply);
                    let answer = pair.mends_agree("short reply", image, lent, limit);
                    let expected = match number {
                        _ if reply < 24 => 13,
                        0 | 18 if !full => 13,
                        number => number,
                    };
                    assert_eq!(answer, expected, "{reply} bytes");
                    let left = pair.left();
                    assert!(answer == 0 || left.is_refused(answer) && left.image == **image);
                }
            }
        }
        for (image, taken, number) in [
            (&wrong, 0, 0),
            (&wrong, 1, 0),
            (&wrong, 2, 18),
            (&unsound, 1, 19),
            (&unsound, 0, 0),
            (&short, 0, 1),
            (&short, 2, 1),
            (&short, u64::MAX, 1),
        ] {
            for limit in [0, 1, u64::MAX] {
                let answer = pair.undos_agree("short reply", image, &log, reply, (taken, limit));
                assert_eq!(answer, if reply < 8 { 13 } else { number });
                let left = pair.left();
                assert!(answer == 0 || left.is_refused(answer) && left.image == **image);
                comparison.undos[answer as usize] += 1;
            }
        }
    }
    comparison.print();
    comparison.answers_are(&[], &[0, 1, 13, 18, 19]);
}

/// Answer 1 comes before 18 and 19; an undo reads nothing of an image but its length and the fields.
#[test]
fn lengths_of_images() {
    let mut comparison = Comparison::default();
    for (length, inside) in [
        (0, false),
        (1, false),
        (4, false),
        (95, false),
        (96, true),
        (97, true),
        (MOST_BYTES - 1, true),
        (MOST_BYTES, true),
        (MOST_BYTES + 1, false),
        (MOST_BYTES + 50_000, false),
    ] {
        let image = vec![0; length];
        let name = format!("{length} bytes");
        let audit = comparison.audit(&name, &image, full(&image));
        assert_eq!(audit.number, if inside { 2 } else { 1 }, "{name}");
        for bytes in [0, 16, LOG] {
            for limit in [0, u64::MAX] {
                comparison.mend(&name, &image, &audit, bytes, limit);
            }
        }
        let end = (length as u64).wrapping_sub(4);
        let entry = |field, old, new| Wrong { field, old, new };
        for (log, taken, number) in [
            (vec![], 0, 0),
            (vec![], 1, 18),
            (vec![], u64::MAX, 18),
            (vec![entry(end, 5, 0)], 1, 0),
            (vec![entry(end, 0, 5)], 1, 0),
            (vec![entry(end, 5, 6)], 1, 19),
            (vec![entry(end + 1, 0, 0)], 1, 19),
            (vec![entry(end + 1, 0, 0)], 0, 0),
            (vec![entry(end + 1, 0, 0)], 2, 18),
            (vec![entry(0, 1, 0), entry(u64::MAX, 0, 0)], 2, 19),
            (vec![entry(0, 1, 0), entry(u64::MAX - 3, 0, 0)], 2, 19),
        ] {
            let log = log_bytes(&log, 16 * log.len());
            for limit in [0, 1, u64::MAX] {
                let answer = comparison.undo(&name, &image, &log, (taken, limit));
                assert_eq!(answer, if inside { number } else { 1 }, "{name}");
            }
        }
    }
    comparison.print();
    comparison.answers_are(&[1, 2], &[0, 1, 18, 19]);
}

/// As many wrong counts as there may be fill the longest log. Of the files at the limits there are fewer undos, since each
/// copies 16 MiB.
#[test]
fn mends_agree_at_the_limits() {
    let mut comparison = Comparison::default();
    let mut random = Random::new(24);
    let most = MOST_OBJECTS as u64;
    let mut images = vec![("most objects", small::objects(most).bytes, 3)];
    let large = limits::all().into_iter();
    images.extend(large.map(|(name, image)| (name, image, 1)));
    for (name, mut image, undos) in images {
        let audit = comparison.audit(name, &image, full(&image));
        miscount_all(&mut image, &audit);
        let audit = comparison.audit(name, &image, full(&image) + 5);
        let entries = audit.objects.len() as u64;
        assert_eq!(audit.wrong.len() as u64, entries, "{name}");
        let least = 16 * entries as usize;
        for (limit, log) in [
            (u64::MAX, least - 1),
            (1, least - 8),
            (1, least),
            (most - 1, least + 7),
            (most, least + 8),
            (u64::MAX, LOG + 3),
        ] {
            let number = comparison.mend(name, &image, &audit, log, limit);
            assert_eq!(number, if log < least { 18 } else { 0 }, "{name}");
            let mended = comparison.pair.left().image.clone();
            comparison.audit_as_before(name, &audit, &mended);
        }
        for room in [MOST_BLOCKS - 1, MOST_BLOCKS, MOST_BLOCKS + 1] {
            let blocks = BLOCK_BYTES * room + room % BLOCK_BYTES;
            let at_room = comparison.audit(name, &image, blocks);
            comparison.mend(name, &image, &at_room, LOG, 3);
        }
        let paths = [b"/".to_vec(), b"/00001".to_vec(), b"/absent".to_vec()];
        for _ in 0..undos {
            comparison.undo_at_random(name, &image, &audit, &paths, &mut random);
        }
    }
    let image = small::objects(most + 1).bytes;
    let audit = comparison.audit("one object more", &image, full(&image));
    let number = comparison.mend("one object more", &image, &audit, LOG, 1);
    assert_eq!(number, 12);
    comparison.print();
    for answer in [0, 12, 13, 18] {
        assert!(comparison.times(answer)[0] > 0, "{answer}");
    }
}
