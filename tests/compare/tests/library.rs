//! The separate reader, and with the feature `proved` the proved library, on files that the HDF5 library wrote, against
//! `tests/library/manifest.txt`: what an audit is to answer, and what the HDF5 library itself reports about each
//! object. `tests/library/README.md` describes the lines.

use compare::owners::{check_described, check_owners};
use compare::reader::{audit, describe, lookup, mend, AuditReply, Description, Object};
use compare::reader::{BLOCK_WORDS, MOST_BLOCKS, MOST_OBJECTS};
use std::collections::{BTreeSet, HashMap};
use std::fs;
use std::path::{Path, PathBuf};

/// The words of a list for every block that an audit may enter.
const WORDS: usize = BLOCK_WORDS * MOST_BLOCKS;

/// The words of a log for every object that it may find.
const LOG: usize = 2 * MOST_OBJECTS;

/// The lines of one file, each split into its word and its fields.
struct Recorded {
    name: String,
    lines: Vec<(String, Vec<String>)>,
}

impl Recorded {
    /// The fields of the lines that begin with a word, in order.
    fn all(&self, word: &'static str) -> impl Iterator<Item = &Vec<String>> {
        self.lines
            .iter()
            .filter(move |(first, _)| first == word)
            .map(|(_, fields)| fields)
    }

    fn one(&self, word: &'static str) -> &Vec<String> {
        self.all(word)
            .next()
            .unwrap_or_else(|| panic!("{}: no line {word}", self.name))
    }

    fn image(&self) -> Vec<u8> {
        let image =
            fs::read(folder().join("files").join(&self.name)).expect("a file of the manifest");
        assert_eq!(
            image.len() as u64,
            number(&self.one("size")[0]),
            "{}",
            self.name
        );
        assert_eq!(
            sum(image.iter().copied()),
            self.one("fnv1a")[0],
            "{}",
            self.name
        );
        image
    }
}

fn folder() -> PathBuf {
    PathBuf::from(env!("CARGO_MANIFEST_DIR")).join("../library")
}

fn number(field: &str) -> u64 {
    field.parse().expect("a decimal number")
}

/// The 64-bit FNV-1a sum, as the manifest writes it.
fn sum(bytes: impl Iterator<Item = u8>) -> String {
    let sum = bytes.fold(0xcbf2_9ce4_8422_2325u64, |sum, byte| {
        (sum ^ u64::from(byte)).wrapping_mul(0x0100_0000_01b3)
    });
    format!("{sum:016x}")
}

/// A path of the manifest: `%` and two hexadecimal digits stand for a byte.
fn path(field: &str) -> Vec<u8> {
    let mut bytes = Vec::new();
    let mut rest = field.as_bytes();
    while let Some((&first, behind)) = rest.split_first() {
        if first == b'%' {
            let digits = std::str::from_utf8(&behind[..2]).expect("two digits");
            bytes.push(u8::from_str_radix(digits, 16).expect("two digits"));
            rest = &behind[2..];
        } else {
            bytes.push(first);
            rest = behind;
        }
    }
    bytes
}

fn manifest() -> Vec<Recorded> {
    let text = fs::read_to_string(folder().join("manifest.txt")).expect("the manifest");
    let mut files: Vec<Recorded> = Vec::new();
    for line in text
        .lines()
        .filter(|line| !line.is_empty() && !line.starts_with('#'))
    {
        let mut words = line.split(' ').map(str::to_string);
        let first = words.next().expect("a word");
        let fields: Vec<String> = words.collect();
        if first == "file" {
            files.push(Recorded {
                name: fields[0].clone(),
                lines: Vec::new(),
            });
        } else {
            files
                .last_mut()
                .expect("a file first")
                .lines
                .push((first, fields));
        }
    }
    files
}

/// Every file of the folder and of those in it, as the manifest writes their names.
fn stored_files() -> BTreeSet<String> {
    let mut names = BTreeSet::new();
    for release in entries(&folder().join("files")) {
        for file in entries(&release) {
            let parts = [&release, &file].map(|path| path.file_name().expect("a name"));
            names.insert(parts.map(|part| part.to_string_lossy()).join("/"));
        }
    }
    names
}

fn entries(folder: &Path) -> Vec<PathBuf> {
    fs::read_dir(folder)
        .expect("a folder")
        .map(|entry| entry.expect("an entry").path())
        .collect()
}

/// A file that the manifest doesn't name would never be read.
#[test]
fn every_file_is_in_the_manifest() {
    let named: BTreeSet<String> = manifest().into_iter().map(|file| file.name).collect();
    assert_eq!(stored_files(), named);
}

#[test]
fn audits_answer_as_recorded() {
    answers_are_recorded(|_, image| audit(image, WORDS));
}

/// An audit of every file against the lines `answer`, `expected`, `blocks` and `count`.
fn answers_are_recorded(mut audited: impl FnMut(&str, &[u8]) -> AuditReply) {
    let mut answers: HashMap<u32, usize> = HashMap::new();
    for file in manifest() {
        let reply = audited(&file.name, &file.image());
        answer_is_recorded(&file, &reply);
        counts_are_recorded(&file, &reply);
        *answers.entry(reply.number).or_default() += 1;
    }
    assert!(answers[&0] > 50 && answers[&3] > 20, "{answers:?}");
}

fn answer_is_recorded(file: &Recorded, reply: &AuditReply) {
    let name = &file.name;
    let numbers = [
        u64::from(reply.number),
        reply.objects.len() as u64,
        reply.block_count,
    ];
    assert_eq!(numbers.to_vec(), numbers_of(file.one("answer")), "{name}");
    let mut expected = file.one("expected")[0].split('|');
    assert!(
        expected.any(|answer| number(answer) == numbers[0]),
        "{name}"
    );
    if reply.number == 0 {
        let entered = reply.list[..4 * reply.block_count as usize].iter();
        let blocks = sum(entered.flat_map(|word| word.to_le_bytes()));
        assert_eq!(blocks, file.one("blocks")[0], "{name}");
    }
}

fn counts_are_recorded(file: &Recorded, reply: &AuditReply) {
    let counts: Vec<Vec<u64>> = file.all("count").map(|line| numbers_of(line)).collect();
    let found: Vec<Vec<u64>> = reply
        .objects
        .iter()
        .map(|object| {
            vec![
                object.address,
                u64::from(object.stored),
                u64::from(object.true_count),
            ]
        })
        .collect();
    assert_eq!(found, counts, "{}", file.name);
}

fn numbers_of(fields: &[String]) -> Vec<u64> {
    fields.iter().map(|field| number(field)).collect()
}

#[test]
fn objects_and_links_are_the_library_s() {
    let paths = objects_are_reported(|_, image| audit(image, WORDS));
    assert!(paths > 1000, "{paths} paths");
}

/// The one recipe whose counts a program changed by its own calls.
const RAISED: &str = "raised_count";

/// An audit of every file that it passes against the lines of the library: the same objects in the same order, each with
/// its stored count, and a true count of as many names and sharings as the library reports. Returns the number of names.
fn objects_are_reported(mut audited: impl FnMut(&str, &[u8]) -> AuditReply) -> usize {
    let mut paths = 0;
    for file in manifest() {
        let reply = audited(&file.name, &file.image());
        if reply.number != 0 {
            continue;
        }
        let reported: Vec<(u64, u64)> = file
            .all("object")
            .map(|line| (number(&line[0]), number(&line[2])))
            .collect();
        let found: Vec<(u64, u64)> = reply
            .objects
            .iter()
            .map(|object| (object.address, u64::from(object.stored)))
            .collect();
        assert_eq!(found, reported, "{}", file.name);
        let sharings = sharings_of(&file);
        let counts: Vec<(u64, u32)> = names_of_objects(&file)
            .into_iter()
            .map(|(address, names)| {
                paths += names as usize;
                let shared = sharings.iter().filter(|shared| **shared == address);
                (address, names + shared.count() as u32)
            })
            .collect();
        let found: Vec<(u64, u32)> = reply
            .objects
            .iter()
            .map(|object| (object.address, object.true_count))
            .collect();
        assert_eq!(found, counts, "{}", file.name);
        let right = |object: &Object| object.stored == object.true_count;
        let all_right = reply.objects.iter().all(right);
        assert_eq!(all_right, file.one("recipe")[0] != RAISED, "{}", file.name);
    }
    paths
}

/// Each object's address and how many names it has.
fn names_of_objects(file: &Recorded) -> Vec<(u64, u32)> {
    let mut names = Vec::new();
    for (word, fields) in &file.lines {
        match word.as_str() {
            "object" => names.push((number(&fields[0]), 0)),
            "path" => names.last_mut().expect("an object first").1 += 1,
            _ => {}
        }
    }
    names
}

/// The addresses that datasets and attributes share, once for each.
fn sharings_of(file: &Recorded) -> Vec<u64> {
    let datasets = file.all("type").map(|line| number(&line[2]));
    let attributes = file.all("sharing").map(|line| number(&line[0]));
    datasets
        .filter(|address| *address != 0)
        .chain(attributes)
        .collect()
}

#[test]
fn mending_restores_the_library_s_counts() {
    every_count_is_restored(|_, image| {
        let mut mended = image.to_vec();
        assert_eq!(mend(&mut mended, WORDS, LOG, u64::MAX).number, 0);
        mended
    });
}

/// Every count of a file that an audit passes is raised by one and then mended: the file is again what the library wrote.
fn every_count_is_restored(mut mended: impl FnMut(&str, &[u8]) -> Vec<u8>) {
    let mut restored = 0;
    for file in manifest() {
        let image = file.image();
        let mut raised = image.clone();
        for line in file.all("count").map(|line| numbers_of(line)) {
            let at = line[0] as usize + 4;
            let count = line[1] as u32 + 1;
            raised[at..at + 4].copy_from_slice(&count.to_le_bytes());
        }
        let passed = numbers_of(file.one("answer"))[0] == 0;
        if passed && file.one("recipe")[0] != RAISED {
            assert!(mended(&file.name, &raised) == image, "{}", file.name);
            restored += 1;
        }
    }
    assert!(restored > 50, "{restored} files");
}

#[test]
fn blocks_are_those_of_their_objects() {
    let described = |_: &str, image: &[u8], path: &[u8]| describe(image, path, WORDS).list;
    blocks_have_their_owners(|_, image| audit(image, WORDS), described);
}

/// Every file that an audit passes: the blocks of each object are those that a walk of it alone enters, and of the kinds that the
/// library's report asks for; a description of each dataset leaves the same blocks.
fn blocks_have_their_owners(
    mut audited: impl FnMut(&str, &[u8]) -> AuditReply,
    mut described: impl FnMut(&str, &[u8], &[u8]) -> Vec<u64>,
) {
    let (mut files, mut descriptions) = (0, 0);
    for file in manifest() {
        let image = file.image();
        let reply = audited(&file.name, &image);
        if reply.number != 0 {
            continue;
        }
        check_owners(&file.name, &image, &reply);
        kinds_are_reported(&file, &reply);
        for dataset in datasets(&file) {
            for name in &dataset.names {
                let list = described(&file.name, &image, &path(name));
                check_described(&file.name, &list, &reply, dataset.address);
                descriptions += 1;
            }
        }
        files += 1;
    }
    assert!(files > 50 && descriptions > 500);
}

/// Each object has as many header blocks as the library counts. A group has one heap, one segment and a tree besides; a
/// dataset its contiguous data where the library has it; a committed datatype nothing.
fn kinds_are_reported(file: &Recorded, reply: &AuditReply) {
    let fours = reply.list.chunks_exact(4);
    let blocks: Vec<&[u64]> = fours.take(reply.block_count as usize).collect();
    let datasets = datasets(file);
    for (number, object) in file.all("object").enumerate() {
        let title = format!("{}, object {number}", file.name);
        let object = numbers_of(object);
        let owned = blocks.iter().filter(|block| block[3] == number as u64);
        let of = |kind| owned.clone().filter(move |block| block[2] == kind);
        let times = [1, 2, 3, 4, 5, 6, 7, 8].map(|kind| of(kind).count() as u64);
        let [superblocks, headers, continuations, heaps, segments, nodes, symbols, data] = times;
        assert_eq!((superblocks, headers), (0, 1), "{title}");
        assert_eq!(headers + continuations, object[5], "{title}");
        let is_group = u64::from(object[1] == 1);
        assert_eq!((heaps, segments), (is_group, is_group), "{title}");
        assert_eq!(u64::from(nodes > 0), is_group, "{title}");
        assert!(symbols == 0 || is_group == 1, "{title}");
        let dataset = datasets.iter().find(|dataset| dataset.address == object[0]);
        let stored = dataset.and_then(Dataset::contiguous);
        assert_eq!(data, u64::from(stored.is_some()), "{title}");
        assert!(
            of(8).map(|block| (block[0], block[1])).eq(stored),
            "{title}"
        );
    }
}

/// A lookup's number, kind and address.
type Answer = (u32, u64, u64);

/// The separate reader's lookup at full room.
fn looked_up(_: &str, image: &[u8], path: &[u8]) -> Answer {
    let reply = lookup(image, path, WORDS);
    (reply.number, u64::from(reply.kind), reply.address)
}

#[test]
fn names_lead_to_their_objects() {
    let names = every_name_leads_to_its_object(looked_up);
    assert!(names > 2000, "{names} names");
}

/// A lookup of each name gives the kind and address of its object; a symbolic link is kind 4 with address 0. Returns
/// the number of names.
fn every_name_leads_to_its_object(mut found: impl FnMut(&str, &[u8], &[u8]) -> Answer) -> usize {
    let mut names = 0;
    for file in manifest() {
        let image = file.image();
        let audited = numbers_of(file.one("answer"))[0];
        for (name, expected) in names_of(&file) {
            let answer = found(&file.name, &image, &path(name));
            // A lookup reads no dataset and counts no objects, so it may pass where an audit doesn't.
            let may_refuse = !matches!(audited, 0 | 12 | 13);
            if answer.0 == 0 || !may_refuse {
                assert_eq!(answer, expected, "{} {name}", file.name);
                names += 1;
            } else {
                assert_eq!((answer.1, answer.2), (0, 0), "{} {name}", file.name);
            }
        }
    }
    names
}

/// The lines `path` and `soft` with what a lookup of each is to answer.
fn names_of(file: &Recorded) -> Vec<(&str, Answer)> {
    let mut names = Vec::new();
    let mut object = Vec::new();
    for (word, fields) in &file.lines {
        match word.as_str() {
            "object" => object = numbers_of(fields),
            "path" => names.push((fields[0].as_str(), (0, object[1], object[0]))),
            "soft" => names.push((fields[0].as_str(), (0, 4, 0))),
            _ => {}
        }
    }
    names
}

/// What the library reports about a dataset.
#[derive(Default)]
struct Dataset<'a> {
    address: u64,
    names: Vec<&'a str>,
    space: Vec<u64>,
    /// Class, size, and the address of the committed datatype that it shares or 0.
    datatype: Vec<u64>,
    /// Class, offset, storage size.
    layout: Vec<u64>,
    data: Option<&'a str>,
}

impl Dataset<'_> {
    /// Address and size of contiguous data that is stored.
    fn contiguous(&self) -> Option<(u64, u64)> {
        let [class, offset, size] = self.layout[..] else {
            panic!("{}: no layout", self.address);
        };
        (class == 1 && offset != u64::MAX && size > 0).then_some((offset, size))
    }
}

/// The datasets of a file whose dataspace has elements or could have.
fn datasets(file: &Recorded) -> Vec<Dataset<'_>> {
    let mut all: Vec<Dataset> = Vec::new();
    let mut in_dataset = false;
    for (word, fields) in &file.lines {
        if word == "object" {
            in_dataset = number(&fields[1]) == 2;
            if in_dataset {
                all.push(Dataset {
                    address: number(&fields[0]),
                    ..Dataset::default()
                });
            }
        }
        let Some(dataset) = all.last_mut().filter(|_| in_dataset) else {
            continue;
        };
        match word.as_str() {
            "path" => dataset.names.push(&fields[0]),
            "space" if fields[0] != "null" => dataset.space = numbers_of(fields),
            "type" => dataset.datatype = numbers_of(fields),
            "layout" => dataset.layout = numbers_of(fields),
            "data" => dataset.data = Some(&fields[0]),
            _ => {}
        }
    }
    all
}

/// The separate reader's description at full room.
fn described(_: &str, image: &[u8], path: &[u8]) -> (u32, Description) {
    let reply = describe(image, path, WORDS);
    (reply.number, reply.description)
}

#[test]
fn descriptions_are_the_library_s() {
    let names = every_description_is_reported(described);
    assert!(names > 500, "{names} names");
}

/// A description of each name of a dataset, and of everything else. Returns the number of names of datasets.
fn every_description_is_reported(
    mut found: impl FnMut(&str, &[u8], &[u8]) -> (u32, Description),
) -> usize {
    let mut names = 0;
    for file in manifest() {
        let image = file.image();
        let passed = matches!(numbers_of(file.one("answer"))[0], 0 | 12 | 13);
        if !passed {
            continue;
        }
        for dataset in datasets(&file) {
            for name in &dataset.names {
                let title = format!("{} {name}", file.name);
                let (answer, description) = found(&file.name, &image, &path(name));
                assert_eq!(answer, 0, "{title}");
                shape_is_reported(&title, &dataset, &description);
                data_are_reported(&title, &dataset, &description, &image);
                description_is_recorded(&title, &file, dataset.address, &description);
                names += 1;
            }
        }
        for (name, expected) in names_of(&file) {
            if expected.1 != 2 {
                let (answer, description) = found(&file.name, &image, &path(name));
                assert_eq!(answer, 20, "{} {name}", file.name);
                assert_eq!(description, Description::default(), "{}", file.name);
            }
        }
    }
    names
}

/// Rank, sizes and maxima, and the datatype: for a shared one a description has the address only.
fn shape_is_reported(title: &str, dataset: &Dataset, description: &Description) {
    let rank = description.rank as usize;
    let (sizes, maxima) = (&description.sizes, &description.maxima);
    let shape = [&[description.rank], &sizes[..rank], &maxima[..rank]].concat();
    assert_eq!(shape, dataset.space, "{title}");
    assert!(sizes[rank..].iter().all(|size| *size == 0), "{title}");
    assert!(maxima[rank..].iter().all(|size| *size == 0), "{title}");
    let fields = [description.class, description.element_size].map(u64::from);
    let datatype = [fields[0], fields[1], description.shared_address];
    let expected = match dataset.datatype[2] {
        0 => dataset.datatype.clone(),
        address => vec![0, 0, address],
    };
    assert_eq!(datatype.to_vec(), expected, "{title}");
}

/// Layout class, data offset and size, and the bytes there. The library gives no offset for compact data, and storage
/// size 0 for contiguous data that isn't allocated.
fn data_are_reported(title: &str, dataset: &Dataset, description: &Description, image: &[u8]) {
    let [class, offset, size] = dataset.layout[..] else {
        panic!("{title}: no layout");
    };
    assert_eq!(u64::from(description.layout_class), class, "{title}");
    if class == 1 {
        assert_eq!(description.data_address, offset, "{title}");
    }
    if class == 0 || offset != u64::MAX {
        assert_eq!(description.data_size, size, "{title}");
    }
    if let Some(expected) = dataset.data {
        let from = description.data_address as usize;
        let data = &image[from..from + description.data_size as usize];
        assert_eq!(sum(data.iter().copied()), expected, "{title}");
    }
}

/// The line `description` of the dataset at an address, if there is one: all fields.
fn description_is_recorded(title: &str, file: &Recorded, address: u64, found: &Description) {
    let mut lines = file.all("description").map(|line| numbers_of(line));
    let Some(line) = lines.find(|line| line[0] == address) else {
        // An audit that gives 12 or 13 has no lines of descriptions.
        assert_ne!(numbers_of(file.one("answer"))[0], 0, "{title}");
        return;
    };
    let rank = found.rank as usize;
    let mut fields = vec![address, found.rank];
    fields.extend(&found.sizes[..rank]);
    fields.extend(&found.maxima[..rank]);
    fields.extend([found.class, found.version, found.class_bits].map(u64::from));
    fields.extend([u64::from(found.element_size), found.shared_address]);
    fields.extend([u64::from(found.layout_class), found.data_address]);
    fields.push(found.data_size);
    assert_eq!(fields, line, "{title}");
}

/// The proved library on the same files.
#[cfg(feature = "proved")]
mod proved {
    use super::*;
    use compare::agree::{lent_bytes, words, Pair};
    use compare::reader::front::{
        BLOCK_BYTES, DESCRIBE_WORDS, LOOKUP_WORDS, MEND_WORDS, REPLY_WORDS,
    };

    fn count(word: u64) -> u32 {
        word.try_into().expect("a count of 32 bits")
    }

    #[test]
    fn proved_audits_answer_as_recorded() {
        let mut pair = Pair::default();
        answers_are_recorded(|name, image| pair.audit(name, image));
    }

    #[test]
    fn proved_objects_and_links_are_the_library_s() {
        let mut pair = Pair::default();
        let paths = objects_are_reported(|name, image| pair.audit(name, image));
        assert!(paths > 1000, "{paths} paths");
    }

    #[test]
    fn proved_blocks_are_those_of_their_objects() {
        let mut pair = Pair::default();
        let mut others = Pair::default();
        let described = |name: &str, image: &[u8], path: &[u8]| {
            let lent = (8 * WORDS, 8 * DESCRIBE_WORDS);
            let number = others.descriptions_agree(name, image, path, lent.0, lent.1);
            assert_eq!(number, 0, "{name}");
            words(&others.left().blocks)
        };
        blocks_have_their_owners(|name, image| pair.audit(name, image), described);
    }

    #[test]
    fn proved_mending_restores_the_library_s_counts() {
        let mut pair = Pair::default();
        every_count_is_restored(|name, image| {
            let lent = (8 * WORDS, 8 * LOG, 8 * MEND_WORDS);
            assert_eq!(pair.mends_agree(name, image, lent, u64::MAX), 0, "{name}");
            pair.left().image.clone()
        });
    }

    /// A file is passed exactly where there is room for all its blocks.
    #[test]
    fn proved_audits_agree_at_every_room() {
        let mut pair = Pair::default();
        for (turn, file) in manifest().iter().enumerate() {
            let image = file.image();
            let recorded = numbers_of(file.one("answer"));
            let (answer, blocks) = (recorded[0], recorded[2] as usize);
            let around = [blocks.saturating_sub(1), blocks].map(|room| BLOCK_BYTES * room);
            for lent in lent_bytes(&image, turn).chain(around) {
                let number = pair.agree(&file.name, &image, lent, 8 * REPLY_WORDS + turn);
                let passed = answer == 0 && lent / BLOCK_BYTES >= blocks;
                assert_eq!(number == 0, passed, "{}, {lent} bytes", file.name);
                assert!(answer != 0 || passed || number == 13, "{}", file.name);
            }
        }
    }

    #[test]
    fn proved_names_lead_to_their_objects() {
        let mut pair = Pair::default();
        let names = every_name_leads_to_its_object(|name, image, path| {
            let number = pair.lookups_agree(name, image, path, 8 * WORDS, 8 * LOOKUP_WORDS);
            let reply = words(&pair.left().reply);
            assert_eq!(reply[0], 0, "{name}");
            (number, reply[1], reply[2])
        });
        assert!(names > 2000, "{names} names");
    }

    /// A reply of the C front end as the checks take it.
    fn description(reply: &[u64]) -> Description {
        Description {
            rank: reply[1],
            sizes: reply[2..34].try_into().expect("32 sizes"),
            maxima: reply[34..66].try_into().expect("32 maxima"),
            class: count(reply[66]),
            version: count(reply[67]),
            class_bits: count(reply[68]),
            element_size: count(reply[69]),
            shared_address: reply[70],
            layout_class: count(reply[71]),
            data_address: reply[72],
            data_size: reply[73],
        }
    }

    #[test]
    fn proved_descriptions_are_the_library_s() {
        let mut pair = Pair::default();
        let names = every_description_is_reported(|name, image, path| {
            let number = pair.descriptions_agree(name, image, path, 8 * WORDS, 8 * DESCRIBE_WORDS);
            (number, description(&words(&pair.left().reply)))
        });
        assert!(names > 500, "{names} names");
    }

    #[test]
    fn proved_lookups_agree_at_every_room() {
        let mut pair = Pair::default();
        for (turn, file) in manifest().iter().enumerate() {
            let image = file.image();
            for (name, _) in names_of(file).into_iter().take(40) {
                let path = path(name);
                for lent in lent_bytes(&image, turn) {
                    let more = turn % 17;
                    let reply = 8 * LOOKUP_WORDS + more;
                    pair.lookups_agree(&file.name, &image, &path, lent, reply);
                    let reply = 8 * DESCRIBE_WORDS + more;
                    pair.descriptions_agree(&file.name, &image, &path, lent, reply);
                }
            }
        }
    }
}
