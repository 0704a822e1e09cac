//! The damage report: which block it names. By the separate reader, and with the feature `proved` by the C front end of the
//! proved library too, the two compared byte for byte.

use compare::generate::attribute::Attribute;
use compare::generate::corpus::{cases, each, full_room, SMALL_ROOMS};
use compare::generate::dataset::{Dataset, Datatype, Layout};
use compare::generate::header::{self, Message};
use compare::generate::plan::{Content, Object, Plan};
use compare::generate::random::Random;
use compare::generate::sheet::Sheet;
use compare::generate::small::{self, DATASET, E_BLOCKS, H_BLOCKS, ROOT};
use compare::generate::write::write;
use compare::generate::{limits, moved, sharing, special};
use compare::plain::Four;
use compare::reader::front::{report_bytes, BLOCK_BYTES, REPORT_WORDS};
use compare::reader::{audit, report, ReportReply, SUPERBLOCK_OWNER};
use compare::reader::{MOST_BLOCKS, MOST_OBJECTS};
use compare::reports::{check, holds, number, Left, Report};
use std::collections::BTreeMap;
use std::fs;
use std::path::{Path, PathBuf};

/// The bytes of a list for every block of an image.
fn full(image: &[u8]) -> usize {
    BLOCK_BYTES * full_room(image)
}

/// What lay in the slices before a call.
const BEFORE: u8 = 0xa5;

/// A report on bytes, of the reader or of the library.
type Call = fn(&[u8], &mut [u8], &mut [u8]) -> u32;

/// With so many bytes lent for blocks and for the reply.
fn call(call: Call, image: &[u8], blocks: usize, reply: usize) -> Left {
    let mut blocks = vec![BEFORE; blocks];
    let mut reply = vec![BEFORE; reply];
    let number = call(image, &mut blocks, &mut reply);
    Left {
        number,
        blocks,
        reply,
    }
}

fn all_calls() -> Vec<Call> {
    vec![
        report_bytes,
        #[cfg(feature = "proved")]
        compare::library::report,
    ]
}

/// So many bytes, these words first and then zeros.
fn bytes(words: &[u64], length: usize) -> Vec<u8> {
    let mut bytes: Vec<u8> = words.iter().flat_map(|word| word.to_le_bytes()).collect();
    bytes.resize(length, 0);
    bytes
}

// The examples of the request.

/// The words of a reply: answer, block count, place, address, length, kind and object of the damaged block, and the block met.
type Reply = [u64; REPORT_WORDS];

/// The report with so many words lent for the list, by everyone: these blocks in the list and these words in the reply, which
/// may have further bytes. A reply that is too short has nothing, whatever the image.
fn report_is(image: &[u8], words: usize, blocks: &[Four], reply: Reply) {
    let list = &blocks[..reply[1] as usize];
    let mut padded = list.concat();
    padded.resize(words, 0);
    let expected = ReportReply {
        answer: reply[0] as u32,
        block_count: reply[1],
        place: reply[2],
        block: [reply[3], reply[4], reply[5], reply[6]],
        met: reply[7],
        objects: audit(image, words).objects,
        list: padded,
    };
    assert_eq!(report(image, words), expected);
    for function in all_calls() {
        for more in [0, 1, 7, 8, 17] {
            let lent = (8 * words + more % 8, 8 * REPORT_WORDS + more);
            let left = call(function, image, lent.0, lent.1);
            assert_eq!(left.number, 0, "{reply:?}");
            assert_eq!(left.blocks, bytes(list.as_flattened(), lent.0), "{reply:?}");
            assert_eq!(left.reply, bytes(&reply, lent.1));
        }
        for short in [0, 1, 7, 8, 8 * 7, 8 * REPORT_WORDS - 1] {
            let left = call(function, image, 8 * words, short);
            assert_eq!(left.number, 13, "{reply:?}");
            assert_eq!(left.blocks, bytes(&[], 8 * words), "{reply:?}");
            assert_eq!(left.reply, bytes(&[], short), "{reply:?}");
        }
    }
}

/// All ones: the superblock's object.
const F: u64 = SUPERBLOCK_OWNER;

/// H with a byte changed.
fn h(at: usize, byte: u8) -> Vec<u8> {
    let mut image = small::h().bytes;
    image[at] = byte;
    image
}

/// H and E have the same first blocks.
#[test]
fn examples() {
    let with = |field, value| small::h().with(field, 0, value).bytes;
    let links: [(&[u8], u64); 2] = [(b"a", DATASET), (b"b", DATASET)];
    let stored_1 = small::h_with(&links, 1, 1).bytes;
    let e_799 = small::e().with("superblock end of file", 0, 799).bytes;
    assert_eq!(E_BLOCKS, H_BLOCKS[..5]);
    let sound = small::h().bytes;
    let short = sound[..95].to_vec();
    let rows: [(Vec<u8>, usize, Reply); 20] = [
        (sound.clone(), 32, [0, 8, 0, 0, 0, 0, 0, 0]),
        (stored_1, 32, [0, 8, 0, 0, 0, 0, 0, 0]),
        (e_799, 32, [5, 3, 712, 712, 88, 5, 0, 0]),
        (h(136, 0), 32, [7, 5, 136, 136, 544, 6, 0, 0]),
        (h(808, 255), 32, [9, 6, 808, 800, 328, 7, 0, 0]),
        (h(1153, 33), 32, [11, 7, 1144, 1128, 96, 2, 1, 0]),
        (h(1130, 4), 32, [10, 7, 1128, 1128, 96, 2, 1, 0]),
        (with("root address", 0), 32, [6, 1, 0, 0, 16, 2, 0, 0]),
        (
            with("layout address", 799),
            32,
            [6, 7, 799, 799, 4, 8, 1, 712],
        ),
        (sound.clone(), 28, [13, 7, 1224, 1224, 4, 8, 1, 0]),
        (sound.clone(), 31, [13, 7, 1224, 1224, 4, 8, 1, 0]),
        // The header of an object that has no other block yet; the root's; the superblock.
        (sound.clone(), 24, [13, 6, 1128, 1128, 96, 2, 1, 0]),
        (sound.clone(), 4, [13, 1, 96, 96, 40, 2, 0, 0]),
        (sound, 3, [13, 0, 0, 0, 96, 1, F, 0]),
        // What can't be opened comes before 13.
        (short.clone(), 32, [1, 0, 0, 0, 0, 0, 0, 0]),
        (short, 0, [1, 0, 0, 0, 0, 0, 0, 0]),
        (h(0, 0), 32, [2, 0, 0, 0, 96, 1, F, 0]),
        (h(0, 0), 0, [2, 0, 0, 0, 96, 1, F, 0]),
        (h(13, 4), 32, [3, 0, 0, 0, 96, 1, F, 0]),
        (h(16, 0), 32, [4, 0, 0, 0, 96, 1, F, 0]),
    ];
    for (image, words, reply) in rows {
        report_is(&image, words, &H_BLOCKS, reply);
    }
}

/// Every row of the request's table that H can have with one byte changed.
#[test]
fn rows_of_the_table() {
    let rows: [(usize, u8, Reply); 26] = [
        // Header version and message of the root.
        (96, 2, [3, 2, 96, 96, 40, 2, 0, 0]),
        (112, 2, [3, 2, 112, 96, 40, 2, 0, 0]),
        // Signature and segment size in the heap header, and the head of the free list.
        (680, 0, [7, 3, 680, 680, 32, 4, 0, 0]),
        (688, 7, [9, 3, 680, 680, 32, 4, 0, 0]),
        (696, 87, [9, 4, 712, 712, 88, 5, 0, 0]),
        // Signature, type and keys of the tree node.
        (136, 0, [7, 5, 136, 136, 544, 6, 0, 0]),
        (140, 1, [8, 5, 136, 136, 544, 6, 0, 0]),
        (160, 88, [9, 5, 160, 136, 544, 6, 0, 0]),
        (176, 88, [9, 5, 176, 136, 544, 6, 0, 0]),
        // Signature and count of the symbol table node; name, order and type of an entry.
        (800, 0, [7, 6, 800, 800, 328, 7, 0, 0]),
        (806, 9, [8, 6, 800, 800, 328, 7, 0, 0]),
        (848, 255, [9, 6, 848, 800, 328, 7, 0, 0]),
        (848, 8, [8, 6, 848, 800, 328, 7, 0, 0]),
        (864, 3, [8, 6, 848, 800, 328, 7, 0, 0]),
        // Header version, message total, kind and message of the dataset.
        (1128, 2, [3, 7, 1128, 1128, 96, 2, 1, 0]),
        (1130, 4, [10, 7, 1128, 1128, 96, 2, 1, 0]),
        (1144, 0, [10, 7, 1128, 1128, 96, 2, 1, 0]),
        (1170, 12, [10, 7, 1168, 1128, 96, 2, 1, 0]),
        // Dataspace, datatype, layout, product.
        (1152, 0, [3, 7, 1144, 1128, 96, 2, 1, 0]),
        (1180, 0, [11, 7, 1168, 1128, 96, 2, 1, 0]),
        (1200, 2, [3, 7, 1192, 1128, 96, 2, 1, 0]),
        (1160, 5, [11, 7, 1192, 1128, 96, 2, 1, 0]),
        // A tree node, a header whose end isn't inside, one whose first 16 bytes aren't, which is the third object, and data.
        (141, 1, [5, 5, 800, 800, 544, 6, 0, 0]),
        (1136, 88, [5, 6, 1128, 1128, 104, 2, 1, 0]),
        (857, 5, [5, 8, 1384, 1384, 16, 2, 2, 0]),
        (1203, 5, [5, 7, 1480, 1480, 4, 8, 1, 0]),
    ];
    for (at, byte, reply) in rows {
        report_is(&h(at, byte), 32, &H_BLOCKS, reply);
    }
}

/// H whose dataset has its datatype in a continuation, behind its header: dataspace at 1144, layout at 1168, continuation
/// message at 1200; the continuation at 1224 (24 long), the data at 1248.
fn continued() -> Sheet {
    let dataset = Dataset {
        sizes: vec![4],
        maxima: None,
        datatype: Datatype::integer(1),
        layout: Layout::Stored(4),
    };
    let mut first = dataset.messages(1248, 0);
    let datatype = first.remove(1);
    first.push(Message::continuation(1, 0));
    let mut sheet = Sheet::default();
    small::write_superblock(&mut sheet, 1252);
    header::write(&mut sheet, &[ROOT], 1, &[vec![small::table(ROOT + 40)]]);
    small::write_group(&mut sheet, ROOT + 40, &[(b"a", DATASET), (b"b", DATASET)]);
    let places = [DATASET, 1224];
    header::write(&mut sheet, &places, 2, &[first, vec![datatype]]);
    sheet.raw(1248, b"data");
    assert_eq!(sheet.bytes.len(), 1252);
    sheet
}

/// The continuation is entered last, and is named only if the message that is wrong stands in it.
#[test]
fn a_message_is_named_by_its_own_block() {
    let mut blocks = H_BLOCKS[..7].to_vec();
    blocks.push([1224, 24, 3, 1]);
    blocks.push([1248, 4, 8, 1]);
    report_is(&continued().bytes, 36, &blocks, [0, 9, 0, 0, 0, 0, 0, 0]);
    let in_header = |answer, place| [answer, 8, place, 1128, 96, 2, 1, 0];
    let in_continuation = |answer| [answer, 8, 1224, 1224, 24, 3, 1, 0];
    for (field, nth, value, reply) in [
        ("dataspace rank", 0, 33, in_header(11, 1144)),
        ("dataspace version", 0, 2, in_header(3, 1144)),
        ("datatype size", 0, 0, in_continuation(11)),
        ("datatype class", 0, 0, in_continuation(3)),
        ("layout version", 0, 4, in_header(3, 1168)),
        // The product is the layout message's.
        ("dataspace size", 0, 5, in_header(11, 1168)),
        // The message total and the kind are the header's.
        ("header messages", 1, 5, in_header(10, 1128)),
        ("message type", 4, 0, in_header(10, 1128)),
        ("message type", 4, 2, in_continuation(3)),
        ("message size", 4, 24, in_continuation(10)),
    ] {
        let image = continued().with(field, nth, value).bytes;
        report_is(&image, 36, &blocks, reply);
    }
}

/// A second continuation message that gives the place of the first: the block that can't be entered has the words of one that
/// was.
#[test]
fn a_refused_block_may_have_the_words_of_one_in_the_list() {
    let mut root = special::root(Vec::new());
    root.parents = vec![0, 0];
    let sheet = write(&Plan::new(vec![root]), 1).sheet;
    let address = sheet.value(sheet.field("continuation address", 0));
    let length = sheet.value(sheet.field("continuation length", 0));
    let sheet = sheet.with("continuation address", 1, address);
    let image = sheet.with("continuation length", 1, length).bytes;
    let root = sheet.value(sheet.field("root address", 0));
    let header = 16 + sheet.value(sheet.field("header size", 0));
    let blocks = [H_BLOCKS[0], [root, header, 2, 0], [address, length, 3, 0]];
    let reply = [6, 3, address, address, length, 3, 0, address];
    report_is(&image, 32, &blocks, reply);
}

// Reports of many images.

/// How often an answer was given with a block of that kind; kind 0 stands for no block.
type Tally = BTreeMap<(u64, u64), u64>;

/// Every answer with every kind of block that the request's table has for it. The superblock is entered first and meets none.
fn rows() -> Vec<(u64, u64)> {
    let mut rows = vec![(0, 0), (1, 0), (2, 1), (3, 1), (3, 2), (3, 3), (4, 1)];
    rows.extend((1..=8).map(|kind| (5, kind)));
    rows.extend((2..=8).map(|kind| (6, kind)));
    rows.extend([(7, 4), (7, 6), (7, 7), (8, 6), (8, 7)]);
    rows.extend([(9, 4), (9, 5), (9, 6), (9, 7), (10, 2), (10, 3)]);
    rows.extend([(11, 2), (11, 3), (12, 2), (12, 3), (12, 7)]);
    rows.extend((1..=8).map(|kind| (13, kind)));
    rows
}

/// Bytes lent for a reply: too few, just enough, and more.
const REPLIES: [usize; 9] = [0, 1, 56, 63, 64, 65, 71, 72, 81];

/// One image in so many is read at smaller rooms too.
const PART: u64 = 7;

/// Reports of many images, each checked.
struct Reports<F> {
    /// A report with so many bytes lent for blocks and for the reply.
    reported: F,
    tally: Tally,
    images: u64,
    calls: u64,
}

impl<F> Reports<F>
where
    F: FnMut(&str, &[u8], usize, usize) -> Left,
{
    fn by(reported: F) -> Reports<F> {
        Reports {
            reported,
            tally: Tally::new(),
            images: 0,
            calls: 0,
        }
    }

    fn ask(&mut self, name: &str, image: &[u8], blocks: usize, reply: usize) -> Option<Report> {
        let left = (self.reported)(name, image, blocks, reply);
        let title = format!("{name}, {blocks} bytes for blocks, {reply} for the reply");
        let report = check(&title, image, &left);
        if let Some(report) = &report {
            let row = (report.answer, report.block[2]);
            *self.tally.entry(row).or_default() += 1;
        }
        self.calls += 1;
        report
    }

    /// At full room, and now and then at others with replies of other lengths.
    fn image(&mut self, name: &str, image: &[u8]) -> Report {
        let full = self.ask(name, image, full(image), 8 * REPORT_WORDS);
        if self.images.is_multiple_of(PART) {
            let turn = (self.images / PART) as usize;
            // Long lists take long, so that there are few of them.
            let large = [MOST_BLOCKS - 1, MOST_BLOCKS, MOST_BLOCKS + 6].get(turn % 32);
            let enough = full_room(image);
            for room in SMALL_ROOMS.chain([enough]).chain(large.copied()) {
                let blocks = BLOCK_BYTES * room + (turn + 5 * room) % BLOCK_BYTES;
                self.ask(name, image, blocks, 8 * REPORT_WORDS + turn % 17);
                self.ask(name, image, blocks, REPLIES[(turn + room) % REPLIES.len()]);
            }
        }
        self.images += 1;
        full.expect("a report")
    }

    /// Prints what was reached, and asks for these rows at least.
    fn reached(&self, title: &str, rows: &[(u64, u64)]) {
        println!(
            "{title}: {} images, {} calls; answer, kind of block, times:",
            self.images, self.calls
        );
        for answer in 0..14 {
            let times = self.tally.iter().filter(|(row, _)| row.0 == answer);
            let times: Vec<String> = times
                .map(|(row, times)| format!("{} {times}", row.1))
                .collect();
            println!("{answer:4}: {}", times.join(", "));
        }
        for row in rows {
            assert!(self.tally.contains_key(row), "{title}: no {row:?}");
        }
    }
}

/// The separate reader's report.
fn reader(_: &str, image: &[u8], blocks: usize, reply: usize) -> Left {
    call(report_bytes, image, blocks, reply)
}

/// The files and the damaged copies of the audits' comparison.
fn corpus_is_reported(reported: impl FnMut(&str, &[u8], usize, usize) -> Left) {
    let mut reports = Reports::by(reported);
    each(cases(40_000), |case| {
        let name = format!("{}, copy {}", case.file, case.copy);
        reports.image(&name, case.image);
    });
    // One object too many is met in an entry there, never in a message.
    let mut rows = rows();
    rows.retain(|row| !matches!(row, (12, 2 | 3)));
    reports.reached("corpus", &rows);
}

/// A root group whose attributes share committed datatypes without names, one too many: the last is met in its continuation.
fn many_over_a_continuation() -> Vec<u8> {
    let mut root = special::root(Vec::new());
    let attributes = (1..=MOST_OBJECTS).map(|object| Attribute::shared(2, object).message());
    root.steps = attributes.collect();
    root.parents = vec![0];
    let mut objects = vec![root];
    objects.resize(MOST_OBJECTS + 1, Object::new(Content::Committed));
    write(&Plan::new(objects), 1).sheet.bytes
}

/// Files of a known answer, of which some tell the place, files in which a block is moved to every address, and the largest.
fn named_files_are_reported(reported: impl FnMut(&str, &[u8], usize, usize) -> Left) {
    let mut reports = Reports::by(reported);
    for file in special::all().iter().chain(&sharing::all()) {
        let report = reports.image(&file.name, &file.sheet.bytes);
        assert_eq!(report.answer, u64::from(file.number), "{}", file.name);
        let told = file.place.filter(|_| file.number != 0);
        assert!(
            told.is_none_or(|place| report.place == place),
            "{}",
            file.name
        );
    }
    moved::each(|name, image| {
        reports.image(name, image);
    });
    for (name, image) in limits::all() {
        reports.image(name, &image);
        for room in [1, MOST_BLOCKS / 2, MOST_BLOCKS - 1, MOST_BLOCKS] {
            reports.ask(name, &image, BLOCK_BYTES * room, 8 * REPORT_WORDS);
        }
    }
    let report = reports.image("one more over a continuation", &many_over_a_continuation());
    assert_eq!((report.answer, report.block[2]), (12, 3));
    let mut rows = rows();
    rows.retain(|row| matches!(row.0, 5 | 6 | 12 | 13));
    reports.reached("named files", &rows);
}

/// Every byte of some small files in turn: each of its bits the other way, one more, one less, all ones and all zeros.
fn swept_bytes_are_reported(reported: impl FnMut(&str, &[u8], usize, usize) -> Left) {
    let mut reports = Reports::by(reported);
    let shares = sharing::passed().swap_remove(0).sheet;
    for (file, sheet) in [
        ("H", small::h()),
        ("C", small::c()),
        ("H with a continuation", continued()),
        ("continuation before its header", moved::continued()),
        ("everything that shares", shares),
    ] {
        let mut image = sheet.bytes;
        for at in 0..image.len() {
            let old = image[at];
            let mut values: Vec<u8> = (0..8).map(|bit| old ^ 1 << bit).collect();
            values.extend([old.wrapping_add(1), old.wrapping_sub(1), 0, 255]);
            values.sort_unstable();
            values.dedup();
            for value in values {
                image[at] = value;
                reports.image(&format!("{file}, byte {at} is {value}"), &image);
            }
            image[at] = old;
        }
    }
    // Five small files have neither too many objects nor another length.
    let mut rows = rows();
    rows.retain(|row| !matches!(row.0, 1 | 12));
    reports.reached("byte sweep", &rows);
}

#[test]
fn reports_of_the_corpus() {
    corpus_is_reported(reader);
}

#[test]
fn reports_of_named_files() {
    named_files_are_reported(reader);
}

#[test]
fn reports_of_swept_bytes() {
    swept_bytes_are_reported(reader);
}

// Files of the HDF5 library with one byte changed.

/// Every file of `tests/library` that an audit passes, by name.
fn library_files() -> Vec<(String, Vec<u8>)> {
    let folder = Path::new(env!("CARGO_MANIFEST_DIR")).join("../library/files");
    let entries = |folder: &Path| {
        let entries = fs::read_dir(folder).expect("a folder");
        let paths = entries.map(|entry| entry.expect("an entry").path());
        paths.collect::<Vec<PathBuf>>()
    };
    let releases = entries(&folder);
    let mut paths: Vec<PathBuf> = releases.iter().flat_map(|of| entries(of)).collect();
    paths.sort_unstable();
    let files = paths.into_iter().map(|path| {
        let name = path.strip_prefix(&folder).expect("a file in the folder");
        let image = fs::read(&path).expect("a file");
        (name.display().to_string(), image)
    });
    let read_here = |file: &(String, Vec<u8>)| audit(&file.1, full(&file.1) / 8).number == 0;
    files.filter(read_here).collect()
}

/// How the block that is named goes with the byte that was changed.
#[derive(Clone, Copy, PartialEq, Eq, PartialOrd, Ord, Debug)]
enum Class {
    /// It holds the byte.
    Holds,
    /// The byte is of a field that gives its address.
    Points,
    /// The byte is of a field that gives its length.
    Length,
    /// The byte is of a string in the segment, and the entry or key is named that has the string's offset.
    Text,
    // The others are neither, and each has its reason.
    /// With 6 two blocks share a byte and the later one is named: the byte is in the block met, or in the field that gives
    /// its address or its length.
    Met,
    /// The byte is of the end-of-file address: the first block that ends above it is named.
    EndOfFile,
    /// The byte is of a K in the superblock, which gives all nodes their length and their most entries.
    Node,
    /// The byte is of the heap's header: where the segment lies, how long it is and where its free list begins. For the free
    /// list the segment is named, for a name or key that isn't there now its entry or node.
    Heap,
    /// The byte is of another name or of a key, and a name is no longer in its place among them; or of a free block that now
    /// has bytes of a name. The name's entry is named.
    Names,
    /// The byte is of a tree node's level, number of entries or key: a node below it is named.
    Above,
    /// The byte is of another message of the same object: the total and the kind are the header's, the product is the layout
    /// message's.
    Messages,
    /// The byte decides what is taken for an address: the type of a message or an entry, the length of an attribute's name.
    /// The block at that address is named. This is rare.
    Taken,
}

const CLASSES: [Class; 12] = [
    Class::Holds,
    Class::Points,
    Class::Length,
    Class::Text,
    Class::Met,
    Class::EndOfFile,
    Class::Node,
    Class::Heap,
    Class::Names,
    Class::Above,
    Class::Messages,
    Class::Taken,
];

/// A file with one byte changed, and the report on it.
struct Change<'a> {
    sound: &'a [u8],
    image: &'a [u8],
    at: u64,
    report: &'a Report,
}

impl Change<'_> {
    /// The class, if there is one. A walk goes another way only where it reads the byte, and it reads a block only after it
    /// has entered it, but for the first bytes of a header. So the byte is in a block of the list or in the named one.
    fn class(&self) -> Option<Class> {
        let named = &self.report.block;
        if holds(named, self.at) {
            return Some(Class::Holds);
        }
        let mut holders = self
            .report
            .list
            .iter()
            .filter(|block| holds(block, self.at));
        let holder = holders.next()?;
        if self.points_to(holder, named) {
            return Some(Class::Points);
        }
        if self.measures(holder, named) {
            return Some(Class::Length);
        }
        let same_object = holder[3] == named[3];
        let offset = self.at - holder[0];
        let strings = matches!(self.report.answer, 8 | 9);
        match (holder[2], named[2]) {
            (5, 6 | 7) if same_object && self.string_of_place(holder) => Some(Class::Text),
            _ if self.report.answer == 6 && self.is_of_the_block_met(holder) => Some(Class::Met),
            (1, _) if self.report.answer == 5 && self.is_of_the_end_of_file() => {
                Some(Class::EndOfFile)
            }
            (1, kind) if k_of(kind) == Some(offset / 2) => Some(Class::Node),
            (4, 5..=7) if same_object && strings && offset >= 8 => Some(Class::Heap),
            (5, 7) if same_object && strings => Some(Class::Names),
            (6, 6 | 7) if same_object && self.is_below(holder, named[0], 8) => Some(Class::Above),
            (2 | 3, 2 | 3) if same_object && self.is_of_the_messages() => Some(Class::Messages),
            _ if self.has(holder, named[0]) => Some(Class::Taken),
            _ => None,
        }
    }

    /// The numbers of 8 bytes in a block that have the byte.
    fn fields(&self, holder: &Four) -> Vec<u64> {
        let first = self.at.saturating_sub(7).max(holder[0]);
        let last = self.at.min((holder[0] + holder[1]).saturating_sub(8));
        let places = first..=last;
        places.map(|place| number(self.image, place, 8)).collect()
    }

    fn points_to(&self, holder: &Four, block: &Four) -> bool {
        self.fields(holder).contains(&block[0])
    }

    /// The length of a continuation, of a segment and of data is a field of 8 bytes beside their address; that of a header is
    /// in the header itself, and that of a node follows from K.
    fn measures(&self, holder: &Four, block: &Four) -> bool {
        matches!(block[2], 3 | 5 | 8) && self.fields(holder).contains(&block[1])
    }

    /// The address stands in the block.
    fn has(&self, holder: &Four, address: u64) -> bool {
        let block = &self.image[holder[0] as usize..][..holder[1] as usize];
        let mut numbers = block.windows(8);
        numbers.any(|bytes| number(bytes, 0, 8) == address)
    }

    /// The place is that of an entry or key whose string, its NUL included, has the byte. An entry may have a link value too.
    fn string_of_place(&self, segment: &Four) -> bool {
        let place = self.report.place;
        let mut offsets = vec![number(self.image, place, 8)];
        if self.report.block[2] == 7 && number(self.image, place + 16, 4) == 2 {
            offsets.push(number(self.image, place + 24, 4));
        }
        let has_the_byte = |offset: u64| {
            let start = segment[0] + offset;
            // The NUL may be the byte that was changed, so the string is that of the sound file.
            let string = &self.sound[start as usize..(segment[0] + segment[1]) as usize];
            let nul = string.iter().position(|byte| *byte == 0);
            nul.is_some_and(|nul| (start..=start + nul as u64).contains(&self.at))
        };
        let inside = offsets.into_iter().filter(|offset| *offset < segment[1]);
        inside.into_iter().any(has_the_byte)
    }

    fn is_of_the_block_met(&self, holder: &Four) -> bool {
        let met = self
            .report
            .list
            .iter()
            .find(|block| block[0] == self.report.met);
        let met = met.expect("a block of the list");
        let by_k = holder[2] == 1 && k_of(met[2]) == Some(self.at / 2);
        let given = self.points_to(holder, met) || self.measures(holder, met);
        holds(met, self.at) || given || by_k
    }

    fn is_of_the_end_of_file(&self) -> bool {
        let field = 40 + 4 * u64::from(self.image[8]);
        (field..field + 8).contains(&self.at)
    }

    /// A child of a tree node that was entered, or a child of such a child, so many levels down.
    fn is_below(&self, node: &Four, address: u64, levels: u32) -> bool {
        let used = number(self.image, node[0] + 6, 2);
        let fields = (node[0] + 32..).step_by(16).take(used as usize);
        let mut children = fields.map(|field| number(self.image, field, 8));
        children.any(|child| {
            let mut nodes = self.report.list.iter().filter(|block| block[2] == 6);
            let node = nodes.find(|block| block[0] == child);
            let deeper = |node| levels > 0 && self.is_below(node, address, levels - 1);
            child == address || node.is_some_and(deeper)
        })
    }

    fn is_of_the_messages(&self) -> bool {
        let Report {
            answer,
            place,
            block,
            ..
        } = self.report;
        match answer {
            10 => block[2] == 2 && *place == block[0],
            11 => number(self.image, *place, 2) == 8,
            _ => false,
        }
    }
}

/// The place of a K in the superblock, in fields of two bytes: that of tree nodes, and that of symbol table nodes.
fn k_of(kind: u64) -> Option<u64> {
    match kind {
        6 => Some(9),
        7 => Some(8),
        _ => None,
    }
}

/// So many changes of each file.
const CHANGES: u64 = 500;

/// Changes of single bytes in files that the library wrote: a byte that makes a file unsound is in the named block, in a field
/// that gives its address or length, in a string that the named entry or key has, or stands to it as one of the other classes
/// says. Three quarters of the bytes are in blocks that are read.
fn damaged_library_files_are_reported(reported: impl FnMut(&str, &[u8], usize, usize) -> Left) {
    let mut reports = Reports::by(reported);
    let mut random = Random::new(20);
    let (mut files, mut sound_still, mut unsound) = (0, 0, 0);
    let mut classes: BTreeMap<Class, Vec<String>> = BTreeMap::new();
    for (name, sound) in library_files() {
        let list = reports.image(&name, &sound).list;
        let read: Vec<Four> = list.into_iter().filter(|block| block[2] != 8).collect();
        for _ in 0..CHANGES {
            let block = random.pick(&read);
            let at = match random.below(4) {
                0 => random.below(sound.len() as u64),
                _ => block[0] + random.below(block[1]),
            };
            let mut image = sound.clone();
            image[at as usize] ^= random.between(1, 255) as u8;
            let (old, new) = (sound[at as usize], image[at as usize]);
            let title = format!("{name}, byte {at} is {new:02x} for {old:02x}");
            let report = reports.image(&title, &image);
            if report.answer == 0 {
                sound_still += 1;
                continue;
            }
            unsound += 1;
            // Nobody reads what is in no block, nor data.
            assert!(read.iter().any(|block| holds(block, at)), "{title}");
            let change = Change {
                sound: &sound,
                image: &image,
                at,
                report: &report,
            };
            let Report {
                answer,
                place,
                block,
                met,
                ..
            } = &report;
            let said = format!("{title}: {answer}, {block:?}, place {place}, met {met}");
            let class = change.class().unwrap_or_else(|| panic!("no class: {said}"));
            classes.entry(class).or_default().push(said);
        }
        files += 1;
    }
    println!(
        "{files} library files, {} changes, {unsound} unsound:",
        files * CHANGES
    );
    let times = |class: Class| classes.get(&class).map_or(0, Vec::len);
    for class in CLASSES {
        println!("{:7} {class:?}", times(class));
        for said in classes.get(&class).into_iter().flatten().take(3) {
            println!("          {said}");
        }
    }
    let sum = |classes: &[Class]| classes.iter().map(|class| times(*class)).sum::<usize>();
    let direct = sum(&[Class::Holds, Class::Points, Class::Length, Class::Text]);
    println!("{direct} directly, {} not", unsound - direct);
    assert_eq!(sum(&CLASSES), unsound);
    assert_eq!(sound_still + unsound, (files * CHANGES) as usize);
    assert!(files > 50 && unsound > 5000);
    let common = |class: &Class| *class == Class::Taken || times(*class) > 0;
    assert!(CLASSES.iter().all(common));
    // Most of the time the byte is in the block itself, or in a field or string that leads straight to it.
    assert!(2 * times(Class::Holds) > unsound && 10 * direct > 9 * unsound);
}

#[test]
fn reports_of_damaged_library_files() {
    damaged_library_files_are_reported(reader);
}

/// The proved library on the same files, byte for byte as the reader, and its report's answer against its audit's number.
#[cfg(feature = "proved")]
mod proved {
    use super::*;
    use compare::agree::Pair;
    use compare::reader::front::REPLY_WORDS;

    fn both() -> impl FnMut(&str, &[u8], usize, usize) -> Left {
        let mut pair = Pair::default();
        move |name, image, blocks, reply| {
            let audited = pair.agree(name, image, blocks, 8 * REPLY_WORDS);
            let number = pair.report(name, image, blocks, reply);
            let left = pair.left();
            if number == 0 {
                assert_eq!(left.word(0), u64::from(audited), "{name}");
            }
            Left {
                number,
                blocks: left.blocks.clone(),
                reply: left.reply.clone(),
            }
        }
    }

    #[test]
    fn proved_reports_of_the_corpus() {
        corpus_is_reported(both());
    }

    #[test]
    fn proved_reports_of_named_files() {
        named_files_are_reported(both());
    }

    #[test]
    fn proved_reports_of_swept_bytes() {
        swept_bytes_are_reported(both());
    }

    #[test]
    fn proved_reports_of_damaged_library_files() {
        damaged_library_files_are_reported(both());
    }
}
