//! The reader alone over the images of the comparison: it never panics, reaches every answer of an audit, and what it
//! says holds together.

use compare::generate::corpus::{cases, each, full_room, SMALL_ROOMS};
use compare::generate::paths;
use compare::generate::plan::{Content, Plan, Target};
use compare::generate::random::Random;
use compare::generate::write::{write, File};
use compare::generate::{files, limits};
use compare::plain::{self, Meetings};
use compare::reader::{audit, audit_stop, describe, lookup, mend, undo, AuditReply, Stop};
use compare::reader::{BLOCK_WORDS, LEAST_BYTES, MOST_BLOCKS, MOST_BYTES, MOST_OBJECTS};

/// The words of a list for every block of an image.
fn full(image: &[u8]) -> usize {
    BLOCK_WORDS * full_room(image)
}

/// The words of a log for every object that an audit may find.
const LOG: usize = 2 * MOST_OBJECTS;

#[test]
fn every_answer_is_reached_and_sound() {
    let mut reached = [0u64; 21];
    let mut meetings = Meetings::default();
    let mut images = 0;
    each(cases(40_000), |case| {
        let (name, image) = (case.file, case.image);
        images += 1;
        let lent = full(image);
        let full = audit(image, lent);
        reached[full.number as usize] += 1;
        if full.number == 0 {
            check_passed(name, image, &full);
        } else {
            assert_eq!(
                full,
                AuditReply {
                    number: full.number,
                    met: full.met,
                    list: vec![0; lent],
                    ..AuditReply::default()
                }
            );
        }
        let reply = (full.number, full.met);
        meetings.check(&name, reply, || plain::audit(image));
        if full.number == 6 {
            check_refused(name, image);
        }
        for room in SMALL_ROOMS {
            let small = audit(image, 4 * room + room % 4);
            reached[small.number as usize] += 1;
            check_room(name, room as u64, &full, &small);
        }
    });
    println!("{images} images; answers reached:");
    for (number, times) in reached.iter().enumerate().take(14) {
        println!("{number:4} {times:9}");
    }
    assert!(reached[..14].iter().all(|times| *times > 0));
    assert!(reached[14..].iter().all(|times| *times == 0));
    meetings.are_at_least("audits", [1500, 500, 350, 60]);
}

/// The refused block is the one that meets others in the plain walk.
fn check_refused(name: &str, image: &[u8]) {
    let block = plain::audit(image).err().map(|meeting| meeting.block);
    let Some(Stop::NotEntered {
        part,
        address,
        length,
        ..
    }) = audit_stop(image, full(image))
    else {
        panic!("{name}: no block is refused");
    };
    let refused = block.expect("a block that meets others");
    assert_eq!([address, length, part as u64], refused[..3], "{name}");
}

/// Less room gives 13 where the full walk needs more blocks, else the same.
fn check_room(name: &str, room: u64, full: &AuditReply, small: &AuditReply) {
    if full.number == 0 && full.block_count <= room {
        assert_eq!(small.objects, full.objects, "{name}");
        assert_eq!(small.number, 0, "{name}");
        assert_eq!(small.list, full.list[..small.list.len()], "{name}");
    } else {
        let full = (full.number, full.met);
        let same = full.0 != 0 && (small.number, small.met) == full;
        assert!(same || (small.number, small.met) == (13, 0), "{name}");
    }
}

/// The list and the objects are those of the plain walk, in which no two blocks share a byte. All blocks are inside, and true
/// counts sum to the hard links, the sharings and one.
fn check_passed(name: &str, image: &[u8], reply: &AuditReply) {
    let Ok(plain) = plain::audit(image) else {
        panic!("{name}: two blocks meet");
    };
    let entered = plain.entered.concat();
    assert_eq!(reply.block_count as usize, plain.entered.len(), "{name}");
    assert_eq!(reply.list[..entered.len()], entered, "{name}");
    assert!(reply.list[entered.len()..].iter().all(|word| *word == 0));
    let end_at = if image[8] == 1 { 44 } else { 40 };
    let end = word(image, end_at, 8);
    for block in plain.entered {
        assert!(block[1] > 0 && block[0] + block[1] <= end, "{name}");
    }
    let objects = reply.objects.iter();
    assert!(objects
        .clone()
        .map(|object| object.address)
        .eq(plain.objects));
    let sum: u64 = objects.map(|object| u64::from(object.true_count)).sum();
    assert_eq!(sum, 1 + plain.references, "{name}");
    for object in &reply.objects {
        let stored = word(image, object.address as usize + 4, 4);
        assert_eq!(u64::from(object.stored), stored, "{name}");
    }
}

fn word(image: &[u8], at: usize, width: usize) -> u64 {
    let bytes = &image[at..at + width];
    bytes
        .iter()
        .rev()
        .fold(0, |word, byte| word << 8 | u64::from(*byte))
}

/// Files as they were planned: objects in order of discovery with their counts, and every path found.
#[test]
fn plans_are_read_back() {
    for seed in 1000..2500 {
        let plan = files::plan(seed);
        let file = write(&plan, seed);
        let reply = audit(&file.sheet.bytes, full(&file.sheet.bytes));
        assert_eq!(reply.number, 0, "file {seed}");
        let walk = plan.walk();
        assert_eq!(reply.objects.len(), walk.len(), "file {seed}");
        for (object, (number, count)) in reply.objects.iter().zip(walk) {
            assert_eq!(object.address, file.places[number], "file {seed}");
            assert_eq!(object.stored, file.stored[number], "file {seed}");
            assert_eq!(object.true_count, count, "file {seed}");
        }
        check_paths(&plan, &file, 0, b"", 1);
        check_mending(&file.sheet.bytes);
    }
}

fn check_paths(plan: &Plan, file: &File, number: usize, path: &[u8], depth: usize) {
    let lent = full(&file.sheet.bytes);
    let Content::Group(group) = &plan.objects[number].content else {
        return;
    };
    for link in &group.links {
        let path = [path, b"/", &link.name].concat();
        let reply = lookup(&file.sheet.bytes, &path, lent);
        if path.len() > 1024 {
            assert_eq!(reply.number, 14);
            continue;
        }
        assert_eq!(reply.number, 0);
        match &link.target {
            Target::Object(target) => {
                assert_eq!(reply.address, file.places[*target]);
                check_object(plan, file, *target, &path, reply.kind);
                if depth > 0 {
                    check_paths(plan, file, *target, &path, depth - 1);
                }
            }
            _ => {
                assert_eq!((reply.kind, reply.address), (4, 0));
                let beyond = [path.as_slice(), b"/x"].concat();
                assert!([14, 16].contains(&lookup(&file.sheet.bytes, &beyond, lent).number));
            }
        }
    }
    let absent = [path, b"/absent"].concat();
    assert!([14, 15].contains(&lookup(&file.sheet.bytes, &absent, lent).number));
}

/// Every path of three components or fewer, and paths beside those of two, as the plan has them.
#[test]
fn planned_paths_are_answered() {
    let mut reached = [0u64; 21];
    for seed in 1000..1300 {
        let plan = files::plan(seed);
        let file = write(&plan, seed);
        let beside = paths::planned(&plan, 2)
            .into_iter()
            .flat_map(|path| paths::beside(&path));
        for path in paths::planned(&plan, 3).into_iter().chain(beside) {
            let reply = lookup(&file.sheet.bytes, &path, full(&file.sheet.bytes));
            let expected = paths::answer(&plan, &file, &path);
            let found = (reply.number, reply.kind, reply.address);
            let title = path.escape_ascii();
            assert_eq!(found, expected, "file {seed}, \"{title}\"");
            reached[reply.number as usize] += 1;
        }
    }
    println!("answers of lookups: {reached:?}");
    for number in [0, 14, 15, 16, 17] {
        assert!(reached[number] > 0, "{number} was never reached");
    }
}

fn check_object(plan: &Plan, file: &File, number: usize, path: &[u8], kind: u32) {
    let described = describe(&file.sheet.bytes, path, full(&file.sheet.bytes));
    match &plan.objects[number].content {
        Content::Group(_) => assert_eq!((kind, described.number), (1, 20)),
        Content::Committed => assert_eq!((kind, described.number), (3, 20)),
        Content::Dataset(dataset) => {
            assert_eq!((kind, described.number), (2, 0));
            let fields = described.description;
            assert_eq!(fields.rank, dataset.sizes.len() as u64);
            assert_eq!(fields.sizes[..dataset.sizes.len()], dataset.sizes);
            let maxima = dataset.maxima.as_ref().unwrap_or(&dataset.sizes);
            assert_eq!(fields.maxima[..maxima.len()], *maxima);
        }
    }
}

/// Mended in any two steps and undone in any two steps, a file is as before.
fn check_mending(image: &[u8]) {
    let lent = full(image);
    let before = audit(image, lent);
    let wrong = before
        .objects
        .iter()
        .filter(|object| object.stored != object.true_count)
        .count();
    let mut changed = image.to_vec();
    if wrong > 0 {
        assert_eq!(mend(&mut changed, lent, 2 * wrong - 1, 99).number, 18);
        assert_eq!(changed, image);
    }
    let reply = mend(&mut changed, lent, 2 * wrong + 3, wrong as u64 / 2);
    assert_eq!((reply.number, reply.entries), (0, wrong as u64));
    assert_eq!(reply.list, before.list);
    let log = reply.log;
    let mut whole = image.to_vec();
    mend(&mut whole, lent, 2 * wrong, u64::MAX);
    let after = audit(&whole, lent);
    assert!(after
        .objects
        .iter()
        .all(|object| object.stored == object.true_count));
    for image_now in [&mut changed, &mut whole] {
        assert_eq!(
            undo(image_now, &log, wrong as u64, 1).writes,
            1.min(wrong as u64)
        );
        assert_eq!(
            undo(image_now, &log, wrong as u64, u64::MAX).writes,
            wrong as u64
        );
        assert_eq!(image_now, image);
    }
}

/// Lookup, description and undo over damaged images: no panic, and no change by a refusal.
#[test]
fn damaged_images_never_panic() {
    let mut random = Random::new(5);
    let mut reached = [0u64; 21];
    let mut meetings = [Meetings::default(), Meetings::default()];
    each(cases(40_000) / 4, |case| {
        let image = case.image;
        let full = full(image);
        for path in case.paths(&mut random) {
            let lent = random.pick(&[0, 8, 19, 20, 32, full, full, full]);
            let found = lookup(image, &path, lent);
            let described = describe(image, &path, lent);
            reached[described.number as usize] += 1;
            assert_eq!(found.list, vec![0; lent]);
            if found.number != 0 {
                assert_eq!(described.number, found.number);
                assert_eq!(described.met, found.met);
            } else if found.kind != 2 {
                assert_eq!(described.number, 20);
            }
            if described.number == 0 {
                let Ok(mut entered) = plain::lookup(image, &path, true) else {
                    panic!("{}: two blocks meet", case.file);
                };
                entered.resize(lent.div_ceil(4), [0; 4]);
                assert_eq!(described.list, entered.concat()[..lent]);
            }
            let replies = [(found.number, found.met), (described.number, described.met)];
            for (describes, reply) in replies.into_iter().enumerate() {
                let walk = || plain::lookup(image, &path, describes == 1);
                meetings[describes].check(&case.file, reply, walk);
            }
        }
        let mut changed = image.to_vec();
        let reply = mend(&mut changed, full, LOG, u64::MAX);
        if reply.number != 0 {
            assert_eq!(changed, image);
            let audited = audit(image, full);
            let expected = (audited.number, audited.met);
            assert_eq!((reply.number, reply.met), expected);
        }
        let undone = undo(&mut changed, &reply.log, reply.entries, u64::MAX);
        assert_eq!(changed, image);
        let read_here = (LEAST_BYTES..=MOST_BYTES).contains(&image.len());
        assert_eq!(undone.number == 0, read_here);
    });
    println!("answers of descriptions: {reached:?}");
    for number in [0, 1, 2, 3, 4, 5, 6, 7, 8, 9, 10, 11, 13, 14, 15, 16, 17, 20] {
        assert!(reached[number] > 0, "{number} was never reached");
    }
    meetings[0].are_at_least("lookups", [1200, 40, 200, 4]);
    meetings[1].are_at_least("descriptions", [1200, 40, 200, 4]);
}

#[test]
fn files_at_the_limits() {
    for (name, image) in limits::all() {
        let lent = BLOCK_WORDS * MOST_BLOCKS;
        let reply = audit(&image, lent);
        assert_eq!(image.len(), MOST_BYTES, "{name}");
        let found = (reply.number, reply.block_count);
        assert_eq!(found, (0, MOST_BLOCKS as u64), "{name}");
        check_passed(name, &image, &reply);
        assert_eq!(audit(&image, lent - 1).number, 13, "{name}");
    }
}
