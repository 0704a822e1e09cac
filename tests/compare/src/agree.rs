//! The proved library against the separate reader on one image: the number and every byte lent.

use crate::generate::corpus::{full_room, SMALL_ROOMS};
use crate::library;
use crate::plain::{self, Meeting, Meetings};
use crate::reader::front::{audit_bytes, describe_bytes, lookup_bytes};
use crate::reader::front::{mend_bytes, report_bytes, undo_bytes};
use crate::reader::front::{BLOCK_BYTES, REPLY_WORDS};
use crate::reader::{AuditReply, Object, Refusal, MOST_BLOCKS};
use std::fmt::Display;

/// What lay in the slices before a call.
const BEFORE: u8 = 0xa5;

/// The slices lent to a call for writing, as it leaves them. The image is here after a mend or an undo, the log after a
/// mend; else they are empty.
#[derive(Clone, PartialEq, Eq, Default)]
pub struct Lent {
    pub blocks: Vec<u8>,
    pub reply: Vec<u8>,
    pub log: Vec<u8>,
    pub image: Vec<u8>,
}

impl Lent {
    fn prepare(&mut self, blocks: usize, reply: usize) {
        self.blocks.clear();
        self.blocks.resize(blocks, BEFORE);
        self.reply.clear();
        self.reply.resize(reply, BEFORE);
        self.log.clear();
        self.image.clear();
    }

    fn prepare_image(&mut self, image: &[u8], log: usize) {
        self.log.resize(log, BEFORE);
        self.image.extend_from_slice(image);
    }

    /// Nothing but zeros in list, reply and log, as a refusal leaves them; with 6 the reply's first word isn't looked at.
    pub fn is_refused(&self, number: u32) -> bool {
        // By parts that are read whole, since most slices are long and clear.
        let clear = |slice: &[u8]| {
            let mut parts = slice.chunks(256);
            parts.all(|part| part.iter().fold(0, |any, byte| any | byte) == 0)
        };
        let met = if number == MEET { 8 } else { 0 };
        clear(&self.blocks) && clear(&self.reply[met..]) && clear(&self.log)
    }

    /// A word of the reply.
    pub fn word(&self, number: usize) -> u64 {
        words(&self.reply[8 * number..8 * number + 8])[0]
    }

    /// The objects in an audit's reply. That of a refusal has none.
    pub fn objects(&self) -> Vec<Object> {
        let count = |word: u64| word.try_into().expect("a count of 32 bits");
        let objects = &self.reply[16..][..24 * self.word(1) as usize];
        words(objects)
            .chunks_exact(3)
            .map(|words| Object {
                address: words[0],
                stored: count(words[1]),
                true_count: count(words[2]),
            })
            .collect()
    }
}

/// The whole words of a slice.
pub fn words(bytes: &[u8]) -> Vec<u64> {
    bytes
        .chunks_exact(8)
        .map(|word| u64::from_le_bytes(word.try_into().expect("8 bytes")))
        .collect()
}

/// "block shares a byte with one already entered"
const MEET: u32 = Refusal::BlocksMeet as u32;

/// The calls that may give 6.
#[derive(Clone, Copy)]
pub enum Call {
    Audit,
    Lookup,
    Description,
    Mend,
}

/// The library and the reader, each with its own slices.
#[derive(Default)]
pub struct Pair {
    library: Lent,
    reader: Lent,
    /// Every 6, by call.
    meetings: [Meetings; 4],
}

/// A lookup or a description: image, path, blocks and reply.
type OfPath = fn(&[u8], &[u8], &mut [u8], &mut [u8]) -> u32;

impl Pair {
    /// Both audits of an image, with so many bytes lent for blocks and for the reply; gives the number.
    pub fn agree(&mut self, name: &str, image: &[u8], blocks: usize, reply: usize) -> u32 {
        self.library.prepare(blocks, reply);
        self.reader.prepare(blocks, reply);
        let mine = audit_bytes(image, &mut self.reader.blocks, &mut self.reader.reply);
        let copy = image.to_vec();
        let number = library::audit(&copy, &mut self.library.blocks, &mut self.library.reply);
        assert!(copy == image, "{name}: the image changed");
        self.compare(&name, number, mine);
        self.meet(&name, Call::Audit, number, || plain::audit(image));
        number
    }

    /// Both audits of an image with room for all its blocks.
    pub fn audit(&mut self, name: &str, image: &[u8]) -> AuditReply {
        let blocks = BLOCK_BYTES * full_room(image);
        let number = self.agree(name, image, blocks, 8 * REPLY_WORDS);
        let first = self.library.word(0);
        AuditReply {
            number,
            met: if number == 0 { 0 } else { first },
            block_count: if number == 0 { first } else { 0 },
            objects: self.library.objects(),
            list: words(&self.library.blocks),
        }
    }

    /// Both lookups of a path in an image.
    pub fn lookups_agree(
        &mut self,
        name: &str,
        image: &[u8],
        path: &[u8],
        blocks: usize,
        reply: usize,
    ) -> u32 {
        let title = format_args!("{name}, lookup of \"{}\"", path.escape_ascii());
        let calls: [OfPath; 2] = [library::lookup, lookup_bytes];
        let number = self.both(&title, calls, image, path, (blocks, reply));
        let walk = || plain::lookup(image, path, false);
        self.meet(&title, Call::Lookup, number, walk);
        number
    }

    /// Both descriptions of a path in an image.
    pub fn descriptions_agree(
        &mut self,
        name: &str,
        image: &[u8],
        path: &[u8],
        blocks: usize,
        reply: usize,
    ) -> u32 {
        let title = format_args!("{name}, description of \"{}\"", path.escape_ascii());
        let calls: [OfPath; 2] = [library::describe, describe_bytes];
        let number = self.both(&title, calls, image, path, (blocks, reply));
        let walk = || plain::lookup(image, path, true);
        self.meet(&title, Call::Description, number, walk);
        number
    }

    fn both(
        &mut self,
        title: &dyn Display,
        [library, reader]: [OfPath; 2],
        image: &[u8],
        path: &[u8],
        (blocks, reply): (usize, usize),
    ) -> u32 {
        self.library.prepare(blocks, reply);
        self.reader.prepare(blocks, reply);
        let lent = &mut self.reader;
        let mine = reader(image, path, &mut lent.blocks, &mut lent.reply);
        let copy = (image.to_vec(), path.to_vec());
        let lent = &mut self.library;
        let number = library(&copy.0, &copy.1, &mut lent.blocks, &mut lent.reply);
        assert!(copy.0 == image, "{title}: the image changed");
        assert!(copy.1 == path, "{title}: the path changed");
        self.compare(title, number, mine);
        number
    }

    /// Both mends of an image, with so many bytes lent for blocks, log and reply.
    pub fn mends_agree(
        &mut self,
        name: &str,
        unmended: &[u8],
        (blocks, log, reply): (usize, usize, usize),
        limit: u64,
    ) -> u32 {
        for lent in [&mut self.library, &mut self.reader] {
            lent.prepare(blocks, reply);
            lent.prepare_image(unmended, log);
        }
        let Lent {
            blocks,
            reply,
            log,
            image,
        } = &mut self.reader;
        let mine = mend_bytes(image, blocks, log, reply, limit);
        let Lent {
            blocks,
            reply,
            log,
            image,
        } = &mut self.library;
        let number = library::mend(image, blocks, log, reply, limit);
        let bytes = log.len();
        let title = format_args!("{name}, mend, limit {limit}, {bytes} bytes for the log");
        self.compare(&title, number, mine);
        self.meet(&title, Call::Mend, number, || plain::audit(unmended));
        number
    }

    /// Both undos of so many entries of a log, with so many bytes lent for the reply.
    pub fn undos_agree(
        &mut self,
        name: &str,
        image: &[u8],
        log: &[u8],
        reply: usize,
        (entries, limit): (u64, u64),
    ) -> u32 {
        for lent in [&mut self.library, &mut self.reader] {
            lent.prepare(0, reply);
            lent.prepare_image(image, 0);
        }
        let Lent { reply, image, .. } = &mut self.reader;
        let mine = undo_bytes(image, log, reply, entries, limit);
        let copy = log.to_vec();
        let Lent { reply, image, .. } = &mut self.library;
        let number = library::undo(image, &copy, reply, entries, limit);
        let title = format_args!("{name}, undo, {entries} entries, limit {limit}");
        assert!(copy == log, "{title}: the log changed");
        self.compare(&title, number, mine);
        assert_ne!(number, MEET, "{title}");
        number
    }

    /// Both reports of an image, with so many bytes lent for blocks and for the reply.
    pub fn report(&mut self, name: &str, image: &[u8], blocks: usize, reply: usize) -> u32 {
        self.library.prepare(blocks, reply);
        self.reader.prepare(blocks, reply);
        let mine = report_bytes(image, &mut self.reader.blocks, &mut self.reader.reply);
        let copy = image.to_vec();
        let lent = &mut self.library;
        let number = library::report(&copy, &mut lent.blocks, &mut lent.reply);
        let title = format_args!("{name}, report");
        assert!(copy == image, "{title}: the image changed");
        self.compare(&title, number, mine);
        number
    }

    /// What the library's last call left.
    pub fn left(&self) -> &Lent {
        &self.library
    }

    /// The 6s that a call has given so far.
    pub fn meetings(&self, call: Call) -> &Meetings {
        &self.meetings[call as usize]
    }

    /// After 6 the block met is the one that the plain walk meets first.
    fn meet<T>(
        &mut self,
        title: &dyn Display,
        call: Call,
        number: u32,
        walk: impl FnOnce() -> Result<T, Meeting>,
    ) {
        if number == MEET {
            let met = self.library.word(0);
            self.meetings[call as usize].check(title, (number, met), walk);
        }
    }

    /// The same number and the same bytes.
    fn compare(&self, title: &dyn Display, number: u32, mine: u32) {
        let lent = (self.library.blocks.len(), self.library.reply.len());
        let bytes = format_args!("{} bytes for blocks, {} for the reply", lent.0, lent.1);
        assert_eq!(number, mine, "{title}, {bytes}");
        if self.library != self.reader {
            self.show();
            panic!("{title}, {bytes}: other bytes in library and reader");
        }
    }

    /// The first word that differs in each slice.
    fn show(&self) {
        let slices = [
            ("list", &self.library.blocks, &self.reader.blocks),
            ("reply", &self.library.reply, &self.reader.reply),
            ("log", &self.library.log, &self.reader.log),
            ("image", &self.library.image, &self.reader.image),
        ];
        for (slice, library, reader) in slices {
            if let Some(at) = (0..library.len()).find(|at| library[*at] != reader[*at]) {
                let from = at / 8 * 8;
                let until = (from + 8).min(library.len());
                eprintln!(
                    "{slice}, word {}: {:02x?} and {:02x?}",
                    at / 8,
                    &library[from..until],
                    &reader[from..until]
                );
            }
        }
    }
}

/// One turn in so many has room for the most blocks.
const TURNS: usize = 16;

/// The small rooms and one for all blocks of an image, now and then for the most, with 0 to 31 bytes more.
pub fn lent_bytes(image: &[u8], turn: usize) -> impl Iterator<Item = usize> {
    let all = if turn.is_multiple_of(TURNS) {
        MOST_BLOCKS
    } else {
        full_room(image)
    };
    SMALL_ROOMS
        .chain([all])
        .map(move |room| BLOCK_BYTES * room + (turn + room) % BLOCK_BYTES)
}

/// The number of a room among those of `lent_bytes`: the small ones have their own, and all others are the last.
pub fn room_number(blocks: usize) -> usize {
    (blocks / BLOCK_BYTES).min(SMALL_ROOMS.end() + 1)
}
