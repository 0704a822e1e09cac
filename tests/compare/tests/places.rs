//! Where a walk of the separate reader stops: the place of a fault, or the block that can't be entered. A reply says only which
//! block is met with 6.

use compare::generate::small::{self, C_COMMITTED};
use compare::reader::{audit_stop, lookup_stop, Part, Stop, BLOCK_WORDS, MOST_BLOCKS};

/// The words of a list for every block that a walk may enter.
const FULL: usize = BLOCK_WORDS * MOST_BLOCKS;

/// The answer and the place.
fn fault(stop: Option<Stop>) -> Option<(u32, u64)> {
    match stop {
        Some(Stop::Fault(refusal, site)) => Some((refusal.number(), site.place)),
        _ => None,
    }
}

/// Places of bytes, and what they become.
type Changes = &'static [(usize, u8)];

/// H with bytes changed: each kind of place.
#[test]
fn faults_in_h() {
    let rows: [(Changes, (u32, u64)); 29] = [
        (&[(0, 0)], (2, 0)),
        (&[(13, 4)], (3, 0)),
        (&[(16, 0)], (4, 0)),
        (&[(96, 2)], (3, 96)),
        (&[(112, 2)], (3, 112)),
        (&[(680, 0)], (7, 680)),
        (&[(688, 7)], (9, 680)),
        (&[(696, 87)], (9, 712)),
        (&[(136, 0)], (7, 136)),
        (&[(140, 1)], (8, 136)),
        (&[(160, 88)], (9, 160)),
        (&[(176, 88)], (9, 176)),
        (&[(800, 0)], (7, 800)),
        (&[(806, 9)], (8, 800)),
        (&[(808, 255)], (9, 808)),
        (&[(848, 8)], (8, 848)),
        (&[(864, 3)], (8, 848)),
        (&[(864, 2), (872, 30)], (9, 848)),
        (&[(1128, 2)], (3, 1128)),
        (&[(1130, 4)], (10, 1128)),
        (&[(1144, 0)], (10, 1128)),
        (&[(1168, 2)], (3, 1168)),
        (&[(1170, 12)], (10, 1168)),
        (&[(1152, 0)], (3, 1144)),
        (&[(1153, 33)], (11, 1144)),
        (&[(1180, 0)], (11, 1168)),
        (&[(1200, 2)], (3, 1192)),
        (&[(1160, 5)], (11, 1192)),
        // The layout message becomes an attribute whose parts leave its body.
        (&[(1192, 12)], (10, 1192)),
    ];
    for (changes, expected) in rows {
        let mut image = small::h().bytes;
        for &(at, byte) in changes {
            image[at] = byte;
        }
        let stop = audit_stop(&image, FULL);
        assert_eq!(fault(stop), Some(expected), "{changes:?}: {stop:?}");
    }
    assert_eq!(
        fault(audit_stop(&small::h().bytes[..95], FULL)),
        Some((1, 0))
    );
}

/// 5, 6 and 13, with the block that can't be entered and the first one that it meets.
#[test]
fn blocks_in_h() {
    let block = |changes: &[(usize, u8)], words: usize| {
        let mut image = small::h().bytes;
        for &(at, byte) in changes {
            image[at] = byte;
        }
        match audit_stop(&image, words) {
            Some(Stop::NotEntered {
                refusal,
                part,
                address,
                length,
                met,
                ..
            }) => (refusal.number(), part, address, length, met),
            stop => panic!("{stop:?}"),
        }
    };
    assert_eq!(block(&[(64, 0)], FULL), (6, Part::Header, 0, 16, 0));
    let segment = (6, Part::Segment, 130, 88, 96);
    assert_eq!(block(&[(704, 130), (705, 0)], FULL), segment);
    assert_eq!(block(&[(141, 1)], FULL), (5, Part::Tree, 800, 544, 0));
    assert_eq!(block(&[(857, 5)], FULL), (5, Part::Header, 1384, 16, 0));
    assert_eq!(block(&[(1136, 88)], FULL), (5, Part::Header, 1128, 104, 0));
    assert_eq!(block(&[(1203, 5)], FULL), (5, Part::Data, 1480, 4, 0));
    assert_eq!(block(&[(1203, 3)], FULL), (6, Part::Data, 968, 4, 800));
    let data = (6, Part::Data, 799, 4, 712);
    assert_eq!(block(&[(1202, 31), (1203, 3)], FULL), data);
    assert_eq!(block(&[], 31), (13, Part::Data, 1224, 4, 0));
}

#[test]
fn paths_have_no_place() {
    let image = small::h().bytes;
    for (path, number) in [(b"a".as_slice(), 14), (b"/c", 15), (b"/a/b", 17)] {
        assert_eq!(fault(lookup_stop(&image, path, FULL)), Some((number, 0)));
    }
}

/// A committed datatype with the shared flag on its own message is a fault of its header, in a lookup too.
#[test]
fn own_flag_in_c() {
    let image = small::c_with_own_flag().bytes;
    let expected = Some((10, C_COMMITTED));
    assert_eq!(fault(audit_stop(&image, FULL)), expected);
    assert_eq!(fault(lookup_stop(&image, b"/t", FULL)), expected);
    assert_eq!(fault(lookup_stop(&image, b"/t/x", FULL)), expected);
}
