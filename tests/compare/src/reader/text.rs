//! Strings of a heap. Most differ in their first sixteen bytes, so that these are compared as two numbers. What is called for
//! every name is always inlined, since a name then stays in registers.

/// A string without NUL. Its order is the bytewise one.
#[derive(Clone, Copy, PartialEq, Eq, PartialOrd, Ord)]
pub struct Text<'a> {
    /// The first eight bytes and the next eight, the first of them highest. Behind the end there are zeros, which are below
    /// every byte.
    head: u64,
    next: u64,
    bytes: &'a [u8],
}

impl<'a> Text<'a> {
    pub const EMPTY: Text<'static> = Text {
        head: 0,
        next: 0,
        bytes: &[],
    };

    /// The bytes before the first NUL; all if there is none.
    #[inline(always)]
    pub fn new(bytes: &'a [u8]) -> Text<'a> {
        let (head, nul) = ended(bytes);
        if let Some(length) = nul {
            let bytes = &bytes[..length];
            return Text {
                head,
                next: 0,
                bytes,
            };
        }
        Text::long(head, bytes)
    }

    /// One of eight bytes or more.
    fn long(head: u64, bytes: &'a [u8]) -> Text<'a> {
        let (next, nul) = ended(&bytes[8..]);
        let length = match nul {
            Some(length) => 8 + length,
            None => position(bytes, 16, 0),
        };
        let bytes = &bytes[..length];
        Text { head, next, bytes }
    }

    pub fn length(&self) -> usize {
        self.bytes.len()
    }

    pub fn is_dot(&self) -> bool {
        self.head == u64::from(b'.') << 56
    }

    #[inline(always)]
    pub fn has_slash(&self) -> bool {
        let heads = equal(self.head, b'/') | equal(self.next, b'/');
        let length = self.length();
        heads != 0 || length > 16 && position(self.bytes, 16, b'/') < length
    }
}

/// The first eight bytes up to a NUL, the first of them highest, and the place of the NUL.
fn ended(bytes: &[u8]) -> (u64, Option<usize>) {
    let eight = eight_at(bytes, 0);
    let nul = equal(eight, 0);
    // What lies below the bit of the first NUL.
    let before = eight & !nul & nul.wrapping_sub(1);
    (before.swap_bytes(), (nul != 0).then(|| place(nul)))
}

/// Eight bytes, the first one lowest, with zeros for those behind the end.
fn eight_at(bytes: &[u8], at: usize) -> u64 {
    let rest = &bytes[at..];
    match rest.first_chunk() {
        Some(eight) => u64::from_le_bytes(*eight),
        None => {
            let mut eight = [0; 8];
            eight[..rest.len()].copy_from_slice(rest);
            u64::from_le_bytes(eight)
        }
    }
}

/// The highest bit of each of eight bytes that has this value. Above the first of them there may be others.
fn equal(eight: u64, wanted: u8) -> u64 {
    const ONES: u64 = u64::from_ne_bytes([1; 8]);
    let differing = eight ^ (ONES * u64::from(wanted));
    differing.wrapping_sub(ONES) & !differing & (ONES << 7)
}

/// Which of eight bytes has the lowest of such bits.
fn place(bits: u64) -> usize {
    bits.trailing_zeros() as usize / 8
}

/// The place of the first byte of that value from `from` on, or the length: behind that a NUL is read, and no other byte.
fn position(bytes: &[u8], from: usize, wanted: u8) -> usize {
    let mut at = from;
    // Many at once: the compiler compares them without a loop.
    while let Some(part) = bytes[at..].first_chunk::<32>() {
        if part.iter().fold(false, |any, byte| any | (*byte == wanted)) {
            break;
        }
        at += 32;
    }
    while at < bytes.len() {
        let bits = equal(eight_at(bytes, at), wanted);
        if bits != 0 {
            return at + place(bits);
        }
        at += 8;
    }
    bytes.len()
}
