//! The messages of a dataset.

use super::header::Message;
use super::sheet::Sheet;

#[derive(Clone, Debug)]
pub struct Dataset {
    pub sizes: Vec<u64>,
    pub maxima: Option<Vec<u64>>,
    pub datatype: Datatype,
    pub layout: Layout,
}

#[derive(Clone, Debug)]
pub enum Datatype {
    Own {
        class: u8,
        version: u8,
        bits: u32,
        size: u32,
        offset: u16,
        precision: u16,
    },
    /// Shared with the object of that number.
    Shared { version: u8, object: usize },
}

#[derive(Clone, Debug)]
pub enum Layout {
    Compact(Vec<u8>),
    /// Contiguous data of that many bytes in the file.
    Stored(u64),
    /// Contiguous at that address, where nothing is written.
    At(u64, u64),
}

impl Dataset {
    /// `data` is the place of stored data, `shared` that of the object which the datatype is shared with.
    pub fn messages(&self, data: u64, shared: u64) -> Vec<Message> {
        let shared_flag = match self.datatype {
            Datatype::Own { .. } => 1,
            Datatype::Shared { .. } => 3,
        };
        vec![
            message(1, 0, self.space()),
            message(3, shared_flag, self.datatype.body(shared)),
            message(8, 0, self.layout.body(data)),
        ]
    }

    fn space(&self) -> Sheet {
        let mut body = Sheet::default();
        body.number("dataspace version", 0, 1, 1);
        body.number("dataspace rank", 1, 1, self.sizes.len() as u64);
        body.number("dataspace flags", 2, 1, u64::from(self.maxima.is_some()));
        body.number("dataspace reserved", 3, 5, 0);
        let mut at = 8;
        for size in &self.sizes {
            body.number("dataspace size", at, 8, *size);
            at += 8;
        }
        for maximum in self.maxima.iter().flatten() {
            body.number("dataspace maximum", at, 8, *maximum);
            at += 8;
        }
        body
    }
}

fn message(kind: u16, flags: u8, mut body: Sheet) -> Message {
    body.pad();
    Message::new(kind, flags, body)
}

impl Datatype {
    /// An integer of `size` bytes that uses all its bits.
    pub fn integer(size: u32) -> Datatype {
        Datatype::Own {
            class: 0,
            version: 1,
            bits: 8,
            size,
            offset: 0,
            precision: (8 * size) as u16,
        }
    }

    /// The object that it is shared with.
    pub fn object(&self) -> Option<usize> {
        match self {
            Datatype::Own { .. } => None,
            Datatype::Shared { object, .. } => Some(*object),
        }
    }

    pub fn size(&self) -> u64 {
        match self {
            Datatype::Own { size, .. } => u64::from(*size),
            Datatype::Shared { .. } => 1,
        }
    }

    fn body(&self, address: u64) -> Sheet {
        let mut body = Sheet::default();
        match *self {
            Datatype::Own {
                class,
                version,
                bits,
                size,
                offset,
                precision,
            } => {
                body.number("datatype class", 0, 1, u64::from(version << 4 | class));
                body.number("datatype bits", 1, 3, u64::from(bits));
                body.number("datatype size", 4, 4, u64::from(size));
                if matches!(class, 0 | 1 | 4) {
                    body.number("datatype offset", 8, 2, u64::from(offset));
                    body.number("datatype precision", 10, 2, u64::from(precision));
                }
                if class == 1 {
                    body.number("datatype exponent and mantissa", 12, 4, 0x1700_0817);
                    body.number("datatype bias", 16, 4, 127);
                }
                if class == 5 {
                    body.text("datatype tag", 8, b"tag\0");
                }
            }
            Datatype::Shared { version, .. } => {
                let kind = if version == 3 { 2 } else { 0 };
                body.number("shared version", 0, 1, u64::from(version));
                body.number("shared type", 1, 1, kind);
                body.number("shared address", 2, 8, address);
            }
        }
        body
    }
}

impl Layout {
    /// How many bytes of the file it needs.
    pub fn stored(&self) -> u64 {
        match self {
            Layout::Stored(size) => *size,
            _ => 0,
        }
    }

    fn body(&self, data: u64) -> Sheet {
        let mut body = Sheet::default();
        body.number("layout version", 0, 1, 3);
        match self {
            Layout::Compact(bytes) => {
                body.number("layout class", 1, 1, 0);
                body.number("layout compact size", 2, 2, bytes.len() as u64);
                body.raw(4, bytes);
            }
            Layout::Stored(size) => contiguous(&mut body, data, *size),
            Layout::At(address, size) => contiguous(&mut body, *address, *size),
        }
        body
    }
}

fn contiguous(body: &mut Sheet, address: u64, size: u64) {
    body.number("layout class", 1, 1, 1);
    body.number("layout address", 2, 8, address);
    body.number("layout size", 10, 8, size);
}
