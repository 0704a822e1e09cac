//! Attribute messages of versions 1 to 3.

use super::header::Message;
use super::sheet::Sheet;

#[derive(Clone, Debug)]
pub struct Attribute {
    pub version: u8,
    /// Its bytes with the NUL, if it has one.
    pub name: Vec<u8>,
    pub datatype: Datatype,
    pub space: Vec<u8>,
    pub data: Vec<u8>,
    /// The byte that is reserved in version 1, or the name's character set in version 3.
    pub ignored: u8,
}

#[derive(Clone, Debug)]
pub enum Datatype {
    Own(Vec<u8>),
    /// Version and type of the shared part, how many bytes it takes, and the number of the object.
    Shared {
        version: u8,
        kind: u8,
        size: usize,
        object: usize,
    },
}

impl Datatype {
    /// The shared part that the HDF5 library writes.
    pub fn shared(object: usize) -> Datatype {
        Datatype::Shared {
            version: 2,
            kind: 2,
            size: 10,
            object,
        }
    }

    fn size(&self) -> usize {
        match self {
            Datatype::Own(bytes) => bytes.len(),
            Datatype::Shared { size, .. } => *size,
        }
    }

    /// The address is written with the header.
    fn body(&self) -> Sheet {
        let mut body = Sheet::default();
        match self {
            Datatype::Own(bytes) => body.raw(0, bytes),
            Datatype::Shared {
                version,
                kind,
                size,
                ..
            } => {
                body.reserve(*size as u64);
                body.number("attribute shared version", 0, 1, u64::from(*version));
                body.number("attribute shared type", 1, 1, u64::from(*kind));
                body.number(SHARED_ADDRESS, 2, 8, 0);
            }
        }
        body
    }
}

/// The field that takes the place of the object shared.
pub const SHARED_ADDRESS: &str = "attribute shared address";

impl Attribute {
    /// An attribute of one element, an integer of 4 bytes.
    pub fn own(version: u8) -> Attribute {
        let integer = [0x10, 8, 0, 0, 4, 0, 0, 0, 0, 0, 32, 0];
        Attribute {
            version,
            name: b"a\0".to_vec(),
            datatype: Datatype::Own(integer.to_vec()),
            space: vec![1, 0, 0, 0, 0, 0, 0, 0],
            data: vec![0; 4],
            ignored: 0,
        }
    }

    /// An attribute of one element without data, whose datatype is the object of that number.
    pub fn shared(version: u8, object: usize) -> Attribute {
        Attribute {
            datatype: Datatype::shared(object),
            data: Vec::new(),
            ..Attribute::own(version)
        }
    }

    pub fn message(&self) -> Message {
        let mut body = self.head();
        self.add(&mut body, &text("attribute name", &self.name));
        self.add(&mut body, &self.datatype.body());
        self.add(&mut body, &text("attribute dataspace", &self.space));
        let at = body.reserve(0);
        body.raw(at, &self.data);
        body.pad();
        let shares = match self.datatype {
            Datatype::Own(_) => None,
            Datatype::Shared { object, .. } => Some(object),
        };
        Message {
            kind: 0x0c,
            flags: 0,
            body,
            shares,
        }
    }

    fn head(&self) -> Sheet {
        let mut body = Sheet::default();
        body.number("attribute version", 0, 1, u64::from(self.version));
        if self.version == 1 {
            body.number("attribute reserved", 1, 1, u64::from(self.ignored));
        } else {
            let shared = matches!(self.datatype, Datatype::Shared { .. });
            body.number("attribute flags", 1, 1, u64::from(shared));
        }
        body.number("attribute name size", 2, 2, self.name.len() as u64);
        body.number("attribute datatype size", 4, 2, self.datatype.size() as u64);
        body.number("attribute dataspace size", 6, 2, self.space.len() as u64);
        if self.version == 3 {
            let set = u64::from(self.ignored);
            body.number("attribute character set", 8, 1, set);
        }
        body
    }

    /// In version 1 each part is padded.
    fn add(&self, body: &mut Sheet, part: &Sheet) {
        let at = body.reserve(0);
        body.paste(at, part);
        if self.version == 1 {
            body.pad();
        }
    }
}

fn text(name: &'static str, bytes: &[u8]) -> Sheet {
    let mut sheet = Sheet::default();
    sheet.text(name, 0, bytes);
    sheet
}
