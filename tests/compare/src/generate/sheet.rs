//! Bytes under construction, with the places of their fields.

#[derive(Clone, Copy, PartialEq, Eq, Debug)]
pub struct Field {
    pub name: &'static str,
    pub at: usize,
    pub width: usize,
}

#[derive(Clone, Default, Debug)]
pub struct Sheet {
    pub bytes: Vec<u8>,
    pub fields: Vec<Field>,
}

impl Sheet {
    /// `length` more zero bytes; gives their place.
    pub fn reserve(&mut self, length: u64) -> u64 {
        let at = self.bytes.len();
        self.bytes.resize(at + length as usize, 0);
        at as u64
    }

    /// Writes a field of at most 8 bytes, adding zero bytes up to its end if there are fewer.
    pub fn number(&mut self, name: &'static str, at: u64, width: usize, value: u64) {
        self.text(name, at, &value.to_le_bytes()[..width]);
    }

    /// Writes a field of bytes.
    pub fn text(&mut self, name: &'static str, at: u64, text: &[u8]) {
        self.raw(at, text);
        self.fields.push(Field {
            name,
            at: at as usize,
            width: text.len().min(8),
        });
    }

    /// Writes bytes that are no field.
    pub fn raw(&mut self, at: u64, text: &[u8]) {
        let at = at as usize;
        let end = at + text.len();
        if self.bytes.len() < end {
            self.bytes.resize(end, 0);
        }
        self.bytes[at..end].copy_from_slice(text);
    }

    /// Zero bytes up to a length that is a multiple of 8.
    pub fn pad(&mut self) {
        let length = self.bytes.len().next_multiple_of(8);
        self.bytes.resize(length, 0);
    }

    /// Copies another sheet and its fields to `at`.
    pub fn paste(&mut self, at: u64, other: &Sheet) {
        self.raw(at, &other.bytes);
        let moved = other.fields.iter().map(|field| Field {
            at: field.at + at as usize,
            ..*field
        });
        self.fields.extend(moved);
    }

    /// The `nth` field of that name.
    pub fn field(&self, name: &str, nth: usize) -> Field {
        let mut named = self.fields.iter().filter(|field| field.name == name);
        *named.nth(nth).expect("a field of that name")
    }

    pub fn value(&self, field: Field) -> u64 {
        value(&self.bytes, field)
    }

    /// The strings of all heaps: names, link values and keys.
    pub fn strings(&self) -> Vec<&[u8]> {
        self.fields
            .iter()
            .filter(|field| field.name == "heap string")
            .map(|field| &self.bytes[field.at..])
            .map(|rest| rest.split(|byte| *byte == 0).next().unwrap_or(rest))
            .collect()
    }

    /// The same sheet with the `nth` field of that name changed.
    pub fn with(&self, name: &str, nth: usize, value: u64) -> Sheet {
        let mut changed = self.clone();
        set(&mut changed.bytes, self.field(name, nth), value);
        changed
    }
}

pub fn value(bytes: &[u8], field: Field) -> u64 {
    let mut eight = [0; 8];
    eight[..field.width].copy_from_slice(&bytes[field.at..field.at + field.width]);
    u64::from_le_bytes(eight)
}

pub fn set(bytes: &mut [u8], field: Field, value: u64) {
    bytes[field.at..field.at + field.width].copy_from_slice(&value.to_le_bytes()[..field.width]);
}
