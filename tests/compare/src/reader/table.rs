//! The objects found: "kept in a table" of as many places as there may be objects, "that starts empty".

use super::limits::MOST_OBJECTS;
use super::refusal::{ask, Read, Refusal};

#[derive(Clone, Copy, PartialEq, Eq, Debug)]
pub struct Object {
    pub address: u64,
    pub stored: u32,
    pub true_count: u32,
}

/// What is known of an object besides.
#[derive(Clone, Copy, Default)]
struct Known {
    /// A dataset or an attribute shares it as its datatype.
    shared: bool,
    /// Its header was read whole, and it is no committed datatype.
    other_kind: bool,
}

impl Known {
    /// "If that object isn't a committed datatype, answer 10 once both are known".
    fn judge(&self) -> Read<()> {
        ask(!(self.shared && self.other_kind), Refusal::BadHeader)
    }
}

/// Twice the places, so that a search ends soon.
const SLOTS: usize = 2 * MOST_OBJECTS;

pub struct Table {
    objects: Vec<Object>,
    /// In the order of objects.
    known: Vec<Known>,
    /// An object's number plus one, at the first slot free from its address's own; 0 where none is.
    slots: [u16; SLOTS],
}

impl Table {
    /// "the superblock's root entry counts as one for the root"
    pub fn with_root(root: u64) -> Table {
        let mut table = Table {
            objects: Vec::with_capacity(16),
            known: Vec::with_capacity(16),
            slots: [0; SLOTS],
        };
        let slot = own_slot(root);
        table.add(root, slot);
        table
    }

    fn add(&mut self, address: u64, slot: usize) {
        self.objects.push(Object {
            address,
            stored: 0,
            true_count: 1,
        });
        self.known.push(Known::default());
        self.slots[slot] = self.objects.len() as u16;
    }

    /// "A hard link to a new address adds an object."
    #[inline]
    pub fn link(&mut self, address: u64) -> Read<()> {
        let mut slot = own_slot(address);
        while self.slots[slot] != 0 {
            let object = &mut self.objects[usize::from(self.slots[slot]) - 1];
            if object.address == address {
                object.true_count += 1;
                return Ok(());
            }
            slot = (slot + 1) % SLOTS;
        }
        ask(self.objects.len() < MOST_OBJECTS, Refusal::TooManyObjects)?;
        self.add(address, slot);
        Ok(())
    }

    /// A datatype message or an attribute that shares the object at an address counts as a hard link does.
    pub fn share(&mut self, address: u64) -> Read<()> {
        self.link(address)?;
        let number = self.number(address);
        self.known[number].shared = true;
        self.known[number].judge()
    }

    /// The number of the object at an address that was found before.
    fn number(&self, address: u64) -> usize {
        let mut slot = own_slot(address);
        loop {
            let number = usize::from(self.slots[slot]) - 1;
            if self.objects[number].address == address {
                return number;
            }
            slot = (slot + 1) % SLOTS;
        }
    }

    /// Told once the object's header was read whole.
    pub fn learn_kind(&mut self, number: usize, committed: bool) -> Read<()> {
        self.known[number].other_kind = !committed;
        self.known[number].judge()
    }

    pub fn address(&self, number: usize) -> Option<u64> {
        self.objects.get(number).map(|object| object.address)
    }

    pub fn store(&mut self, number: usize, stored: u32) {
        self.objects[number].stored = stored;
    }

    pub fn into_objects(self) -> Vec<Object> {
        self.objects
    }
}

/// The top bits of a product spread addresses well.
fn own_slot(address: u64) -> usize {
    (address.wrapping_mul(0x9e37_79b9_7f4a_7c15) >> (u64::BITS - SLOTS.ilog2())) as usize
}
