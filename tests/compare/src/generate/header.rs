//! Object headers: messages in a first block and in continuations.

use super::attribute::SHARED_ADDRESS;
use super::sheet::Sheet;

#[derive(Clone, Debug)]
pub struct Message {
    pub kind: u16,
    pub flags: u8,
    pub body: Sheet,
    /// The number of the object that an attribute shares.
    pub shares: Option<usize>,
}

impl Message {
    pub fn new(kind: u16, flags: u8, body: Sheet) -> Message {
        Message {
            kind,
            flags,
            body,
            shares: None,
        }
    }

    /// A message of these bytes, padded.
    pub fn step(kind: u16, flags: u8, bytes: &[u8]) -> Message {
        let mut body = Sheet::default();
        body.raw(0, bytes);
        body.pad();
        Message::new(kind, flags, body)
    }

    pub fn symbol_table(tree: u64, heap: u64) -> Message {
        let mut body = Sheet::default();
        body.number("table tree", 0, 8, tree);
        body.number("table heap", 8, 8, heap);
        Message::new(0x11, 0, body)
    }

    /// In a block that isn't written yet, `address` is the number of the block that follows.
    pub fn continuation(address: u64, length: u64) -> Message {
        let mut body = Sheet::default();
        body.number("continuation address", 0, 8, address);
        body.number("continuation length", 8, 8, length);
        Message::new(0x10, 0, body)
    }

    /// The number of the block that a continuation names before it is written.
    fn child(&self) -> Option<usize> {
        (self.kind == 0x10).then(|| self.body.value(self.body.fields[0]) as usize)
    }

    /// The same message with the place of the object that it shares.
    pub fn placed(&self, places: &[u64]) -> Message {
        let mut message = self.clone();
        if let Some(object) = self.shares {
            let place = places.get(object).copied().unwrap_or(0);
            message.body = message.body.with(SHARED_ADDRESS, 0, place);
        }
        message
    }

    fn length(&self) -> u64 {
        8 + self.body.bytes.len() as u64
    }

    fn write(&self, sheet: &mut Sheet, at: u64) {
        sheet.number("message type", at, 2, u64::from(self.kind));
        sheet.number("message size", at + 2, 2, self.length() - 8);
        sheet.number("message flags", at + 4, 1, u64::from(self.flags));
        sheet.number("message reserved", at + 5, 3, 0);
        sheet.paste(at + 8, &self.body);
    }
}

/// The messages of a header by block: `parents` names, for every block after the first, an earlier one that holds its
/// continuation message. Messages are dealt out in turn.
pub fn deal(messages: Vec<Message>, parents: &[usize]) -> Vec<Vec<Message>> {
    let mut blocks: Vec<Vec<Message>> = vec![Vec::new(); parents.len() + 1];
    let count = blocks.len();
    for (number, message) in messages.into_iter().enumerate() {
        blocks[number % count].push(message);
    }
    for (child, &parent) in parents.iter().enumerate() {
        let turn = (child * 7 + 3) % (blocks[parent].len() + 1);
        blocks[parent].insert(turn, Message::continuation(child as u64 + 1, 0));
    }
    for block in &mut blocks {
        if block.is_empty() {
            block.push(Message::step(0, 0, &[]));
        }
    }
    blocks
}

/// The messages in the order in which they are read: a block, then those that its continuations name, as a queue.
pub fn in_order(blocks: &[Vec<Message>]) -> Vec<&Message> {
    let mut order = Vec::new();
    let mut queue = vec![0];
    let mut turn = 0;
    while turn < queue.len() {
        let block = &blocks[queue[turn]];
        order.extend(block);
        queue.extend(block.iter().filter_map(Message::child));
        turn += 1;
    }
    order
}

pub fn length(block: &[Message]) -> u64 {
    block.iter().map(Message::length).sum()
}

/// Writes a header whose blocks lie at `places`; the first is that of the header itself.
pub fn write(sheet: &mut Sheet, places: &[u64], stored: u32, blocks: &[Vec<Message>]) {
    let total: usize = blocks.iter().map(Vec::len).sum();
    let at = places[0];
    sheet.number("header version", at, 1, 1);
    sheet.number("header reserved", at + 1, 1, 0);
    sheet.number("header messages", at + 2, 2, total as u64);
    sheet.number("header count", at + 4, 4, u64::from(stored));
    sheet.number("header size", at + 8, 4, length(&blocks[0]));
    sheet.number("header padding", at + 12, 4, 0);
    for (number, block) in blocks.iter().enumerate() {
        let mut at = places[number] + if number == 0 { 16 } else { 0 };
        for message in block {
            if let Some(child) = message.child() {
                let target = Message::continuation(places[child], length(&blocks[child]));
                target.write(sheet, at);
            } else {
                message.write(sheet, at);
            }
            at += message.length();
        }
    }
}
