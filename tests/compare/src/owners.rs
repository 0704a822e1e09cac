//! What holds of the block list of every image that an audit accepts: whose block each is.

use crate::reader::{object_alone, AuditReply, Block, Part, SUPERBLOCK_OWNER};

/// Address, length and kind of a block.
type Three = [u64; 3];

/// The blocks of an object in an audit's list, in order.
fn owned(reply: &AuditReply, owner: u64) -> Vec<Three> {
    let fours = reply.list.chunks_exact(4).take(reply.block_count as usize);
    fours
        .filter(|four| four[3] == owner)
        .map(|four| [four[0], four[1], four[2]])
        .collect()
}

/// An object's blocks are exactly, and in order, those that a walk of it alone enters; the superblock has no object; nothing
/// else is in the list. Headers stand at the objects' addresses, in order. No byte has two owners.
pub fn check_owners(name: &str, image: &[u8], reply: &AuditReply) {
    let entered = 4 * reply.block_count as usize;
    let fours: Vec<&[u64]> = reply.list[..entered].chunks_exact(4).collect();
    assert!(
        reply.list[entered..].iter().all(|word| *word == 0),
        "{name}"
    );
    let superblock = [0, 96 + 4 * u64::from(image[8]), Part::Superblock as u64];
    assert_eq!(owned(reply, SUPERBLOCK_OWNER), [superblock], "{name}");
    let mut count = 1;
    for (number, object) in reply.objects.iter().enumerate() {
        let alone = object_alone(image, object.address).expect("a sound object");
        let three = |block: &Block| [block.address, block.length, block.part as u64];
        let alone: Vec<Three> = alone.iter().map(three).collect();
        assert_eq!(owned(reply, number as u64), alone, "{name}, {number}");
        count += alone.len();
    }
    assert_eq!(count, fours.len(), "{name}");
    let headers = fours.iter().filter(|four| four[2] == Part::Header as u64);
    let objects = reply.objects.iter().map(|object| object.address).zip(0..);
    assert!(headers.map(|four| (four[0], four[3])).eq(objects), "{name}");
    let mut owned = vec![false; image.len()];
    for four in fours {
        let bytes = &mut owned[four[0] as usize..][..four[1] as usize];
        assert!(bytes.iter().all(|owned| !owned), "{name}: {four:?}");
        bytes.fill(true);
    }
}

/// The list that a description leaves is the superblock, and with owner 0 what an audit's list has of the dataset at that
/// address.
pub fn check_described(name: &str, list: &[u64], reply: &AuditReply, address: u64) {
    let mut objects = reply.objects.iter();
    let number = objects.position(|object| object.address == address);
    let number = number.expect("an object of the audit") as u64;
    let mut expected = reply.list[..4].to_vec();
    for [address, length, kind] in owned(reply, number) {
        expected.extend([address, length, kind, 0]);
    }
    expected.resize(list.len(), 0);
    assert_eq!(list, expected, "{name}, description of {address}");
}
