//! Files of other formats that laboratories keep beside HDF5 files. No call takes one for an HDF5 file: each answers 2, or 1
//! where there are under 96 bytes, with zeros, and leaves the file as it was. The separate reader answers the same.

use compare::library;
use compare::reader::front::{self, BLOCK_BYTES, REPLY_WORDS};
use compare::reader::{MOST_BLOCKS, MOST_OBJECTS};

const IMAGE_LENGTH: u32 = 1;
const NO_SIGNATURE: u32 = 2;

/// An AFF file of version 1 or 2: header, one double, two names, one node. In all sums of MD5 there are zeros: no reader here
/// looks at them.
fn aff(version: u8) -> Vec<u8> {
    let section = if version == 1 { 32 } else { 40 };
    let header = 32 + 3 * section + 16;
    let data = 1.5f64.to_be_bytes().to_vec();
    let symbols = b"pion\0mass\0".to_vec();
    // The type of a double, its parent the root, its name the first one, one element, and where its data stands.
    let mut tree = vec![4];
    tree.extend(0u64.to_be_bytes());
    tree.extend(0u32.to_be_bytes());
    tree.extend(1u32.to_be_bytes());
    tree.extend((header as u64).to_be_bytes());

    let mut file = format!("LHPC AFF version {version}.0\0").into_bytes();
    // Bits and radix of a double, bits of its mantissa, its highest and its lowest exponent, the size of the header.
    file.extend([64, 2, 53]);
    file.extend(1024u16.to_be_bytes());
    file.extend(1021u16.to_be_bytes());
    file.extend((header as u32).to_be_bytes());
    let symbols_at = header + data.len();
    let tree_at = symbols_at + symbols.len();
    for (at, size, records) in [
        (symbols_at, symbols.len(), 2u64),
        (tree_at, tree.len(), 1),
        (header, data.len(), 1),
    ] {
        file.extend((at as u64).to_be_bytes());
        file.extend((size as u64).to_be_bytes());
        if version == 2 {
            file.extend(records.to_be_bytes());
        }
        file.extend([0; 16]);
    }
    file.extend([0; 16]);
    assert_eq!(file.len(), header);
    file.extend(data);
    file.extend(symbols);
    file.extend(tree);
    file
}

/// A LIME file as QIO begins one: the private and the user's metadata of the file.
fn lime() -> Vec<u8> {
    let mut file = Vec::new();
    for (flags, name, body) in [
        (
            0x8000u16,
            "scidac-private-file-xml",
            "<?xml version=\"1.0\"?>",
        ),
        (0x4000, "scidac-file-xml", "<title>a small lattice</title>"),
    ] {
        file.extend(0x4567_89abu32.to_be_bytes());
        file.extend(1u16.to_be_bytes());
        file.extend(flags.to_be_bytes());
        file.extend((body.len() as u64).to_be_bytes());
        let mut kind = name.as_bytes().to_vec();
        kind.resize(128, 0);
        file.extend(kind);
        file.extend(body.as_bytes());
        file.resize(file.len().div_ceil(8) * 8, 0);
    }
    file
}

/// A netCDF classic file with one dimension of twenty elements and one variable of bytes over it.
fn netcdf_classic() -> Vec<u8> {
    let word = |n: u32| n.to_be_bytes();
    let mut file = b"CDF\x01".to_vec();
    file.extend(word(0));
    // One dimension: its name and its length.
    for n in [10, 1, 1] {
        file.extend(word(n));
    }
    file.extend(b"x\0\0\0");
    file.extend(word(20));
    // No attributes of the file.
    file.extend([0; 8]);
    // One variable: name, dimensions, no attributes, type, size and place of its data.
    for n in [11, 1, 1] {
        file.extend(word(n));
    }
    file.extend(b"v\0\0\0");
    for n in [1, 0, 0, 0, 1, 20] {
        file.extend(word(n));
    }
    let begin = file.len() as u32 + 4;
    file.extend(word(begin));
    file.extend([3; 20]);
    file
}

fn text(length: usize) -> Vec<u8> {
    let mut text = b"run 17, beam on, detector cold\n".repeat(length / 31 + 1);
    text.truncate(length);
    text
}

/// Each call's answer. Every slice lent for writing holds zeros after it, and the image is as it was.
fn answers(image: &[u8]) -> Vec<(&'static str, u32)> {
    let mut blocks = vec![7; BLOCK_BYTES * MOST_BLOCKS];
    let (mut log, mut reply) = (vec![7; 16 * MOST_OBJECTS], vec![7; 8 * REPLY_WORDS]);
    let mut found = Vec::new();
    let mut note = |call, answer, slices: [&mut [u8]; 2]| {
        for slice in slices {
            assert!(slice.iter().all(|&byte| byte == 0), "{call}");
            slice.fill(7);
        }
        found.push((call, answer));
    };
    let answer = library::audit(image, &mut blocks, &mut reply);
    note("audit", answer, [&mut blocks, &mut reply]);
    let answer = library::lookup(image, b"/", &mut blocks, &mut reply);
    note("lookup", answer, [&mut blocks, &mut reply]);
    let answer = library::describe(image, b"/a", &mut blocks, &mut reply);
    note("describe", answer, [&mut blocks, &mut reply]);
    let mut mended = image.to_vec();
    let answer = library::mend(&mut mended, &mut blocks, &mut log, &mut reply, u64::MAX);
    assert!(mended == image);
    note("mend", answer, [&mut blocks, &mut reply]);
    assert!(log.iter().all(|&byte| byte == 0));
    let answer = front::audit_bytes(image, &mut blocks, &mut reply);
    note(
        "the separate reader's audit",
        answer,
        [&mut blocks, &mut reply],
    );
    found
}

#[test]
fn files_of_other_formats_are_not_taken_for_hdf5() {
    let files = [
        ("AFF version 1", aff(1), NO_SIGNATURE),
        ("AFF version 2", aff(2), NO_SIGNATURE),
        ("LIME", lime(), NO_SIGNATURE),
        ("netCDF classic", netcdf_classic(), NO_SIGNATURE),
        ("text", text(500), NO_SIGNATURE),
        ("text of 96 bytes", text(96), NO_SIGNATURE),
        ("text of 95 bytes", text(95), IMAGE_LENGTH),
        ("no bytes", Vec::new(), IMAGE_LENGTH),
    ];
    for (name, image, expected) in files {
        for (call, answer) in answers(&image) {
            assert_eq!(answer, expected, "{name}, {} bytes: {call}", image.len());
        }
    }
}
