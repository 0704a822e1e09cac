//! The limits of document 01, "Image 96 to 1,048,576 bytes", "Objects 256" and "Room is the lesser of 1,024 and the whole pairs
//! lent", as document 02 has them: "Raise the image to 16,777,216 bytes", "objects to 1,024", "and blocks to 8,192".

pub const LEAST_BYTES: usize = 96;
pub const MOST_BYTES: usize = 16_777_216;
pub const MOST_OBJECTS: usize = 1024;
pub const MOST_BLOCKS: usize = 8192;
