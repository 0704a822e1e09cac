//! The proved library. In C a `&[u8]` is a pointer and then a length. `blocks`, `log` and `reply` hold words of 8
//! little-endian bytes. With answer 6 the first word of the reply of an audit, lookup, description or mend is the address of
//! the first block entered that the refused one meets.

mod exported {
    extern "C" {
        pub fn ebikwotula_audit(
            image: *const u8,
            image_length: usize,
            blocks: *mut u8,
            blocks_length: usize,
            reply: *mut u8,
            reply_length: usize,
        ) -> u32;

        pub fn ebikwotula_lookup(
            image: *const u8,
            image_length: usize,
            path: *const u8,
            path_length: usize,
            blocks: *mut u8,
            blocks_length: usize,
            reply: *mut u8,
            reply_length: usize,
        ) -> u32;

        pub fn ebikwotula_describe(
            image: *const u8,
            image_length: usize,
            path: *const u8,
            path_length: usize,
            blocks: *mut u8,
            blocks_length: usize,
            reply: *mut u8,
            reply_length: usize,
        ) -> u32;

        pub fn ebikwotula_mend(
            image: *mut u8,
            image_length: usize,
            blocks: *mut u8,
            blocks_length: usize,
            log: *mut u8,
            log_length: usize,
            reply: *mut u8,
            reply_length: usize,
            limit: u64,
        ) -> u32;

        pub fn ebikwotula_undo(
            image: *mut u8,
            image_length: usize,
            log: *const u8,
            log_length: usize,
            reply: *mut u8,
            reply_length: usize,
            entries: u64,
            limit: u64,
        ) -> u32;

        pub fn ebikwotula_report(
            image: *const u8,
            image_length: usize,
            blocks: *mut u8,
            blocks_length: usize,
            reply: *mut u8,
            reply_length: usize,
        ) -> u32;
    }
}

/// The audit. On answer 0 the reply's words are the block count, the number of objects, then address, stored and true count
/// of each object, and the list has address, length, kind and owner of each block.
pub fn audit(image: &[u8], blocks: &mut [u8], reply: &mut [u8]) -> u32 {
    // Each pointer is that of a live slice of the length beside it.
    unsafe {
        exported::ebikwotula_audit(
            image.as_ptr(),
            image.len(),
            blocks.as_mut_ptr(),
            blocks.len(),
            reply.as_mut_ptr(),
            reply.len(),
        )
    }
}

/// The path lookup. On answer 0 the reply's words are the block count, which is 0, the kind and the address.
pub fn lookup(image: &[u8], path: &[u8], blocks: &mut [u8], reply: &mut [u8]) -> u32 {
    // Each pointer is that of a live slice of the length beside it.
    unsafe {
        exported::ebikwotula_lookup(
            image.as_ptr(),
            image.len(),
            path.as_ptr(),
            path.len(),
            blocks.as_mut_ptr(),
            blocks.len(),
            reply.as_mut_ptr(),
            reply.len(),
        )
    }
}

/// The dataset description. On answer 0 the reply's words are the block count, rank, 32 sizes, 32 maxima, class,
/// version, class bits, element size, shared address, layout class, data address and data size.
pub fn describe(image: &[u8], path: &[u8], blocks: &mut [u8], reply: &mut [u8]) -> u32 {
    // Each pointer is that of a live slice of the length beside it.
    unsafe {
        exported::ebikwotula_describe(
            image.as_ptr(),
            image.len(),
            path.as_ptr(),
            path.len(),
            blocks.as_mut_ptr(),
            blocks.len(),
            reply.as_mut_ptr(),
            reply.len(),
        )
    }
}

/// Mending with a write limit. On answer 0 the reply's words are the block count, the entries and the writes; the log's
/// are each entry's field address and its old count times 2^32 plus its true count.
pub fn mend(
    image: &mut [u8],
    blocks: &mut [u8],
    log: &mut [u8],
    reply: &mut [u8],
    limit: u64,
) -> u32 {
    // Each pointer is that of a live slice of the length beside it.
    unsafe {
        exported::ebikwotula_mend(
            image.as_mut_ptr(),
            image.len(),
            blocks.as_mut_ptr(),
            blocks.len(),
            log.as_mut_ptr(),
            log.len(),
            reply.as_mut_ptr(),
            reply.len(),
            limit,
        )
    }
}

/// Undo of so many entries with a write limit. On answer 0 the reply's word is the writes.
pub fn undo(image: &mut [u8], log: &[u8], reply: &mut [u8], entries: u64, limit: u64) -> u32 {
    // Each pointer is that of a live slice of the length beside it.
    unsafe {
        exported::ebikwotula_undo(
            image.as_mut_ptr(),
            image.len(),
            log.as_ptr(),
            log.len(),
            reply.as_mut_ptr(),
            reply.len(),
            entries,
            limit,
        )
    }
}

/// The damage report, which is always made where the reply has 8 words. These are the audit's answer, the block count, the
/// place, the damaged block's address, length, kind and object, and the block met; the list has the blocks entered.
pub fn report(image: &[u8], blocks: &mut [u8], reply: &mut [u8]) -> u32 {
    // Each pointer is that of a live slice of the length beside it.
    unsafe {
        exported::ebikwotula_report(
            image.as_ptr(),
            image.len(),
            blocks.as_mut_ptr(),
            blocks.len(),
            reply.as_mut_ptr(),
            reply.len(),
        )
    }
}
