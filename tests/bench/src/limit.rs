//! Safe calls of the plain C loops in limit.c.

mod sys {
    extern "C" {
        pub fn limit_headers(image: *const u8, length: usize) -> usize;
        pub fn limit_ends(bytes: *const u8, length: usize) -> usize;
        pub fn limit_copy(to: *mut u8, from: *const u8, length: usize);
        pub fn limit_edit(
            area: *mut u8,
            length: usize,
            used: usize,
            old: usize,
            pair: *const u8,
            new: usize,
        );
    }
}

/// Adds the 15 bytes that the checksum of every 16-byte header covers.
pub fn headers(image: &[u8]) -> usize {
    assert_eq!(image.len() % 16, 0);
    // SAFETY: the loop reads whole blocks of 16 bytes inside the slice.
    unsafe { sys::limit_headers(image.as_ptr(), image.len()) }
}

/// Counts the bytes 0x00 with memchr.
pub fn ends(bytes: &[u8]) -> usize {
    // SAFETY: the loop stays inside the slice.
    unsafe { sys::limit_ends(bytes.as_ptr(), bytes.len()) }
}

/// Copies the bytes to the start of the buffer with memcpy.
pub fn copy(buffer: &mut [u8], bytes: &[u8]) {
    assert!(bytes.len() <= buffer.len());
    // SAFETY: both slices have at least the copied length and do not overlap.
    unsafe { sys::limit_copy(buffer.as_mut_ptr(), bytes.as_ptr(), bytes.len()) }
}

/// Replaces the first `old` bytes of the area by the pair, moves the other used bytes and clears the rest.
pub fn edit(area: &mut [u8], used: usize, old: usize, pair: &[u8]) {
    assert!(old <= used && used <= area.len());
    assert!(used - old + pair.len() <= area.len());
    // SAFETY: the assertions keep every byte written or read inside the two slices.
    unsafe {
        sys::limit_edit(
            area.as_mut_ptr(),
            area.len(),
            used,
            old,
            pair.as_ptr(),
            pair.len(),
        )
    }
}
