//! The C boundary as it is declared in `nvram.h`.
//!
//! Each function answers the error code, and stores its outputs in any case.
//! The pointers must be valid for the lengths beside them, not null even where the length is 0, and must not overlap.

extern "C" {
    /// Checks an image and stores its number of partitions.
    pub fn nvram_check(
        image: *const u8,
        image_len: usize,
        offset: *mut usize,
        partitions: *mut usize,
    ) -> u32;

    /// Stores where the partition with an index stands, its blocks and its signature.
    pub fn nvram_partition(
        image: *const u8,
        image_len: usize,
        index: usize,
        offset: *mut usize,
        header: *mut usize,
        blocks: *mut usize,
        signature: *mut u8,
    ) -> u32;

    /// Stores where the first partition with a signature and a name stands, and its blocks; the name ends at its first 0x00.
    pub fn nvram_find(
        image: *const u8,
        image_len: usize,
        signature: u8,
        name: *const u8,
        name_len: usize,
        offset: *mut usize,
        header: *mut usize,
        blocks: *mut usize,
    ) -> u32;

    /// Stores the number of variables.
    pub fn nvram_count(
        image: *const u8,
        image_len: usize,
        offset: *mut usize,
        variables: *mut usize,
    ) -> u32;

    /// Copies a value to the buffer's start and stores the value's length.
    pub fn nvram_read(
        image: *const u8,
        image_len: usize,
        name: *const u8,
        name_len: usize,
        buffer: *mut u8,
        buffer_len: usize,
        offset: *mut usize,
        length: *mut usize,
    ) -> u32;

    /// Gives a variable a value.
    pub fn nvram_set(
        image: *mut u8,
        image_len: usize,
        name: *const u8,
        name_len: usize,
        value: *const u8,
        value_len: usize,
        offset: *mut usize,
    ) -> u32;

    /// Takes a variable out.
    pub fn nvram_remove(
        image: *mut u8,
        image_len: usize,
        name: *const u8,
        name_len: usize,
        offset: *mut usize,
    ) -> u32;

    /// Gives the data area of the variables its canonical form.
    pub fn nvram_normalize(image: *mut u8, image_len: usize, offset: *mut usize) -> u32;

    /// Writes the partition listing and stores its length.
    pub fn nvram_listing(
        image: *const u8,
        image_len: usize,
        text: *mut u8,
        text_len: usize,
        length: *mut usize,
    ) -> u32;
}
